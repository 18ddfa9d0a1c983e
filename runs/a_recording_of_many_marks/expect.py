"""Prints the clip of the recording EVENING, from the frames that the program at the path of the first word writes for the same
script. The first ADD of that name that is accepted is that of channel 2, after six ticks, since the batch with the ADD of channel 1
is refused. Five ticks follow until the next mark of channel 2."""
import subprocess
import sys

FIRST, COUNT = 7, 5

with open("input", "rb") as file:
    script = file.read()
said = subprocess.run([sys.argv[1], "run", "--config", "studio.toml"], input=script, check=True, stdout=subprocess.PIPE).stdout.decode()
assert said.count("2.1 403 COMMIT ERROR") == 1 and said.count("2.1 202 COMMIT OK") == 1, said[:2000]
frames, frame = {}, None
for line in said.split("\n")[:-1]:
    if line.startswith("F "):
        frame = frames.setdefault(tuple(line.split()[1:]), bytearray())
    elif "." not in line:
        frame += bytes.fromhex(line)
recorded = [bytes(frames["2", str(tick)]) for tick in range(FIRST, FIRST + COUNT)]
assert len(set(recorded)) == COUNT and all(len(it) == 12 * 7 * 4 + 2 * 4 for it in recorded)
sys.stdout.buffer.write(b"RCLP\0\1\0\0\0\x0c\0\x07" + COUNT.to_bytes(4, "big") + b"\0\2\0\0" + b"".join(recorded))
