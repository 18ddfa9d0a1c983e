# A cue sheet of a channel of one colour below layers that show nothing, and what it writes.
import hashlib
import os

WIDTH, HEIGHT, TICKS = 640, 360, 240

with open("studio.toml", "w") as file:
    file.write(f'listen = "127.0.0.1:5250"\nmedia = "clips"\nrate = 25\n[[channel]]\nwidth = {WIDTH}\nheight = {HEIGHT}\npairs = 0\noutput = "out.raw"\n')
os.mkdir("clips")
FRAME = bytes((0, 0, 255, 255)) * (WIDTH * HEIGHT)
LINES = ["PLAY 1-0 RED", *(f"PLAY 1-{layer} #00000000" for layer in range(1, 30))]
DIGEST = hashlib.sha256(FRAME).hexdigest()
with open("input", "w") as file:
    file.write("".join(f"AT 0 1.1 {line}\n" for line in LINES) + f"END {TICKS}\n")
with open("output", "w") as file:
    file.write("1.1 202 PLAY OK\n" * len(LINES) + "".join(f"D 1 {tick + 1} {DIGEST}\n" for tick in range(TICKS)))
