"""Prints the summary of the script of seed 7 and 2,000 steps. The script is made here, and the output that is hashed and
counted is what the program at the path of the first word writes for it as a script."""
import hashlib
import re
import subprocess
import sys

SEED, STEPS = 7, 2000
CONFIGURATION = """listen = "none"
media = "clips"
rate = 25
""" + 2 * """
[[channel]]
width = 64
height = 36
pairs = 4
output = "none"
"""


def lines():
    """Makes the lines of the script, as scripts/Generator.antt of history_model says."""
    state = SEED

    def draw(limit):
        nonlocal state
        state = (state * 6364136223846793005 + 1442695040888963407) % 2**64
        return state // 2**33 % limit

    for _ in range(STEPS):
        kind, channel, layer, worker = draw(8), 1 + draw(2), draw(4), 1 + draw(3)
        place = f"{channel}-{layer}"
        if kind == 0:
            yield "T"
            continue
        if kind == 1:
            colour = "".join(f"{draw(256):02X}" for _ in range(4))
            text = f"PLAY {place} #{colour} MIX {draw(6)}"
        elif kind == 2:
            text = f"MIXER {place} OPACITY 0.{draw(10)} {draw(10)}"
        elif kind == 3:
            text = f"MIXER {place} FILL 0.{draw(10)} 0 0.{draw(10)} 1 DEFER"
        elif kind == 4:
            text = f"MIXER {channel} COMMIT"
        elif kind == 5:
            text = f"SWAP {place} {channel}-{draw(4)} TRANSFORMS"
        elif kind == 6:
            text = f"LOADBG {place} route://{1 + draw(2)} WIPE {draw(6)} LEFT AUTO"
        else:
            text = f"MIXER {place} OPACITY"
        yield f"{worker}.1 {text}"
    yield "T"


script = list(lines())
with open("made.toml", "w") as file:
    file.write(CONFIGURATION)
subprocess.run(["mkdir", "-p", "clips"], check=True)
ran = subprocess.run([sys.argv[1], "run", "--config", "made.toml"], input="\n".join([*script, ""]).encode(), check=True, stdout=subprocess.PIPE)
codes = [int(code) for code in re.findall(rb"^[1-3]\.1 ([0-9]{3}) ", ran.stdout, re.M)]
# Each line of a connection asks the stage for something, and is an event.
assert set(codes) <= {201, 202, 403}, codes
print("commands", sum(line != "T" for line in script))
print("ticks", sum(line == "T" for line in script))
print("refused", sum(code >= 400 for code in codes))
print("digest", hashlib.sha256(ran.stdout).hexdigest())
