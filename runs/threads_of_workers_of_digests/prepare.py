# A script of a channel of one row, whose frames one thread makes, and the digests of its frames, which all differ from the one before.
import hashlib
import os
import random
import struct

WIDTH, PAIRS, FRAMES, TICKS = 4096, 4096, 7, 8000

with open("studio.toml", "w") as file:
    file.write(f'listen = "127.0.0.1:5250"\nmedia = "clips"\nrate = 25\n[[channel]]\nwidth = {WIDTH}\nheight = 1\npairs = {PAIRS}\noutput = "out.raw"\n')
os.mkdir("clips")
MADE = random.Random(1)
PICTURES = [bytes((0, 0, shade, 255)) * WIDTH for shade in range(FRAMES)]
SOUNDS = [MADE.randbytes(4 * PAIRS) for _ in range(FRAMES)]
with open("clips/row.rclp", "wb") as file:
    file.write(struct.pack(">4s4HI2H", b"RCLP", 1, 0, WIDTH, 1, FRAMES, PAIRS, 0))
    file.write(b"".join(picture + sound for picture, sound in zip(PICTURES, SOUNDS)))
DIGESTS = [hashlib.sha256(picture + sound).hexdigest() for picture, sound in zip(PICTURES, SOUNDS)]
with open("input", "w") as file:
    file.write(f"1.1 PLAY 1-0 ROW LOOP\nT {TICKS}\n")
with open("output", "w") as file:
    file.write("1.1 202 PLAY OK\n" + "".join(f"D 1 {tick + 1} {DIGESTS[tick % FRAMES]}\n" for tick in range(TICKS)))
