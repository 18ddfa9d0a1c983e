# A recording of a channel of one colour below layers that show nothing, and what it writes.
import os

WIDTH, HEIGHT, TICKS = 640, 360, 90

with open("studio.toml", "w") as file:
    file.write(f'listen = "127.0.0.1:5250"\nmedia = "clips"\nrate = 25\n[[channel]]\nwidth = {WIDTH}\nheight = {HEIGHT}\npairs = 0\noutput = "out.raw"\n')
os.mkdir("clips")
FRAME = bytes((0, 0, 255, 255)) * (WIDTH * HEIGHT)
LINES = ["PLAY 1-0 RED", *(f"PLAY 1-{layer} #00000000" for layer in range(1, 60))]
with open("input", "w") as file:
    file.write("".join(f"1.1 {line}\n" for line in LINES) + f"1.1 ADD 1 FILE EVENING\nT {TICKS}\n")
with open("output", "wb") as file:
    file.write(b"RCLP\0\1\0\0" + WIDTH.to_bytes(2, "big") + HEIGHT.to_bytes(2, "big") + TICKS.to_bytes(4, "big") + bytes(4) + FRAME * TICKS)
