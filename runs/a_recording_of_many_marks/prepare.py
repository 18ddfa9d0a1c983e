# A studio of two channels with sound, a clip of eight frames, and the history of an evening with many marks.
import os

CONFIGURATION = """listen = "127.0.0.1:5250"
media = "clips"
rate = 25
[[channel]]
width = 16
height = 9
pairs = 1
output = "one.raw"
[[channel]]
width = 12
height = 7
pairs = 2
output = "two.raw"
"""

WIDTH, HEIGHT, FRAMES = 12, 7, 8

SCRIPT = """1.1 PLAY 1-10 "LOOP" LOOP
{backgrounds}
2.1 PLAY 2-10 route://1
T 3
2.1 BEGIN
2.1 ADD 1 FILE EVENING
2.1 LOADBG 1-300 "LOOP"
2.1 COMMIT
T
1.1 ADD 2 FILE other
T 2
2.1 BEGIN
2.1 PLAY 2-20 #80FF0000 PUSH 6 LINEAR
2.1 ADD 2 FILE evening
2.1 MIXER 2-20 VOLUME 0.5 4
2.1 COMMIT
T 2
1.1 ADD 1 FILE evening
1.1 REMOVE 1 FILE
3.1 MIXER 2-20 OPACITY 0.25 5 EASEINCUBIC
T 3
1.1 ADD 2 FILE evening
T 2
1.1 REMOVE 2 FILE
T
"""


def frame(number):
    """Returns a frame of the clip: a picture, and two pairs of samples."""
    picture = bytes(value for at in range(WIDTH * HEIGHT) for value in ((at * 3 + number) % 200, (at + 31 * number) % 200, number * 20, 200))
    return picture + b"".join((1000 * number + 7 * pair).to_bytes(2, "little") + (-300 * number & 0xffff).to_bytes(2, "little") for pair in range(2))


with open("studio.toml", "w") as file:
    file.write(CONFIGURATION)
os.mkdir("clips")
with open("clips/loop.rclp", "wb") as file:
    file.write(b"RCLP\0\1\0\0" + WIDTH.to_bytes(2, "big") + HEIGHT.to_bytes(2, "big") + FRAMES.to_bytes(4, "big") + b"\0\2\0\0")
    file.write(b"".join(frame(number) for number in range(FRAMES)))
# With these channel 1 has 64 live layers, so that the batch with one more is refused, and its ADD with it.
backgrounds = "\n".join(f'1.1 LOADBG 1-{layer} "LOOP"' for layer in range(200, 263))
with open("input", "w") as file:
    file.write(SCRIPT.format(backgrounds=backgrounds))
