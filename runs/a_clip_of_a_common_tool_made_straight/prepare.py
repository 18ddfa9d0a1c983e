# The input is a clip of three frames that ffmpeg makes: its test picture, fading from clear to opaque from left to right.
import shutil
import struct
import subprocess
import sys

if not shutil.which("ffmpeg"):
    print("there is no ffmpeg")
    sys.exit(77)
picture = "testsrc=size=32x18:rate=25,format=gbrap,geq=r='r(X,Y)':g='g(X,Y)':b='b(X,Y)':a='255*X/31',premultiply=inplace=1,format=bgra"
frames = subprocess.run(
    ["ffmpeg", "-v", "error", "-f", "lavfi", "-i", picture, "-frames:v", "3", "-f", "rawvideo", "-"],
    check=True, stdout=subprocess.PIPE).stdout
with open("input", "wb") as file:
    file.write(struct.pack(">4s4HI2H", b"RCLP", 1, 0, 32, 18, 3, 0, 0) + frames)
