# An evening at its own size: a loop of four frames of 320 by 180 pixels on a channel of 1280 by 720, a second channel that shows the
# first, and a strip that moves and fades. The output is made here by the rules of docs/PROTOCOL.md, a row at a time.
import functools
import hashlib
import os
import struct

WIDTH, HEIGHT, CLIP_WIDTH, CLIP_HEIGHT, FRAMES = 1280, 720, 320, 180, 4
BEFORE, STILL, MOVING, LATER = 25, 1, 12, 13
CHANNEL = f'[[channel]]\nwidth = {WIDTH}\nheight = {HEIGHT}\noutput = "out.raw"\n'
# The colour C0202020, multiplied by its alpha.
STRIP = [(0x20 * 0xC0 + 127) // 255] * 3 + [0xC0]


def pixel(frame, x, y):
    """Returns a pixel of the clip. Some of the colours are above their alpha."""
    alpha = 128 if (x + y) % 16 == 0 else 255
    return bytes(((5 * y + 40 * frame) % 256, 3 * x % 256, (3 * x + 64 * frame) % 256, alpha))


def row_of(frame, row):
    """Returns a row of the channel that shows a frame of the clip: each colour is at most its alpha."""
    y = (2 * row + 1) * CLIP_HEIGHT // (2 * HEIGHT)
    pixels = [pixel(frame, x, y) for x in range(CLIP_WIDTH)]
    pixels = [bytes(min(it, of[3]) for it in of) for of in pixels]
    return b"".join(pixels[(2 * x + 1) * CLIP_WIDTH // (2 * WIDTH)] for x in range(WIDTH))


@functools.cache
def over(upper, row):
    """Returns a row under a pixel that lies over all of it."""
    laid = bytearray(row)
    for at, byte in enumerate(upper):
        laid[at::4] = row[at::4].translate(bytes(min(255, byte + (it * (255 - upper[3]) + 127) // 255) for it in range(256)))
    return bytes(laid)


def strip_at(tick):
    """Returns the upper edge and the opacity of the strip at a tick, in millionths."""
    gone = min(max(tick - BEFORE - STILL, 0), MOVING)
    return 1_000_000 - 200_000 * gone // MOVING, 1_000_000 - 100_000 * gone // MOVING


def is_in_strip(edge, row):
    """Returns whether a row of the channel shows the strip, whose height is a fifth of the channel."""
    return 0 <= ((2 * row + 1) * 1_000_000 - 2 * HEIGHT * edge) // (2 * 200_000) < HEIGHT


def picture(tick):
    """Returns the pixels of the first channel at a tick."""
    edge, opacity = strip_at(tick)
    upper = tuple((it * opacity + 500_000) // 1_000_000 for it in STRIP)
    rows = []
    for row in range(HEIGHT):
        below = ROWS[(tick - 1) % FRAMES, row]
        rows.append(over(upper, below) if is_in_strip(edge, row) else below)
    return b"".join(rows)


os.mkdir("clips")
with open("clips/bgloop.rclp", "wb") as file:
    file.write(struct.pack(">4s4HI2H", b"RCLP", 1, 0, CLIP_WIDTH, CLIP_HEIGHT, FRAMES, 0, 0))
    file.write(b"".join(pixel(frame, x, y) for frame in range(FRAMES) for y in range(CLIP_HEIGHT) for x in range(CLIP_WIDTH)))
with open("studio.toml", "w") as file:
    file.write(f'listen = "127.0.0.1:5250"\nmedia = "clips"\nrate = 25\n{CHANNEL}{CHANNEL}')
ROWS = {}
for frame in range(FRAMES):
    for row in range(HEIGHT):
        same = (frame, row - 1)
        is_same = same in ROWS and (2 * row + 1) * CLIP_HEIGHT // (2 * HEIGHT) == (2 * row - 1) * CLIP_HEIGHT // (2 * HEIGHT)
        ROWS[frame, row] = ROWS[same] if is_same else row_of(frame, row)
before = hashlib.sha256(bytes(4 * WIDTH * HEIGHT)).hexdigest()
with open("output", "w") as file:
    file.write("1.1 202 PLAY OK\n2.1 202 PLAY OK\n3.1 202 PLAY OK\n3.1 202 MIXER OK\n")
    for tick in range(1, BEFORE + STILL + MOVING + LATER + 1):
        if tick == BEFORE + 1:
            file.write("3.1 202 MIXER OK\n" * 2)
        if tick == BEFORE + STILL + 1:
            file.write("3.1 202 MIXER OK\n")
        now = hashlib.sha256(picture(tick)).hexdigest()
        file.write(f"D 1 {tick} {now}\nD 2 {tick} {before}\n")
        before = now
    file.write(f"1.1 200 INFO OK\n1.1 1 {WIDTH}x{HEIGHT} PLAYING\n1.1 2 {WIDTH}x{HEIGHT} PLAYING\n1.1 \n")
