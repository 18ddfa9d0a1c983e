#!/usr/bin/env python3
"""Makes a PNG of one frame of what `playrun` writes, with Python alone.

make_png.py PICTURE.png [--channel C] [--tick T] < OUTPUT

It takes the frame of channel C at tick T, both 1 if they are left out. A line of hexadecimal digits is a row, of blue, green, red and
alpha for each pixel, whose colours are multiplied by the alpha. In a PNG they are not, so each becomes the nearest that is the same
when it is multiplied. A line of another length than the first is the sound and is left out; if it has the same length, as a channel
with a stereo pair for each column has, `--height` says how many rows there are.
"""

import argparse
import re
import struct
import sys
import zlib


def rows_of(lines, channel, tick, height):
    """Returns the rows of the frame, in bytes."""
    rows, is_in = [], False
    for line in lines:
        if line.startswith("F "):
            is_in = line.split() == ["F", str(channel), str(tick)]
        elif is_in and re.fullmatch(r"[0-9a-f]+\n", line) and (height is None or len(rows) < height):
            row = bytes.fromhex(line)
            if not rows or len(row) == len(rows[0]):
                rows.append(row)
    return rows


def straight(pixel):
    """Returns a pixel as red, green, blue and alpha, whose colours are not multiplied."""
    blue, green, red, alpha = pixel
    return bytes((it * 255 + alpha // 2) // alpha if alpha else 0 for it in (red, green, blue)) + bytes([alpha])


def chunk(kind, content):
    return struct.pack(">I", len(content)) + kind + content + struct.pack(">I", zlib.crc32(kind + content))


def png(rows):
    """Returns the bytes of a PNG of these rows."""
    seen = {}
    lines = b""
    for row in rows:
        pixels = (row[at : at + 4] for at in range(0, len(row), 4))
        lines += b"\0" + b"".join(seen.get(it) or seen.setdefault(it, straight(it)) for it in pixels)
    head = struct.pack(">2I5B", len(rows[0]) // 4, len(rows), 8, 6, 0, 0, 0)
    return b"\x89PNG\r\n\x1a\n" + chunk(b"IHDR", head) + chunk(b"IDAT", zlib.compress(lines, 9)) + chunk(b"IEND", b"")


def main():
    parser = argparse.ArgumentParser(description=__doc__, formatter_class=argparse.RawDescriptionHelpFormatter)
    parser.add_argument("picture")
    parser.add_argument("--channel", type=int, default=1)
    parser.add_argument("--tick", type=int, default=1)
    parser.add_argument("--height", type=int)
    given = parser.parse_args()
    rows = rows_of(sys.stdin, given.channel, given.tick, given.height)
    if not rows:
        sys.exit(f"make_png.py: there is no frame of channel {given.channel} at tick {given.tick}")
    with open(given.picture, "wb") as it:
        it.write(png(rows))


if __name__ == "__main__":
    main()
