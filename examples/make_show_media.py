#!/usr/bin/env python3
"""Makes the clips of the show, bumper, title, soft and hum, and the logo, in the folder media beside this file. The sound has 8,000 pairs a second."""
import math
import os
import struct

MEDIA = os.path.join(os.path.dirname(os.path.realpath(__file__)), "media")
TICKS, PAIRS = 25, 320
LETTERS = {
    "S": ("01111", "10000", "10000", "01110", "00001", "00001", "11110"),
    "E": ("11111", "10000", "10000", "11110", "10000", "10000", "11111"),
    "V": ("10001", "10001", "10001", "10001", "10001", "01010", "00100"),
    "U": ("10001", "10001", "10001", "10001", "10001", "10001", "01110"),
    "A": ("01110", "10001", "10001", "11111", "10001", "10001", "10001"),
    "T": ("11111", "00100", "00100", "00100", "00100", "00100", "00100"),
    "O": ("01110", "10001", "10001", "10001", "10001", "10001", "01110"),
}


MULTIPLIED, STRAIGHT = 1, 2


def write(name, width, height, frames, pairs=0, version=MULTIPLIED):
    """Writes a clip of frames, each its pixels and its sound."""
    with open(f"{MEDIA}/{name}.rclp", "wb") as file:
        file.write(struct.pack(">4s4HI2H", b"RCLP", version, 0, width, height, len(frames), pairs, 0))
        for pixels, sound in frames:
            file.write(b"".join(bytes(pixel) for pixel in pixels))
            file.write(b"".join(struct.pack("<h", sample) for sample in sound))


def tone(hertz, start, volume):
    """Returns one tick of a tone on both sides, from the sample `start` on. The volume is a function of the sample."""
    samples = (round(volume(at) * math.sin(2 * math.pi * hertz * at / (TICKS * PAIRS))) for at in range(start, start + PAIRS))
    return [side for sample in samples for side in (sample, sample)]


def bumper():
    """One second: rings that run outward, and four notes."""
    frames = []
    for tick in range(TICKS):
        rings = [int(2 * max(abs(x - 7.5) * 9 / 16, abs(y - 4)) - tick) % 8 for y in range(9) for x in range(16)]
        pixels = [(0x20 + 0x10 * ring, 0x80, 0xFF, 0xFF) if ring < 4 else (0x60, 0x20, 0x10, 0xFF) for ring in rings]
        note, length = min(tick // 6, 3), 6 * PAIRS
        sound = tone((523, 659, 784, 1047)[note], tick * PAIRS, lambda at: 9000 * math.exp(-3 * (at - note * length) / length))
        frames.append((pixels, sound))
    return frames


def title(text):
    """White letters on nothing."""
    rows = ["0".join(LETTERS[letter][row] for letter in text) for row in range(7)]
    return len(rows[0]), 7, [([(0xFF,) * 4 if dot == "1" else (0,) * 4 for row in rows for dot in row], [])]


def logo(side):
    """A white ring and disc on orange with a soft edge. The alpha is straight: the colours are not multiplied by it."""
    pixels = []
    for y in range(side):
        for x in range(side):
            away = math.hypot(x + 0.5 - side / 2, y + 0.5 - side / 2) / (side / 2)
            colour = (0xFF,) * 3 if away < 0.3 or 0.5 < away < 0.65 else (0x10, 0x70, 0xF0)
            pixels.append((*colour, round(255 * min(1, max(0, (1 - away) * 5)))))
    return side, side, [(pixels, [])]


write("bumper", 16, 9, bumper(), PAIRS)
write("title", *title("SEVUATO"))
write("soft", 32, 1, [([(0, 0, 255 - max(0, 16 * (x - 16)), 255) for x in range(32)], [])])
write("hum", 1, 1, [([(0, 0, 0, 0)], tone(200, 0, lambda at: 4000))], PAIRS)
write("logo", *logo(48), version=STRAIGHT)
