#!/usr/bin/env python3
"""Compares the files that channels were written to with the digests of a replay.

check_outputs.py CONFIG DIGESTS

CONFIG is the configuration of the server, and DIGESTS is what `playrun run --config CONFIG --digest` wrote for its history. The
frame of each tick in the file of a channel has to have the digest of that tick, and after the last one nothing may follow. For each
channel a line says that it is so, or which frame is the first that differs; the status is then 1. A channel whose output is no file
is left out, and a line says so.
"""

import hashlib
import os
import sys
import tomllib


def digests_of(channel, path):
    """Yields the ticks of a channel, each with its digest."""
    with open(path, "rb") as lines:
        for words in map(bytes.split, lines):
            if words[:2] == [b"D", str(channel).encode()]:
                yield int(words[2]), words[3].decode()


def first_difference(channel, size, output, digests):
    """Returns what of an output is the first that differs, or how many of its frames are equal."""
    ticks = 0
    with open(output, "rb") as frames:
        for ticks, digest in digests_of(channel, digests):
            frame = frames.read(size)
            if len(frame) < size:
                return f"the frame of tick {ticks} is missing", True
            if hashlib.sha256(frame).hexdigest() != digest:
                return f"the frame of tick {ticks}, from byte {(ticks - 1) * size:,} on, is the first that differs", True
        return (f"more than the frames of {ticks} ticks", True) if frames.read(1) else (f"{ticks} frames are equal", False)


def main(config, digests):
    with open(config, "rb") as it:
        channels = tomllib.load(it)["channel"]
    has_differed = False
    for number, channel in enumerate(channels, 1):
        output = channel["output"]
        if os.path.isfile(output):
            size = 4 * (channel["width"] * channel["height"] + channel.get("pairs", 0))
            found, differs = first_difference(number, size, output, digests)
            has_differed |= differs
        else:
            found = "left out, since there is no such file"
        print(f"{output}: {found}")
    return int(has_differed)


if len(sys.argv) != 3:
    sys.exit(__doc__)
sys.exit(main(*sys.argv[1:]))
