#!/usr/bin/env python3
"""Parts raw frames into pictures and sound.

part_frames.py PICTURE_BYTES SOUND_BYTES PICTURES SOUND < FRAMES

Each frame on standard input is a picture of PICTURE_BYTES bytes and then a sound of SOUND_BYTES bytes. The pictures are
written to the file or named pipe PICTURES and the sounds to SOUND, each by a thread of its own, so that a player may open
and read the two in any order. If one of the two cannot be written any more, as when the player is closed, the program ends
at once with status 1, so that whoever writes the frames learns of it.
"""

import os
import queue
import sys
import threading

WAITING_FRAMES = 50


def write_all(path, pieces):
    """Writes the pieces of a queue to a file or a named pipe, up to the piece `None`."""
    try:
        with open(path, "wb", buffering=0) as out:
            while (piece := pieces.get()) is not None:
                while piece:
                    piece = piece[out.write(piece) :]
    except OSError as error:
        print(f"part_frames.py: {path}: {error.strerror}", file=sys.stderr, flush=True)
        # (the main thread may wait for room in a queue, or for a frame, and has to end too)
        os._exit(1)


def main():
    picture_bytes, sound_bytes = int(sys.argv[1]), int(sys.argv[2])
    queues = [queue.Queue(WAITING_FRAMES) for _ in range(2)]
    threads = [threading.Thread(target=write_all, args=it, daemon=True) for it in zip(sys.argv[3:5], queues)]
    for thread in threads:
        thread.start()
    frames = sys.stdin.buffer
    while len(picture := frames.read(picture_bytes)) == picture_bytes:
        queues[0].put(picture)
        queues[1].put(frames.read(sound_bytes))
    for pieces in queues:
        pieces.put(None)
    for thread in threads:
        thread.join()


if len(sys.argv) != 5:
    sys.exit(__doc__)
main()
