#!/usr/bin/env python3
"""Makes a clip file of any film that ffmpeg reads, with its sound.

make_clip.py FILM CLIP.rclp [--size WxH] [--rate N] [--pairs N] [--seconds N] [--straight]

--size     the size of the pictures in pixels, 1280x720 if it is left out; that of the channel, or another one, which the server scales
--rate     the ticks a second of the server's configuration, 25 if it is left out
--pairs    the stereo pairs a frame, as in the configuration of the channel: 48,000 divided by the rate if the film has sound, else 0.
           The sound is resampled to `pairs * rate` pairs a second
--seconds  how much of the film is taken, all of it if it is left out
--straight makes a clip of version 2, whose colours are not multiplied by the alpha, at the size of the film. It goes without --size,
           since scaling comes after multiplying: the server multiplies first, and then scales

Without --straight it makes a clip of version 1: colours of a film with an alpha channel are multiplied by the alpha before they are
scaled. A film without sound gives silence if --pairs asks for some. It needs ffmpeg and ffprobe on the path.

All clips of a folder may have 1,073,741,824 bytes together, so a clip that has more by itself is refused, before it is made if the film
tells how long it is. At 25 ticks a second, with sound, 46.2 seconds of 640x360 fit, 11.6 of 1280x720 and 5.16 of 1920x1080. If the clip
cannot be written, nothing is left of it, and a file that was there stays.
"""

import argparse
import contextlib
import os
import struct
import subprocess
import sys
import tempfile

MULTIPLIED, STRAIGHT = 1, 2
MOST_BYTES = 1_073_741_824
MOST_FRAMES = 1_000_000


def streams(film, kind, field):
    """Returns what ffprobe says of a field of the first stream of a kind, `v` or `a`, and nothing if there is none."""
    words = ["ffprobe", "-v", "error", "-select_streams", f"{kind}:0", "-show_entries", f"stream={field}", "-of", "default=nw=1:nk=1", film]
    return subprocess.run(words, check=True, stdin=subprocess.DEVNULL, stdout=subprocess.PIPE, text=True).stdout.strip()


def has_alpha(pixel_format):
    """Returns whether pictures of this pixel format have an alpha channel."""
    return pixel_format.startswith(("rgba", "bgra", "argb", "abgr", "yuva", "gbrap", "ya8", "ya16", "pal8", "ayuv", "vuya"))


def length_of(film):
    """Returns how many seconds the film lasts, as far as it tells, or nothing."""
    words = ["ffprobe", "-v", "error", "-show_entries", "format=duration", "-of", "default=nw=1:nk=1", film]
    try:
        return float(subprocess.run(words, check=True, stdin=subprocess.DEVNULL, stdout=subprocess.PIPE, text=True).stdout)
    except ValueError:
        return None


def frame_bytes(said):
    """Returns how many bytes a frame has with its sound."""
    width, height = said.size
    return 4 * width * height + 4 * said.pairs


def most_frames(said):
    """Returns how many frames fit into the bytes that all clips may have together."""
    return min((MOST_BYTES - 20) // frame_bytes(said), MOST_FRAMES)


def refuse_if_long(said):
    """Refuses a film that tells that it lasts longer than a clip can."""
    lasts = length_of(said.film)
    if lasts is None:
        return
    taken = min(lasts, said.seconds or lasts)
    if taken * said.rate >= most_frames(said) + 1:
        sys.exit(too_long(said, f"{taken:g} seconds are"))


def too_long(said, what):
    """Returns why a film is refused, and how much of it would fit."""
    (width, height), most = said.size, most_frames(said)
    at = f"{width}x{height} with {said.pairs:,} stereo pairs a frame and {said.rate} frames a second"
    fit = most * 1000 // said.rate / 1000
    limit = f"a clip of {MOST_FRAMES:,} frames" if most == MOST_FRAMES else f"the {MOST_BYTES:,} bytes that all clips of a folder may have together"
    return f"make_clip.py: {said.film}: {what} too much for {limit}: of {at} {fit:g} seconds fit, as --seconds {fit:g} takes them"


def pictures(said, room):
    """Writes the pictures of the film as raw frames into a file, one more than fit at most, and returns its path."""
    path = f"{room}/pictures"
    width, height = said.size
    filters = [f"fps={said.rate}"]
    if not said.straight and has_alpha(streams(said.film, "v", "pix_fmt")):
        filters.append("format=gbrap,premultiply=inplace=1")
    if not said.straight:
        filters.append(f"scale={width}:{height}")
    words = ["ffmpeg", "-nostdin", "-v", "error", "-i", said.film, *said.taken, "-an"]
    few = ["-frames:v", str(most_frames(said) + 1)]
    subprocess.run([*words, "-vf", ",".join(filters), *few, "-pix_fmt", "bgra", "-f", "rawvideo", path], check=True)
    return path


def sound(said, room):
    """Writes the sound of the film as raw stereo pairs into a file, and returns its path, or nothing if it has none."""
    if not said.pairs or not streams(said.film, "a", "codec_name"):
        return None
    path = f"{room}/sound"
    words = ["ffmpeg", "-nostdin", "-v", "error", "-i", said.film, *said.taken, "-vn"]
    subprocess.run([*words, "-ac", "2", "-ar", str(said.pairs * said.rate), "-f", "s16le", path], check=True)
    return path


def write_frames(said, frames, paths, clip):
    """Writes the header into a file, and then each picture with its sound."""
    (width, height), (picture_path, sound_path) = said.size, paths
    picture_bytes, sound_bytes = 4 * width * height, 4 * said.pairs
    with open(picture_path, "rb") as shown, open(sound_path or os.devnull, "rb") as heard:
        clip.write(struct.pack(">4s4HI2H", b"RCLP", STRAIGHT if said.straight else MULTIPLIED, 0, width, height, frames, said.pairs, 0))
        for _ in range(frames):
            clip.write(shown.read(picture_bytes))
            clip.write(heard.read(sound_bytes).ljust(sound_bytes, b"\0"))


def write_clip(said, room):
    """Writes the clip under another name, and gives it its own when it is whole. Returns the number of frames."""
    refuse_if_long(said)
    width, height = said.size
    picture_path = pictures(said, room)
    frames = os.path.getsize(picture_path) // (4 * width * height)
    if frames > most_frames(said):
        sys.exit(too_long(said, f"{frames:,} frames or more are"))
    if not frames:
        sys.exit(f"make_clip.py: {said.film}: it has no picture, and a clip has 1 to {MOST_FRAMES:,}")
    paths, part = (picture_path, sound(said, room)), f"{said.clip}.part"
    try:
        with open(part, "wb") as clip:
            write_frames(said, frames, paths, clip)
        os.replace(part, said.clip)
    except BaseException as error:
        with contextlib.suppress(OSError):
            os.remove(part)
        if isinstance(error, OSError):
            sys.exit(f"make_clip.py: {said.clip}: {error.strerror}")
        raise
    return frames


def size(text):
    """Returns the width and the height of a text WxH."""
    width, height = (int(it) for it in text.lower().split("x"))
    if not (1 <= width <= 4096 and 1 <= height <= 4096):
        raise ValueError(text)
    return width, height


def main():
    reader = argparse.ArgumentParser(description="Makes a clip file of any film that ffmpeg reads.")
    reader.add_argument("film")
    reader.add_argument("clip", help="the file to make, whose name ends in .rclp")
    reader.add_argument("--size", type=size, help="WxH, 1280x720 if it is left out")
    reader.add_argument("--rate", type=int, default=25, choices=range(1, 241), metavar="N", help="ticks a second, 25 if it is left out")
    reader.add_argument("--pairs", type=int, choices=range(4097), metavar="N", help="stereo pairs a frame")
    reader.add_argument("--seconds", type=float, metavar="N", help="how much of the film is taken")
    reader.add_argument("--straight", action="store_true", help="a clip of version 2, with straight alpha, at the size of the film")
    said = reader.parse_args()
    if said.straight and said.size:
        reader.error("--straight goes without --size: scaling comes after multiplying")
    said.size = size("x".join(streams(said.film, "v", "width,height").split())) if said.straight else said.size or (1280, 720)
    said.taken = ["-t", str(said.seconds)] if said.seconds else []
    if said.pairs is None:
        said.pairs = min(48_000 // said.rate, 4096) if streams(said.film, "a", "codec_name") else 0
    with tempfile.TemporaryDirectory(prefix="make-clip-") as room:
        frames = write_clip(said, room)
    print(f"{said.clip}: {frames} frames of {said.size[0]}x{said.size[1]}, {said.pairs} stereo pairs each")


if __name__ == "__main__":
    main()
