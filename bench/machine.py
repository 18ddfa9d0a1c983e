"""What the scripts that measure share: the name of this machine, and clips."""
import ctypes
import os
import platform
import struct
import time


def processor():
    """Returns the name of this machine's processor, if the system says it."""
    try:
        with open("/proc/cpuinfo", encoding="utf-8") as it:
            return next(line.split(":", 1)[1].strip() for line in it if line.startswith("model name"))
    except (OSError, StopIteration):
        return platform.processor() or "an unknown processor"


def machine():
    """Returns a line that names the machine."""
    return f"{processor()}, {os.cpu_count()} processors, {platform.system()} {platform.machine()}"


def raw_frame(width, height, number=0):
    """Returns the bytes of an opaque picture whose pixels differ, another one for each number."""
    row = b"".join(bytes(((x + 50 * number) % 200, x // 8 % 200, 90, 255)) for x in range(width))
    return row * height


def clip_file(width, height, frames):
    """Returns the bytes of a clip file without sound whose frames differ."""
    header = struct.pack(">4s4HI2H", b"RCLP", 1, 0, width, height, frames, 0, 0)
    return header + b"".join(raw_frame(width, height, number) for number in range(frames))


def copy_seconds(size, runs=200):
    """Returns the least seconds of copying, and of filling, this number of bytes."""
    one, two = ctypes.create_string_buffer(size), ctypes.create_string_buffer(size)
    ctypes.memset(one, 1, size)
    copies, fills = [], []
    for _ in range(runs):
        began = time.perf_counter()
        ctypes.memmove(two, one, size)
        copies.append(time.perf_counter() - began)
        began = time.perf_counter()
        ctypes.memset(two, 3, size)
        fills.append(time.perf_counter() - began)
    return min(copies), min(fills)
