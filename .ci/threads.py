"""Counts the threads of a program while it runs."""
import os
import time

PF_EXITING = 0x4  # the mark that the kernel gives to a thread that has begun to end, before another may find that it has ended


def runs_on(pid, thread):
    """Says whether a thread of a process is there and has not begun to end."""
    try:
        with open(f"/proc/{pid}/task/{thread}/stat", "rb") as file:
            flags = int(file.read().rpartition(b")")[2].split()[6])
    except (OSError, IndexError):
        return False
    return not flags & PF_EXITING


def threads_of(pid):
    """Returns how many threads of a process run at once. A thread that has been waited for may be listed for a moment beside the one that
    comes in its place, so that those count alone which run on once the list is read: all of them ran when its reading ended."""
    return sum(runs_on(pid, thread) for thread in os.listdir(f"/proc/{pid}/task"))


def most_threads(pid, is_over, seconds, wanted=None):
    """Returns the most threads that a process was seen to have, until `is_over` says so or after these seconds, and no longer than
    until it was seen to have `wanted`."""
    most, stop = 0, time.monotonic() + seconds
    while most != wanted and not is_over() and time.monotonic() < stop:
        try:
            most = max(most, threads_of(pid))
        except OSError:
            break
    return most
