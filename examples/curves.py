#!/usr/bin/env python3
"""Prints how far each curve has gone after each of ten ticks, as a table.

curves.py [--playrun PATH]

For each curve it sends one opacity from 0 to 1 in ten ticks and asks for it after each of them. The numbers are the program's own
answers. It runs `bin/playrun`, or the program at PATH.
"""

import argparse
import os
import subprocess

TOP = os.path.dirname(os.path.dirname(os.path.realpath(__file__)))
CURVES = ("LINEAR", "EASEINQUAD", "EASEOUTQUAD", "EASEINCUBIC", "EASEOUTCUBIC")
TICKS = 10


def script():
    """Returns the script of all curves, in which each has a connection of its own."""
    lines = []
    for number, curve in enumerate(CURVES, 1):
        lines += [f"1.{number} MIXER 1-0 OPACITY 0", f"1.{number} MIXER 1-0 OPACITY 1 {TICKS} {curve}"]
        for _ in range(TICKS):
            lines += ["T", f"1.{number} MIXER 1-0 OPACITY"]
    return "".join(f"{line}\n" for line in lines)


def answers(program):
    """Returns the values that are answered, for each curve in the order of the ticks."""
    ran = subprocess.run([program, "run", "1", "1"], input=script(), stdout=subprocess.PIPE, check=True, text=True)
    values = {number: [] for number in range(1, len(CURVES) + 1)}
    is_value = False
    for line in ran.stdout.splitlines():
        tag, _, said = line.partition(" ")
        if is_value:
            values[int(tag.partition(".")[2])].append(said)
        is_value = said == "201 MIXER OK"
    return values


def main():
    words = argparse.ArgumentParser(description="Prints how far each curve has gone after each of ten ticks.")
    words.add_argument("--playrun", metavar="PATH", default=f"{TOP}/bin/playrun", help="the program that is asked")
    values = answers(words.parse_args().playrun)
    print("| After tick |" + "".join(f" {tick} |" for tick in range(1, TICKS + 1)))
    print("|---|" + "---|" * TICKS)
    for number, curve in enumerate(CURVES, 1):
        print(f"| `{curve}` |" + "".join(f" {value} |" for value in values[number]))


if __name__ == "__main__":
    main()
