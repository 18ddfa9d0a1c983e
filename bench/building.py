"""Builds a program that measures, over a copy of the crates that it stands on and of what is proved of them."""
import os
import shutil
import subprocess
import sys

TOP = os.path.dirname(os.path.dirname(os.path.realpath(__file__)))


def lines_below(below):
    """Returns the lines of crates.txt of these crates, and of each crate of the repository that they stand on."""
    with open(f"{TOP}/crates.txt", encoding="utf-8") as it:
        lines = {line.partition(":")[0]: line for line in it if not line.startswith("#")}
    found, left = {}, list(below)
    while left:
        name = left.pop()
        if name in lines and name not in found:
            found[name] = lines[name]
            left += lines[name].partition(":")[2].split()
    return found


def build(folder, name, source, below):
    """Proves and builds a program of one file of bench/ in this folder, and returns its path."""
    crate = f"{folder}/crates/{name}"
    os.makedirs(f"{crate}/src")
    shutil.copy(f"{TOP}/HANDLES", folder)
    shutil.copy(f"{TOP}/bench/{source}", f"{crate}/src/main.rt")
    with open(f"{folder}/crates.txt", "w", encoding="utf-8") as it:
        for lower, line in lines_below(below).items():
            shutil.copytree(f"{TOP}/crates/{lower}", f"{folder}/crates/{lower}", ignore=shutil.ignore_patterns("must-fail", "edits"))
            it.write(line)
        it.write(f"{name}: {' '.join(below)}\n")
    print("the program is proved and built first, and below it what is not proved yet", file=sys.stderr, flush=True)
    built = subprocess.run(["rt", "run"], cwd=crate, stdout=subprocess.PIPE, stderr=subprocess.STDOUT, text=True, check=False)
    program = f"{crate}/out/{name}"
    if not os.path.exists(program):
        raise SystemExit(built.stdout + "\nthe program was not built")
    return program
