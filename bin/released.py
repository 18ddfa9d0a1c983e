"""The released programs of this repository: of which sources each is, whether it is whole, and how they are renewed.

`release/` has a program for each name, and two lists. `SHA256SUMS` has a line of `sha256sum` for each program. `SOURCES` has, for
each program, its name and the sum of the sources that the gate proved and built it from, as build_and_run.py computes it, and after
the word `kit` what `rt version` said of the toolchain.

That a program is what its sources say, no list can show. `.ci/run` builds it from them and compares each byte.
"""

import hashlib
import os
import shutil
import subprocess
import tempfile

TOP = os.path.dirname(os.path.dirname(os.path.realpath(__file__)))
FOLDER = f"{TOP}/release"
# What the last gate that passed in this clone has built, of which sources: the lines of `sources_text`, and those of `sha256sum`.
PASSED = f"{TOP}/out/passed"
# The system and the processor that the programs are for, in the words of `uname`.
RUNS_ON = ("Linux", "x86_64")


class NotTaken(Exception):
    """Why no released program is taken, or none is put in its place, in words for the caller."""


def other_system():
    """Returns what this machine is, if the programs do not run on it."""
    here = os.uname()
    return None if (here.sysname, here.machine) == RUNS_ON else f"it runs on Linux on x86-64, and this is {here.sysname} on {here.machine}"


def pairs_of(path):
    """Returns the first word of each line of a file with the rest of the line. A file that is not there has no lines."""
    try:
        with open(path, encoding="utf-8", errors="replace") as it:
            return [(*line.split(None, 1), "")[:2] for line in it.read().splitlines() if line.strip()]
    except FileNotFoundError:
        return []


def list_of(name):
    """Returns what a list of the release has for each of its names."""
    pairs = pairs_of(f"{FOLDER}/{name}")
    return {name: digest for digest, name in pairs} if name == "SHA256SUMS" else dict(pairs)


def bytes_of(path):
    with open(path, "rb") as it:
        return it.read()


def digest_of(text):
    return hashlib.sha256(text).hexdigest()


def whole(name):
    """Returns the bytes of the released program of this name, whose checksum is that of the list. Its sources are not looked at."""
    digest = list_of("SHA256SUMS").get(name)
    if digest is None:
        raise NotTaken(f"release/SHA256SUMS has no {name}")
    try:
        text = bytes_of(f"{FOLDER}/{name}")
    except FileNotFoundError:
        raise NotTaken(f"release/{name} is missing") from None
    if digest_of(text) != digest:
        raise NotTaken(f"release/{name} has not the checksum that release/SHA256SUMS says")
    return text


def program(name, sources):
    """Returns the bytes of the released program of this name, if it is whole, of the sources of this sum, and runs here."""
    of = list_of("SOURCES").get(name)
    if of is None:
        raise NotTaken("no program of this name is released")
    if other_system():
        raise NotTaken(f"the released program does not run here: {other_system()}")
    if of != sources:
        raise NotTaken(f"the released program is of other sources ({of}) than this checkout ({sources})")
    return whole(name)


def put(text, to):
    """Puts a file with these bytes there, which all may run. Whoever looks there finds all of it, or what stood there before."""
    place, path = tempfile.mkstemp(prefix=".new-", dir=os.path.dirname(to))
    try:
        with open(place, "wb") as it:
            it.write(text)
        os.chmod(path, 0o755)
        os.replace(path, to)
    except BaseException:
        os.remove(path)
        raise


def kit():
    """Returns what the toolchain says of itself, or an empty text where none is on the path."""
    if not shutil.which("rt"):
        return ""
    return subprocess.run(["rt", "version"], stdin=subprocess.DEVNULL, stdout=subprocess.PIPE, text=True, check=False).stdout.strip()


def sources_text(sums, of_kit):
    """Returns the text of SOURCES for the sums of the sources by the names of their programs."""
    return "".join(f"{name} {said}\n" for name, said in {**sums, "kit": of_kit}.items() if said)


def renew(sums):
    """Releases the programs of these names, which the gate has to have built and passed in this clone, of sources of these sums."""
    pairs, texts = pairs_of(PASSED), {}
    passed = dict(pairs)
    if not pairs:
        raise NotTaken("the gate has passed nothing in this clone: run .ci/run")
    for name, sources in sums.items():
        if passed.get(name) != sources:
            raise NotTaken(f"the gate passed {name} of other sources ({passed.get(name)}) than this checkout ({sources}): run .ci/run")
        built = f"crates/{name}/out/{name}"
        try:
            texts[name] = bytes_of(f"{TOP}/{built}")
        except FileNotFoundError:
            raise NotTaken(f"{built} is missing: run .ci/run") from None
        if (digest_of(texts[name]), built) not in pairs:
            raise NotTaken(f"{built} is not the program that the gate passed: run .ci/run")
    os.makedirs(FOLDER, exist_ok=True)
    lists = {
        "SHA256SUMS": "".join(f"{digest_of(text)}  {name}\n" for name, text in texts.items()),
        "SOURCES": sources_text(sums, passed.get("kit", "")),
    }
    for name, text in texts.items():
        put(text, f"{FOLDER}/{name}")
    for name, text in lists.items():
        put(text.encode(), f"{FOLDER}/{name}")
        os.chmod(f"{FOLDER}/{name}", 0o644)
