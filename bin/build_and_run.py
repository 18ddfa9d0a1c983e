"""Runs a proved program of this repository: the name of its crate, and then the program's own words.

The programs in this folder call it. It runs the program that was built here of the sources as they are, or else the released one
(released.py), if that is of the same sources and has its checksum. If there is neither, it says why, and the program is proved and
built first, on a copy of the sources and on all processors, and what the gate passed on this machine is taken from there. What
happens is told on standard error: one line a crate, and each minute what the build is at. Then the program runs in the place
of this script, with the caller's standard streams, and its status is the status. The server and the viewer run with SIGTERM,
SIGINT and SIGHUP blocked, since they look for these and end by themselves.

Other first words run no program. --build builds what is neither built nor released of the sources as they are, all at once, and
with --anew all programs, whatever there is. --install and a folder puts the programs there, each under its name and the sum of its
sources, with a link of the name alone to it. --release renews the released programs, and with --sources prints the sums.

What was built is kept in sevuato/ of the caller's folder for such files (XDG_CACHE_HOME, ~/.cache if it is not set), under the
name of the program and the sum of its sources, so that the gate does not clear it and other clones with the same sources use
it. The toolchain's own words of the last build stand beside it, in build.log. In released/ beside it are copies of released
programs, under such names, since a program says its sources by the name of its file. A copy is made anew if the release has other
bytes. Where none can be made the released file itself is run.

If the program has to be built and cannot be, the status is 70 and nothing is run: what was built before stays where it is, and
it is not the program that the sources say. Nothing is removed but the oldest programs of a name, beyond the last four.
"""

import contextlib
import fcntl
import hashlib
import os
import re
import selectors
import shutil
import signal
import subprocess
import sys
import tempfile
import time

# (python3 -I looks into no folder but those of the system, and a start writes nothing into this one)
sys.dont_write_bytecode = True
sys.path.insert(0, os.path.dirname(os.path.realpath(__file__)))

import released

TOP = os.path.dirname(os.path.dirname(os.path.realpath(__file__)))
NOT_BUILT = 70
PARTS = ("src", "specs", "proofs")
# A module of tests: its name, and all of it that stands in the file.
TEST_MODULE = re.compile(rb"(?ms)^#\[cfg\(test\)\]\n(?:pub )?mod (\w+)(?:;\n| \{\n.*?^\}\n)")
# What the gate says of a crate.
SAID = re.compile(r"rt: (\w+) (proved|is kept|NOT PROVED)\b")


# The programs of this repository.
PROGRAMS = ["playrun", "playd", "playview"]

# The signals that a program is started with blocked, by its name: it looks for these itself.
ENDING = (signal.SIGTERM, signal.SIGINT, signal.SIGHUP)
LOOKED_FOR = {"playd": ENDING, "playview": ENDING}


class NotBuilt(Exception):
    """Why the program was not built, in words for its caller."""


def crates_below(name):
    """Returns the line of each crate that the program is made of, the program's own first."""
    with open(f"{TOP}/crates.txt", encoding="utf-8") as it:
        lines = [line.partition("#")[0].strip() for line in it]
    known = {line.partition(":")[0].split()[0]: line for line in lines if line}
    found, left = {}, [name]
    while left:
        crate = left.pop(0)
        if crate in known and crate not in found:
            found[crate] = known[crate]
            left += known[crate].partition(":")[2].split()
    if name not in found:
        raise NotBuilt(f"crates.txt has no crate {name}")
    return found


def texts_below(crate):
    """Gives the path in the crate, and the bytes, of each file that is proved or built."""
    left = [it for it in PARTS if os.path.isdir(f"{crate}/{it}")]
    while left:
        folder = left.pop()
        with os.scandir(f"{crate}/{folder}") as found:
            for it in found:
                path = f"{folder}/{it.name}"
                if it.is_dir():
                    left.append(path)
                else:
                    with open(it.path, "rb", buffering=0) as file:
                        yield path, file.read()


def files_of(crate):
    """Gives each file of a crate that goes into the program, by its path in the crate, with its bytes. Tests do not go in."""
    texts, tests = dict(texts_below(crate)), []
    for path, text in texts.items():
        if b"#[cfg(test)]" in text:
            module = "" if path in ("src/lib.rt", "src/main.rt") else f"{path[len('src/') : -len('.rt')]}/"
            tests += [f"{module}{name.decode()}/" for name in TEST_MODULE.findall(text)]
            texts[path] = TEST_MODULE.sub(b"", text)
    for path in sorted(texts):
        module = os.path.splitext(path.partition("/")[2])[0]
        if not f"{module}/".startswith(tuple(tests)):
            yield path, texts[path]


def sum_of(top, crates):
    """Returns a sum of all that goes into the program, or that its proof rests on, but for the toolchain."""
    found = hashlib.sha256(released.bytes_of(f"{top}/HANDLES"))
    for name, line in sorted(crates.items()):
        found.update(b"\0%s\0" % " ".join(line.split()).encode())
        for path, text in files_of(f"{top}/crates/{name}"):
            found.update(b"%s\0%s\0" % (os.fsencode(path), text))
    return found.hexdigest()[:16]


def sums_of(names):
    """Returns the sum of the sources of each of these programs, as they are."""
    return {it: sum_of(TOP, crates_below(it)) for it in names}


def copy_crates(crates, to):
    """Copies the sources of these crates to a repository of their own."""
    # (the gate takes a folder with .git for the top of a repository)
    os.makedirs(f"{to}/.git")
    shutil.copyfile(f"{TOP}/HANDLES", f"{to}/HANDLES")
    with open(f"{to}/crates.txt", "w", encoding="utf-8") as it:
        it.writelines(f"{line}\n" for line in crates.values())
    for name in crates:
        for part in PARTS:
            for at, _, names in os.walk(f"{TOP}/crates/{name}/{part}"):
                inside = f"{to}/{os.path.relpath(at, TOP)}"
                os.makedirs(inside)
                for it in names:
                    shutil.copyfile(f"{at}/{it}", f"{inside}/{it}", follow_symlinks=False)


def clear(folder):
    """Removes a folder of this script, in which a process that was ended may still write for a moment."""
    for _ in range(20):
        shutil.rmtree(folder, ignore_errors=True)
        if not os.path.exists(folder):
            return
        time.sleep(0.1)


def lines_of(crates):
    """Returns the number of lines of each of these crates."""
    return {name: sum(text.count(b"\n") for _, text in files_of(f"{TOP}/crates/{name}")) for name in crates}


class Work:
    """The crates that a build has to prove, by their lines and by the crates that each of them stands on."""

    def __init__(self, crates):
        self.lines = lines_of(crates)
        self.below = {name: [it for it in line.partition(":")[2].split() if it in crates] for name, line in crates.items()}

    def lines_in_turn(self, left):
        """Returns how many lines have to be proved one after another, if `left` has the lines that are left of each crate: those of
        the longest chain of crates, or the share of one of four processors."""
        longest = {}

        def chain(name):
            if name not in longest:
                longest[name] = left.get(name, 0) + max(map(chain, self.below[name]), default=0)
            return longest[name]

        return max([*map(chain, self.below), sum(left.values()) / PROCESSORS])


def minutes(crates):
    """Returns about how many minutes the toolchain takes to prove these crates from nothing."""
    work = Work(crates)
    return max(1, round(work.lines_in_turn(work.lines) * SECONDS_A_LINE / 60))


PROCESSORS = min(len(os.sched_getaffinity(0)) if hasattr(os, "sched_getaffinity") else 1, 4)
SECONDS_A_LINE = 0.06
SECONDS_BETWEEN_WORDS = 60
KEPT_PROGRAMS = 4


def kept_in():
    """Returns the folder in which built programs are kept."""
    home = os.environ.get("XDG_CACHE_HOME", "")
    return f"{home if os.path.isabs(home) else os.path.expanduser('~/.cache')}/sevuato"


def program_of(name, sources):
    """Returns the path of the program that was built from the sources of this sum."""
    return f"{kept_in()}/{name}.{sources}"


def is_own_program(path):
    """Returns whether a program stands there that this user, or the system's first user, made."""
    try:
        return os.path.isfile(path) and os.stat(path).st_uid in (0, os.geteuid())
    except OSError:
        return False


def say(name, text):
    print(f"{name}: {text}", file=sys.stderr, flush=True)


@contextlib.contextmanager
def gate_over(folder, rooms):
    """Starts `rt ci` in the folder, gives its session and its output, and ends it with all that it started."""
    how = {"stdin": subprocess.DEVNULL, "stdout": subprocess.PIPE, "stderr": subprocess.STDOUT}
    ran = subprocess.Popen(["rt", "ci"], cwd=folder, start_new_session=True, env={**os.environ, "TMPDIR": rooms}, **how)
    try:
        yield ran.pid, ran.stdout
    finally:
        with contextlib.suppress(ProcessLookupError):
            os.killpg(ran.pid, signal.SIGKILL)
        ran.wait()
        ran.stdout.close()


class Progress:
    """What a build is at: which crates are done, and since when each of the others is under way."""

    def __init__(self, crates):
        self.work, self.began, self.since = Work(crates), time.monotonic(), {}
        self.left = set(crates)
        self.all = self.lines_left(self.began)

    def done(self, crate, is_proved):
        """Notes that a crate is done, and whether it was proved in this build."""
        now = time.monotonic()
        before = self.lines_left(now)
        self.left.discard(crate)
        self.since.pop(crate, None)
        if not is_proved:
            self.all -= before - self.lines_left(now)

    def lines_left(self, now):
        """Returns about how many lines are left to prove one after another. Of a crate that is under way at least a tenth is left."""
        part = {it: min(0.9, (now - began) / (self.work.lines[it] * SECONDS_A_LINE + 1)) for it, began in self.since.items()}
        return self.work.lines_in_turn({it: self.work.lines[it] * (1 - part.get(it, 0)) for it in self.left})

    def seconds_left(self, now):
        """Returns about how many seconds are left: as fast as until now, which the usual speed corrects while little is proved."""
        left, usual = self.lines_left(now), self.all / 2
        proved = max(0, self.all - left)
        return left * (now - self.began + usual * SECONDS_A_LINE) / (proved + usual + 1)

    def text(self, session):
        """Returns what the processes of a session are at, and about how many minutes are left."""
        now, found = time.monotonic(), set()
        for it in filter(str.isdigit, os.listdir("/proc")):
            with contextlib.suppress(OSError, ValueError):
                if os.getsid(int(it)) == session:
                    with open(f"/proc/{it}/cmdline", encoding="utf-8", errors="replace") as said:
                        words = said.read().split("\0")
                    found.add(words[words.index("--crate-name") + 1])
        self.since = {it: self.since.get(it, now) for it in found & self.left}
        at = ", ".join(f"{it}, {(now - began) / 60:.0f} min" for it, began in sorted(self.since.items(), key=lambda it: it[1]))
        left = max(1, round(self.seconds_left(now) / 60))
        return f"{(now - self.began) / 60:.0f} min: at {at or 'the toolchain'}; about {left} min left"


def spoken(lines, say_progress):
    """Gives the lines of a stream, and calls the function whenever none has come for a while."""
    with selectors.DefaultSelector() as waiting:
        waiting.register(lines, selectors.EVENT_READ)
        os.set_blocking(lines.fileno(), False)
        held, spoke = "", time.monotonic()
        while True:
            if waiting.select(max(0.0, spoke + SECONDS_BETWEEN_WORDS - time.monotonic())):
                piece = os.read(lines.fileno(), 65536).decode(errors="replace")
                if not piece:
                    break
                *whole, held = (held + piece).split("\n")
                yield from whole
            if time.monotonic() - spoke >= SECONDS_BETWEEN_WORDS:
                say_progress()
                spoke = time.monotonic()


def prove(names, crates, folder, rooms, log):
    """Proves the crates in the folder, and returns once the programs of these names are built there."""
    done, who, progress, wanted = 0, " ".join(names), Progress(crates), set(names)
    with gate_over(folder, rooms) as (session, lines):
        for line in spoken(lines, lambda: say(who, progress.text(session))):
            log.write(f"{line}\n")
            log.flush()
            said = SAID.match(line)
            if not said or said[1] not in progress.left:
                continue
            if said[2] == "NOT PROVED":
                raise NotBuilt(f"the crate {said[1]} is not proved")
            done += 1
            progress.done(said[1], said[2] == "proved")
            wanted.discard(said[1])
            say(who, f"{done} of {len(crates)}: {said[1]} {'is proved' if said[2] == 'proved' else 'was proved before'}")
            if not wanted:
                return
    raise NotBuilt("the toolchain stopped before the program was built")


def keep(text, name, sources, folder):
    """Keeps a program of these bytes in the folder under the sum of its sources, and removes the oldest ones of its name."""
    os.makedirs(folder, mode=0o700, exist_ok=True)
    released.put(text, f"{folder}/{name}.{sources}")
    of_name = re.compile(rf"{name}\.[0-9a-f]{{16}}")
    paths = [f"{folder}/{it}" for it in os.listdir(folder) if of_name.fullmatch(it)]
    for path in sorted(paths, key=os.path.getmtime)[:-KEPT_PROGRAMS]:
        os.remove(path)


def take_released(name, sources):
    """Returns the path of a copy of the released program of this name and these sources, or of itself if no copy can be made."""
    text, folder = released.program(name, sources), f"{kept_in()}/released"
    copy = f"{folder}/{name}.{sources}"
    with contextlib.suppress(OSError):
        if not is_own_program(copy) or released.bytes_of(copy) != text:
            keep(text, name, sources, folder)
        return copy
    return f"{released.FOLDER}/{name}"


def find(name, sources):
    """Returns the path of the program that was built of the sources of this sum, or else of the released one."""
    built = program_of(name, sources)
    return built if is_own_program(built) else take_released(name, sources)


def find_all(names):
    """Returns, by their names, the programs that there are of the sources as they are, and why there is none of the others. Each is a
    path, and the sum of its sources."""
    found, lacking = {}, {}
    for name, sources in sums_of(names).items():
        try:
            found[name] = find(name, sources), sources
        except released.NotTaken as why:
            lacking[name] = why
    return found, lacking


def build(names, anew=False):
    """Builds the programs of these names from the sources as they stand, and keeps each under their sum. If they were built before
    it is done again only if `anew` says so. Returns the sum of the sources of each."""
    kept, who = kept_in(), " ".join(names)
    log = f"{kept}/build.log"
    if not shutil.which("rt"):
        raise NotBuilt(released.other_system() or "the toolchain's rt is not on the path")
    os.makedirs(kept, mode=0o700, exist_ok=True)
    with contextlib.ExitStack() as held:
        # (if two callers build at once, the second finds what the first built)
        place = os.open(kept, os.O_RDONLY)
        held.callback(os.close, place)
        fcntl.flock(place, fcntl.LOCK_EX)
        below = {it: crates_below(it) for it in names}
        sums = {it: sum_of(TOP, below[it]) for it in names}
        if not anew and all(is_own_program(program_of(*it)) for it in sums.items()):
            return sums
        crates = {name: line for it in below.values() for name, line in it.items()}
        with tempfile.TemporaryFile(dir=kept):
            # (the programs can be put here)
            pass
        said = held.enter_context(open(log, "w", encoding="utf-8"))
        room = tempfile.mkdtemp(prefix=f"{names[0]}-build-")
        held.callback(clear, room)
        os.mkdir(f"{room}/rooms")
        copy_crates(crates, f"{room}/top")
        what = "the program is built first" if len(names) == 1 else "the programs are built"
        say(who, f"{what}: seconds if the gate passed the {len(crates)} crates on this machine, else about {minutes(crates)} min. The toolchain's words go to {log}")
        try:
            prove(names, crates, f"{room}/top", f"{room}/rooms", said)
        except NotBuilt as why:
            raise NotBuilt(f"{why}, as {log} says") from None
        sums = {it: sum_of(f"{room}/top", below[it]) for it in names}
        for it, sources in sums.items():
            keep(released.bytes_of(f"{room}/top/crates/{it}/out/{it}"), it, sources, kept)
        return sums


def have(names):
    """Returns the programs of these names, as `find_all` does. What is neither built nor released is built."""
    while True:
        found, lacking = find_all(names)
        if not lacking:
            return found
        for name, why in lacking.items():
            say(name, why)
        build(list(lacking))


def run(name, words):
    """Runs the program in the place of this one. It returns only if the program was removed meanwhile."""
    program, _ = have([name])[name]
    # (Python ignores these two, and the program would inherit that)
    for it in (signal.SIGPIPE, signal.SIGXFSZ):
        signal.signal(it, signal.SIG_DFL)
    before = signal.pthread_sigmask(signal.SIG_BLOCK, LOOKED_FOR.get(name, ()))
    with contextlib.suppress(FileNotFoundError):
        os.execv(program, [name, *words])
    signal.pthread_sigmask(signal.SIG_SETMASK, before)
    if os.path.exists(program):
        raise NotBuilt(f"the system cannot load {program}: it needs the GNU C library, with /lib64/ld-linux-x86-64.so.2")


def is_same(name, sources):
    """Says where a program was built, and returns whether the released one, if there is one of the same sources, has the same bytes."""
    built = program_of(name, sources)
    try:
        same = released.program(name, sources) == released.bytes_of(built)
    except released.NotTaken as why:
        say(name, f"built as {built}; not compared: {why}")
        return True
    say(name, f"built as {built}, which {'is, byte for byte,' if same else 'has other bytes than'} the released program")
    return same


def build_all(words):
    """Builds the programs of which there is none of the sources as they are, or, with a word, all of them. Returns the status."""
    if words == ["--anew"]:
        return 0 if all([is_same(*it) for it in build(PROGRAMS, anew=True).items()]) else 1
    if words:
        raise NotBuilt("bin/build takes no word but --anew")
    for name, (path, _) in have(PROGRAMS).items():
        if os.path.dirname(path) != kept_in():
            say(name, "the released program is of these sources; bin/build --anew builds it all the same")
    return 0


def install(words):
    """Puts the programs into a folder, which is made if it is not there. Older ones stay there. Returns the status."""
    if len(words) != 1:
        raise NotBuilt("bin/install takes one word, the folder")
    [folder] = words
    programs = have(PROGRAMS)
    os.makedirs(folder, exist_ok=True)
    for name, (program, sources) in programs.items():
        released.put(released.bytes_of(program), f"{folder}/{name}.{sources}")
        link = f"{folder}/{name}"
        with contextlib.suppress(FileNotFoundError):
            os.remove(f"{link}.new")
        os.symlink(f"{name}.{sources}", f"{link}.new")
        os.replace(f"{link}.new", link)
        say(name, f"installed as {link}, built from {sources}")
    return 0


def release(words):
    """Renews the released programs, or, with a word, prints what SOURCES has for the sources as they are. Returns the status."""
    if words == ["--sources"]:
        print(released.sources_text(sums_of(PROGRAMS), released.kit()), end="")
        return 0
    if words:
        raise released.NotTaken("bin/release takes no word but --sources")
    sums = sums_of(PROGRAMS)
    released.renew(sums)
    for name, sources in sums.items():
        say(name, f"released, built from {sources}")
    return 0


# What else than to run a program can be asked for, with what is said that was not done if it fails.
OTHERS = {"--build": (build_all, "built"), "--install": (install, "installed"), "--release": (release, "released")}


def main(name, words):
    def stop(number, _):
        sys.exit(128 + number)

    for it in (signal.SIGINT, signal.SIGTERM, signal.SIGHUP):
        signal.signal(it, stop)
    other, done = OTHERS.get(name, (None, "started"))
    who = " ".join(PROGRAMS) if other else name
    try:
        if other:
            return other(words)
        while True:
            run(name, words)
    except (NotBuilt, released.NotTaken) as why:
        say(who, f"not {done}: {why}")
    except OSError as error:
        say(who, f"not {done}: {error.filename or 'the build'}: {error.strerror}")
    return NOT_BUILT


if __name__ == "__main__":
    sys.exit(main(sys.argv[1], sys.argv[2:]))
