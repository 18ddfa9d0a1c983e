"""What a server goes on with after one that was killed: trials of `--resume`. `.ci/server_run` runs them."""
import itertools
import os
import random
import re
import signal
import time
from concurrent.futures import ThreadPoolExecutor

from logs import BESIDE, EARLIEST, FRAME_BYTES, LATEST, LOG, LOGGED, ON_THEIR_WAY, RATE, Talker, end_by_kill, replies_missing
from loopback import OUTPUTS, Client, Server, prepare, replay

SEED = 47

# How long the second server goes on, in seconds.
GOES_ON = 1.0

# The log of the first server, once the second one is to read it.
BEFORE = "before.log"

RESUMES = ("--config", "server.toml", "--journal", "history.script", "--resume", BEFORE)


def busy_steps(number, chance):
    """Gives what a client says, without an end: lists of lines, each line with an event in the history, or a batch. What they begin
    takes several ticks: transitions, tweens, settings that wait for a commit of later, sound, and routes from one channel to the other."""
    for turn in itertools.count():
        channel = chance.choice("12")
        place, other = f"{channel}-{number * 10 + turn % 10}", "21"[int(channel) - 1]
        yield chance.choice([
            [f'PLAY {place} "A CLIP" LOOP'],
            [f"PLAY {place} #80{chance.randrange(1 << 24):06X} MIX {chance.randint(5, 60)} EASEINQUAD"],
            [f"PLAY {place} route://{other} {chance.choice(['MIX', 'WIPE', 'PUSH'])} {chance.randint(5, 40)}"],
            [f"PLAY {place} route://{channel}"],
            [f"MIXER {place} OPACITY 0.{chance.randrange(10, 99)} {chance.randint(0, 90)} EASEOUTCUBIC"],
            [f"MIXER {place} VOLUME 0.{chance.randrange(10, 99)} {chance.randint(0, 90)}"],
            [f"MIXER {place} FILL 0.25 0.{chance.randrange(10, 99)} 0.5 0.5 {chance.randint(0, 40)} DEFER"],
            [f"MIXER {place} OPACITY 0.{chance.randrange(10, 99)} DEFER"],
            [f"MIXER {channel} COMMIT"],
            [f'LOADBG {place} "A CLIP" MIX 20 AUTO'],
            ["BEGIN", f"PLAY {place} BLUE", f"MIXER {place} OPACITY 0.5 30 DEFER", "COMMIT"],
            [f"SWAP {place} {other}-{number * 10 + turn % 10}"],
            [f"PAUSE {place}"],
            ["INFO"],
        ])


class BusyTalker(Talker):
    """A client that says what takes several ticks."""

    steps = staticmethod(busy_steps)


def talk(run, seed, seconds):
    """Has three clients talk for some seconds."""
    port = run.port()
    talkers = [BusyTalker(port, it, random.Random(seed * 10 + it)) for it in range(3)]
    time.sleep(seconds)
    return talkers


def taken_output(room, name):
    """Gives an output another name, and returns what it holds."""
    os.rename(f"{room}/{name}", f"{room}/before-{name}")
    with open(f"{room}/before-{name}", "rb") as it:
        return it.read()


def ticks_and_connections(room):
    """Returns how many ticks the whole lines of the log have, and whose commands."""
    with open(f"{room}/{BEFORE}", encoding="utf-8") as it:
        lines = it.read().split("\n")[:-1]
    ticks = sum(int(line[2:] or 1) if line[1:] else 1 for line in lines if line[:1] == "T")
    return ticks, {line.split(" ", 1)[0] for line in lines if "." in line.split(" ", 1)[0]}


def outputs_missing(held, frames, ticks, room):
    """Says where what both servers wrote does not follow one another: the first one's frames up to the ticks of its log, but for those
    on their way, and then those of the second one."""
    found = []
    for channel, name in enumerate(OUTPUTS, 1):
        size, played, before = FRAME_BYTES[channel], bytes(frames.get(channel, b"")), held[channel - 1]
        with open(f"{room}/{name}", "rb") as it:
            after = it.read()
        both = min(len(before) // size, ticks) * size
        if before[:both] != played[:both]:
            at = next(at for at in range(0, both, size) if before[at : at + size] != played[at : at + size])
            found.append(f"frame {at // size + 1} of channel {channel} of the first server is another one in the replay")
        if not -ON_THEIR_WAY <= len(before) // size - ticks <= LOGGED * RATE + ON_THEIR_WAY:
            found.append(f"the first server wrote {len(before) // size} frames of channel {channel}, and its log has {ticks} ticks")
        if after != played[ticks * size :]:
            rest = played[ticks * size :]
            at = next((at for at in range(0, min(len(after), len(rest)), size) if after[at : at + size] != rest[at : at + size]), min(len(after), len(rest)))
            found.append(f"frame {at // size + 1} of channel {channel} of the second server is another one in the replay, or one of them has no more: {len(after)} and {len(rest)} bytes")
    return found


def resumed_at(server, player, room, seed):
    """Says what is wrong with what a server goes on with after a busy one that was killed at a moment by chance."""
    os.mkdir(room)
    prepare(room, connections=4)
    with Server(server, room) as run:
        first = talk(run, seed, random.Random(seed).uniform(EARLIEST, LATEST))
        ended = time.monotonic()
        run.run.send_signal(signal.SIGKILL)
        run.end()
        for it in first:
            it.join()
    held = [taken_output(room, name) for name in OUTPUTS]
    os.rename(f"{room}/{LOG}", f"{room}/{BEFORE}")
    os.remove(f"{room}/history.script.part")
    ticks, connections = ticks_and_connections(room)
    with Server(server, room, words=RESUMES) as run:
        second = talk(run, seed + 1_000_000, GOES_ON)
        last = Client(run.port())
        status, said = end_by_kill(run, last)
        for it in second:
            it.join()
    if status:
        return [f"moment {seed}: its status is {status}, and it said {said!r}"]
    found = [] if f"playd: {BEFORE}: goes on at " in said else [f"it said {said!r}"]
    replies, frames = replay(player, room)
    old = {it: lines for it, lines in replies.items() if it in connections}
    new = {it: lines for it, lines in replies.items() if it not in connections and lines != last.replies}
    found += [f"of the first server, {it}" for it in replies_missing(old, first, ended, False)]
    found += [f"of the second server, {it}" for it in replies_missing(new, second, 0, True)]
    found += outputs_missing(held, frames, ticks, room)
    return [f"moment {seed}: {it}" for it in found]


def resumed_at_any_moment(count):
    """Returns the trial of servers that go on after so many that were killed."""

    def a_server_that_goes_on(server, player, room):
        """Says what is wrong with servers that go on after busy ones that were killed at moments by chance: the new history, played from
        nothing, has to make the frames that both have written, one after another without a gap but for what was on its way, and the
        replies of both."""
        with ThreadPoolExecutor(BESIDE) as pool:
            runs = [pool.submit(resumed_at, server, player, f"{room}/{it}", SEED + it) for it in range(count)]
            return [fault for it in runs for fault in it.result()]

    return a_server_that_goes_on


def tree(room):
    """Returns each file of a folder with its size, its time and its number."""
    found = {}
    for at, _, names in os.walk(room):
        for name in names:
            stat = os.lstat(f"{at}/{name}")
            found[f"{at}/{name}"] = (stat.st_size, stat.st_mtime_ns, stat.st_ino)
    return found


def write(path, *parts):
    with open(path, "wb") as it:
        for part in parts:
            it.write(part)


def refused_histories(server, _player, room):
    """Says what is wrong if a history that cannot be resumed is not refused by its name, or if anything is touched by then."""
    prepare(room, connections=2)
    with open(f"{room}/server.toml", encoding="utf-8") as it:
        text = it.read()
    write(f"{room}/one.toml", text.rpartition("[[channel]]")[0].encode())
    write(f"{room}/small.toml", text.replace("rate", "journal_limit = 2\nrate", 1).encode())
    os.mkdir(f"{room}/folder")
    play = b"1.1 PLAY 1-0 RED\n"
    write(f"{room}/good", play, b"T 3\n", b"1.1 PLAY 2-0 BLUE\n", b"T\n", b"1.1 CLEAR 1-0\nX\n")
    write(f"{room}/program", bytes(range(256)) * 20)
    write(f"{room}/image", b"\x89PNG\r\n\x1a\n\0\0\0\rIHDR")
    write(f"{room}/long", play, b"1.1 PLAY 1-0 " + b"R" * 5000 + b"\n")
    write(f"{room}/clip", play, b"T\n", b'1.1 PLAY 1-1 "NO CLIP"\n')
    write(f"{room}/comment", play, b"# a comment\n")
    write(f"{room}/after", play, b"X\n", b"T\n")
    write(f"{room}/query", play, b"1.1 VERSION\n")
    write(f"{room}/refusal", play, b"T 2\n", b"1.1 PLAY 3-0 RED\n")
    write(f"{room}/huge")
    os.truncate(f"{room}/huge", 1 << 33)
    write(f"{room}/history.script", play)
    write(f"{room}/history.script.log", play)
    cases = [
        ("none", "server.toml", 4, "E device"),
        ("folder", "server.toml", 4, "E device"),
        ("program", "server.toml", 2, "E resume 1"),
        ("image", "server.toml", 2, "E resume 1"),
        ("long", "server.toml", 2, "E resume 2"),
        ("clip", "server.toml", 2, "E resume 3"),
        ("comment", "server.toml", 2, "E resume 2"),
        ("after", "server.toml", 2, "E resume 3"),
        ("query", "server.toml", 2, "E resume 2"),
        ("refusal", "server.toml", 2, "E resume 3"),
        ("good", "one.toml", 2, "E resume 3"),
        ("good", "small.toml", 2, "E resume 5"),
        ("huge", "server.toml", 2, "E input too long"),
        ("history.script", "server.toml", 1, "E usage"),
        ("history.script.log", "server.toml", 1, "E usage"),
        ("./history.script", "server.toml", 4, "E device"),
        ("folder/../history.script.log", "server.toml", 4, "E device"),
    ]
    found, before = [], tree(room)
    for path, config, status, line in cases:
        with Server(server, room, words=("--config", config, "--journal", "history.script", "--resume", path)) as run:
            got, _, said = run.end()
        if (got, said.rstrip("\n").rpartition("\n")[2]) != (status, line):
            found.append(f"with {path} and {config} its status is {got}, and it said {said!r}")
        if tree(room) != before:
            changed = {it for it, one in tree(room).items() if before.get(it) != one} ^ (before.keys() - tree(room).keys())
            found.append(f"with {path} and {config} these are other files than before: {sorted(changed)}")
            before = tree(room)
    with Server(server, room, words=("--config", "server.toml", "--resume", "good", "--resume", "good")) as run:
        got, _, said = run.end()
    return found if (got, said.rstrip("\n").rpartition("\n")[2]) == (1, "E usage") else [*found, f"with two files its status is {got}, and it said {said!r}"]


def says_where_it_goes_on(server, player, room):
    """Says what is wrong with what a server says and does that goes on from a history with a stop, a batch that is open, and bytes after
    the last line feed: it says what it leaves out, and counts its connections from where the history ends."""
    prepare(room, connections=1)
    text = b"1.4 PLAY 1-0 RED\nT 130\n1.7 PLAY 2-0 BLUE\nT\n"
    found = []
    for rest, left_out in ((b"", ""), (b"X\n", "its stop was left out"), (b"1.7 KILL\n", "its stop was left out"), (b"T 12", "4 bytes after the last line feed were left out"), (b"1.7 BEGIN\n1.7 CLEAR 1-0\n", "")):
        write(f"{room}/{BEFORE}", text, rest)
        with Server(server, room, words=RESUMES) as run:
            client = Client(run.port())
            client.ask("PLAY 1-1 #8000FF00")
            time.sleep(0.05)
            status, said = end_by_kill(run, client)
        line = next((it for it in said.splitlines() if it.startswith(f"playd: {BEFORE}: goes on")), "")
        if status or "goes on at 00:00:01:31" not in line or left_out not in line:
            found.append(f"after {rest!r} its status is {status}, and it said {said!r}")
            continue
        with open(f"{room}/history.script", "rb") as it:
            history = it.read()
        if not re.match(rb"1\.4 PLAY 1-0 #FFFF0000\nT 130\n1\.7 PLAY 2-0 #FF0000FF\nT \d+\n1\.8 PLAY 1-1 #8000FF00\nT( \d+)?\n1\.8 KILL\n", history):
            found.append(f"after {rest!r} its history is {history!r}")
        replies, frames = replay(player, room)
        for channel, name in enumerate(OUTPUTS, 1):
            with open(f"{room}/{name}", "rb") as it:
                if it.read() != bytes(frames.get(channel, b""))[131 * FRAME_BYTES[channel] :]:
                    found.append(f"after {rest!r} {name} is not what the replay has of channel {channel} from tick 132 on")
        if replies.get("1.8") != client.replies:
            found.append(f"after {rest!r} the client was answered {client.replies}, and in the replay {replies}")
    return found


CASES = [refused_histories, says_where_it_goes_on]
