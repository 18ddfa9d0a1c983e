"""What a server leaves that is ended at any moment: trials of its log, and of the signals that end a run. `.ci/server_run` runs them."""
import contextlib
import itertools
import os
import random
import resource
import signal
import threading
import time
from concurrent.futures import ThreadPoolExecutor

from loopback import Client, Server, prepare, replay

SEED = 46

# How many servers run beside one another, and the moments at which they are ended, in seconds after the first command.
BESIDE = 4
EARLIEST, LATEST = 0.05, 1.2

# Ticks a second of these servers, and the bytes of a frame of each channel.
RATE = 100
FRAME_BYTES = {1: 8 * 4 * 4 + 3 * 4, 2: 8 * 4 * 4}

# After how many seconds everything is in the log, and how many ticks may be on their way to the outputs then.
LOGGED, ON_THEIR_WAY = 0.2, 6

# The signals that ask a server to end, and how servers are ended here: by which signal, and whether these are blocked.
ASKS = {signal.SIGTERM, signal.SIGINT, signal.SIGHUP}
ENDS = [(signal.SIGKILL, True), (signal.SIGTERM, True), (signal.SIGINT, True), (signal.SIGTERM, False), (signal.SIGHUP, True)]

LOG, PART, KEPT = "history.script.log", "history.script.part", "history.script.log.1"


def block():
    """Blocks these signals in a process that becomes a server, which ignores none of them, even if what started the trials does."""
    for number in ASKS:
        signal.signal(number, signal.SIG_DFL)
    signal.pthread_sigmask(signal.SIG_BLOCK, ASKS)


def steps(number, chance):
    """Gives what a client says, without an end: lists of lines, each line with an event in the history, or a batch."""
    for turn in itertools.count():
        place = f"{chance.choice('12')}-{number * 10 + turn % 10}"
        yield chance.choice([
            [f"PLAY {place} RED"],
            [f"PLAY {place} #80{chance.randrange(1 << 24):06X} MIX {chance.randint(1, 30)}"],
            [f'PLAY {place} "A CLIP" LOOP'],
            [f"MIXER {place} OPACITY 0.{number}{chance.randrange(100):02} {chance.randint(0, 20)}", f"MIXER {place} OPACITY"],
            [f"MIXER {place} FILL 0.25 0.{chance.randrange(10, 99)} 0.5 0.5 10 EASEINQUAD"],
            ["BEGIN", f"PLAY {place} BLUE", f"MIXER {place} OPACITY 0.5 DEFER", f"MIXER {place[0]} COMMIT", "COMMIT"],
            [f"CLEAR {place}"],
            ["INFO"],
        ])


class Talker:
    """A client that says one command after another until its connection ends, and notes when it had how many lines of replies."""

    steps = staticmethod(steps)

    def __init__(self, port, number, chance):
        self.client, self.number, self.chance = Client(port), number, chance
        self.noted = []
        self.thread = threading.Thread(target=self.talk)
        self.thread.start()

    def talk(self):
        with contextlib.suppress(OSError, EOFError):
            for lines in self.steps(self.number, self.chance):
                for line in lines:
                    self.client.ask(line)
                self.noted.append((time.monotonic(), len(self.client.replies)))
                time.sleep(self.chance.choice([0, 0.001, 0.01]))

    def join(self):
        self.thread.join()
        self.client.close()

    def logged(self, ended, is_whole):
        """Returns how many lines of replies a replay has to have: all but those of a batch that was not ended, or those that were
        there a while before the end."""
        return max((count for at, count in self.noted if is_whole or at < ended - LOGGED), default=0)

    def is_kept(self, replayed, ended, is_whole):
        """Returns whether a replay has this client's replies, and of a whole history no other ones."""
        got = self.client.replies
        both = min(len(got), len(replayed))
        return replayed[:both] == got[:both] and len(replayed) >= self.logged(ended, is_whole) and (len(replayed) <= len(got) or not is_whole)


def replies_missing(replies, talkers, ended, is_whole):
    """Says whether the connections of a replay cannot be these clients."""
    found = [*replies.values(), *([] for _ in talkers[len(replies):])]
    for order in itertools.permutations(found):
        if all(talker.is_kept(it, ended, is_whole) for talker, it in zip(talkers, order)):
            return []
    counts = [(len(it.client.replies), it.logged(ended, is_whole)) for it in talkers]
    return [f"the clients had {counts} lines of replies, and those that have to be kept, and the replay has {[len(it) for it in found]}, or they differ"]


def frames_missing(room, frames, is_whole):
    """Says where the outputs do not hold the frames of a replay, but for those on their way."""
    found = []
    for channel, name in ((1, "one.raw"), (2, "two.raw")):
        with open(f"{room}/{name}", "rb") as it:
            held = it.read()
        played, size = bytes(frames.get(channel, b"")), FRAME_BYTES[channel]
        both = min(len(held), len(played))
        ahead = len(held) // size - len(played) // size
        if held[:both] != played[:both]:
            at = next(at for at in range(0, both, size) if held[at : at + size] != played[at : at + size])
            found.append(f"frame {at // size + 1} of channel {channel} is another one in the replay")
        if is_whole and held != played or not -ON_THEIR_WAY <= ahead <= LOGGED * RATE + ON_THEIR_WAY:
            found.append(f"the output of channel {channel} has {len(held)} bytes, and the replay {len(played)}")
    return found


def take_log(room):
    """Gives the whole lines of the log the name of the history."""
    with open(f"{room}/{LOG}", "rb") as it:
        text = it.read()
    with open(f"{room}/history.script", "wb") as it:
        it.write(text[: text.rfind(b"\n") + 1])


def ended_at(server, player, room, seed, end):
    """Says what is wrong with what a busy server leaves that is ended so at a moment by chance."""
    number, is_blocked = end
    chance = random.Random(seed)
    os.mkdir(room)
    prepare(room)
    with Server(server, room, preexec_fn=block if is_blocked else None) as run:
        port = run.port()
        talkers = [Talker(port, it, random.Random(seed * 10 + it)) for it in range(3)]
        time.sleep(chance.uniform(EARLIEST, LATEST))
        ended = time.monotonic()
        run.run.send_signal(number)
        status, _, said = run.end()
        took = time.monotonic() - ended
        for it in talkers:
            it.join()
    is_whole = is_blocked and number in ASKS
    names = sorted(it for it in os.listdir(room) if it.startswith("history"))
    wanted = (0, ["history.script"]) if is_whole else (-number, [LOG, PART])
    found = [] if (status, names) == wanted else [f"its status is {status}, it left {names}, and it said {said!r}"]
    if is_whole and (took > 2 or f"playd: {number.name}: the run ends\n" not in said):
        found.append(f"it ended {took:.1f} seconds after {number.name}, and said {said!r}")
    if not found:
        if not is_whole:
            take_log(room)
        replies, frames = replay(player, room)
        found = replies_missing(replies, talkers, ended, is_whole) + frames_missing(room, frames, is_whole)
    return [f"moment {seed}, {number.name}{'' if is_blocked else ', which is not blocked'}: {it}" for it in found]


def ended_at_any_moment(count):
    """Returns the trial of a server that is ended at so many moments, each in another way than the one before."""

    def a_server_that_is_ended(server, player, room):
        """Says what is wrong with what busy servers leave that are ended at moments by chance: the log, cut after its last line, has
        to make the frames that the outputs hold and the replies that clients had a while before, but for what was on its way; and
        after a signal that was blocked the history has to be whole, and the log to be gone."""
        with ThreadPoolExecutor(BESIDE) as pool:
            runs = [pool.submit(ended_at, server, player, f"{room}/{it}", SEED + it, ENDS[it % len(ENDS)]) for it in range(count)]
            return [fault for it in runs for fault in it.result()]

    return a_server_that_is_ended


def end_by_kill(run, client):
    """Says KILL, and returns the status of the server and what it said."""
    client.ask("KILL")
    status, _, said = run.end()
    client.close()
    return status, said


def a_fresh_log(server, _player, room):
    """Says what is wrong if a command is not in the log soon after its reply."""
    prepare(room)
    longest = 0
    with Server(server, room) as run:
        client = Client(run.port())
        for layer in range(20):
            client.ask(f"PLAY 1-{layer} RED")
            begun, text = time.monotonic(), b""
            while f" PLAY 1-{layer} #FFFF0000\n".encode() not in text and time.monotonic() < begun + 2:
                time.sleep(0.005)
                with open(f"{room}/{LOG}", "rb") as it:
                    text = it.read()
            longest = max(longest, time.monotonic() - begun)
            time.sleep(0.01)
        status, said = end_by_kill(run, client)
    found = [] if status == 0 else [f"its status is {status}, and it said {said!r}"]
    return found if longest < LOGGED else [*found, f"a command was in the log {longest:.3f} seconds after its reply"]


def a_log_that_lies_there(server, _player, room):
    """Says what is wrong with the logs after servers that found one: it has to be kept, and no start to succeed over a folder."""
    prepare(room)
    found = []
    for left, names in (("T 1\n", ["history.script", KEPT]), ("", ["history.script", "history.script.1", KEPT])):
        with open(f"{room}/{LOG}", "w", encoding="utf-8") as it:
            it.write(left)
        with Server(server, room) as run:
            client = Client(run.port())
            client.ask("PLAY 1-0 RED")
            status, said = end_by_kill(run, client)
        if status or (f"playd: {LOG}: the file that was here is now {KEPT}\n" in said) != bool(left):
            found.append(f"beside a log of {left!r} its status is {status}, and it said {said!r}")
        there = sorted(it for it in os.listdir(room) if it.startswith("history"))
        if there != sorted(names):
            found.append(f"beside a log of {left!r} it left {there}")
    with open(f"{room}/{KEPT}", encoding="utf-8") as it:
        if it.read() != "T 1\n":
            found.append("the log that was kept has changed")
    os.mkdir(f"{room}/{LOG}")
    with Server(server, room) as run:
        status, _, said = run.end()
    if status != 4 or not said.endswith(f"playd: {LOG}: what stands here is no regular file\nE device\n") or os.path.exists(f"{room}/{PART}"):
        found.append(f"beside a folder its status is {status}, and it said {said!r}")
    return found


def goes_on_without(server, player, room, why, **options):
    """Says what is wrong with a server whose log fails for this cause: it has to say so once, to go on, to write the history, and to
    end as after a failed device."""
    with Server(server, room, **options) as run:
        client, begun = Client(run.port()), time.monotonic()
        client.ask("PLAY 1-0 RED")
        while "goes on without it" not in run.said() and time.monotonic() < begun + 20:
            time.sleep(0.05)
        client.ask("PLAY 1-1 BLUE")
        status, said = end_by_kill(run, client)
    lines = [it for it in said.splitlines() if it.startswith("playd: log:")]
    found = []
    if status != 4 or lines != [f"playd: log: {LOG}: {why}; the run goes on without it"]:
        found.append(f"its status is {status}, and it said {said!r}")
    names = sorted(it for it in os.listdir(room) if it.startswith("history"))
    if names != ["history.script"]:
        return [*found, f"it left {names}"]
    replies, _ = replay(player, room)
    return found if list(replies.values()) == [client.replies] else [*found, f"the client was answered {client.replies}, and in the replay {replies}"]


def a_log_without_room(server, player, room):
    """Says what is wrong with a server whose log has grown to the limit on the size of files."""
    prepare(room, outputs=("/dev/null", "/dev/null"))
    return goes_on_without(server, player, room, "File too large (os error 27)", preexec_fn=lambda: resource.setrlimit(resource.RLIMIT_FSIZE, (200, 200)))


def no_log(server, _player, room):
    """Says what is wrong if a server has a log that has no history, or one that is no regular file."""
    prepare(room, outputs=("/dev/null", "/dev/null"))
    found = []
    for words in ((), ("--journal", "/dev/null")):
        with Server(server, room, words=("--config", "server.toml", *words)) as run:
            client = Client(run.port())
            client.ask("PLAY 1-0 RED")
            time.sleep(0.2)
            there = [it for it in os.listdir(room) if it.endswith(".log")]
            status, said = end_by_kill(run, client)
        if status or there or os.path.exists("/dev/null.log"):
            found.append(f"with {words} there is {there}, its status is {status}, and it said {said!r}")
    return found


def a_log_that_is_moved(server, _player, room):
    """Says what is wrong with the end of a server whose log was moved, and another file has its name: that has to stay."""
    prepare(room)
    with Server(server, room) as run:
        client = Client(run.port())
        os.rename(f"{room}/{LOG}", f"{room}/moved")
        with open(f"{room}/{LOG}", "w", encoding="utf-8") as it:
            it.write("of somebody else")
        status, said = end_by_kill(run, client)
    names = sorted(it for it in os.listdir(room) if it.startswith(("history", "moved")))
    if status or names != ["history.script", LOG, "moved"] or f"playd: log: {LOG}: it was moved or removed meanwhile\n" not in said:
        return [f"its status is {status}, there are {names}, and it said {said!r}"]
    return []


def a_signal_before_the_run(server, _player, room):
    """Says what is wrong with a server that is asked to end while it waits for the readers of its pipes: it has to end at once."""
    prepare(room)
    for name in ("one.raw", "two.raw"):
        os.mkfifo(f"{room}/{name}")
    with Server(server, room, preexec_fn=block) as run:
        time.sleep(0.3)
        begun = time.monotonic()
        run.run.send_signal(signal.SIGTERM)
        status, _, said = run.end()
        took = time.monotonic() - begun
    if status or took > 1.5 or "playd: SIGTERM: the run ends\n" not in said:
        return [f"its status is {status}, {took:.1f} seconds after the signal, and it said {said!r}"]
    return []


def a_signal_that_is_ignored(server, _player, room):
    """Says what is wrong with a server that was started to ignore a signal: it has to go on."""
    prepare(room)

    def before():
        block()
        signal.signal(signal.SIGHUP, signal.SIG_IGN)

    with Server(server, room, preexec_fn=before) as run:
        client = Client(run.port())
        run.run.send_signal(signal.SIGHUP)
        time.sleep(0.6)
        client.ask("PLAY 1-0 RED")
        status, said = end_by_kill(run, client)
    return [f"its status is {status}, and it said {said!r}"] if status or "the run ends" in said else []


def a_slow_clock(server, _player, room):
    """Says what is wrong with a server of one tick a second that is asked to end: within half a second it has to say that it does."""
    prepare(room)
    with open(f"{room}/server.toml", encoding="utf-8") as it:
        text = it.read()
    with open(f"{room}/server.toml", "w", encoding="utf-8") as it:
        it.write(text.replace(f"rate = {RATE}", "rate = 1"))
    found = []
    for pause in (0.1, 0.4, 0.7):
        with Server(server, room, preexec_fn=block) as run:
            run.port()
            time.sleep(1 + pause)
            begun = time.monotonic()
            run.run.send_signal(signal.SIGINT)
            while "playd: SIGINT: the run ends\n" not in run.said() and time.monotonic() < begun + 2:
                time.sleep(0.01)
            took = time.monotonic() - begun
            status, _, said = run.end()
        if status or took > 0.5:
            found.append(f"its status is {status}, {took:.1f} seconds after the signal, and it said {said!r}")
    return found


CASES = [
    a_fresh_log,
    a_log_that_lies_there,
    a_log_without_room,
    no_log,
    a_log_that_is_moved,
    a_signal_before_the_run,
    a_signal_that_is_ignored,
    a_slow_clock,
]
