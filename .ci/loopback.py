"""What the scripts share that run the built `playd` over loopback, and replay its history with the built `playrun`."""
import argparse
import os
import re
import socket
import subprocess
import tempfile
import threading
import time

TOP = os.path.dirname(os.path.dirname(os.path.realpath(__file__)))
SECONDS = 60

# A clip of two frames of two by one pixels, each with one stereo pair.
CLIP = b"RCLP\0\x01\0\0\0\x02\0\x01\0\0\0\x02\0\x01\0\0" + b"aaaAbbbBl1r1" + b"cccCdddDl2r2"

# What each client sends. Each line asks for an event of the history, so each reply is in the replay.
CLIENTS = [
    ["PLAY 1-10 RED", 'PLAY 1-11 "A CLIP" LOOP', "MIXER 1-10 OPACITY 0.5 10", "PAUSE 1-11", "RESUME 1-11", "MIXER 1-10 OPACITY", "INFO"],
    ["REQ 1 LOADBG 2-0 #FF00FF00 MIX 8", "req two PLAY 2-0", "REQ 3 BEGIN", "REQ 4 PLAY 2-1 route://1", "REQ ~! MIXER 2-1 FILL 0.25 0.25 0.5 0.5", "REQ 6 COMMIT", "REQ 7 STOP 2-0"],
    ["MIXER 1-11 VOLUME 0.25 DEFER", "MIXER 2-1 OPACITY 0.75 DEFER", "MIXER 1 COMMIT", "MIXER 2 COMMIT", "SWAP 1-10 2-0", "CLEAR 2-1"],
]

OUTPUTS = ("one.raw", "two.raw")


def words_of(description):
    """Returns the words of a script that runs both programs, with their paths: those that the gate built, or others that are named."""
    words = argparse.ArgumentParser(description=description)
    words.add_argument("--server", default=f"{TOP}/crates/playd/out/playd", help="the server to run")
    words.add_argument("--player", default=f"{TOP}/crates/playrun/out/playrun", help="the player to run")
    return words


def are_built(said):
    """Returns whether both programs are there, with their paths made absolute, and says so if one is not."""
    for program in (said.server, said.player):
        if not os.access(program, os.X_OK):
            print(f"there is no program {program}: the gate builds it")
            print("0 passed, 1 failed")
            return False
    said.server, said.player = os.path.realpath(said.server), os.path.realpath(said.player)
    return True


def run_cases(cases, said):
    """Runs each case in a folder of its own, prints what each finds, counts them, and returns the exit status."""
    failed = 0
    for case in cases:
        with tempfile.TemporaryDirectory(prefix="case-") as room:
            try:
                found = case(said.server, said.player, room)
            except (OSError, EOFError, ValueError, subprocess.TimeoutExpired) as error:
                found = [f"{type(error).__name__}: {error}"]
        for fault in found:
            print(f"{case.__name__}: {fault}")
        failed += bool(found)
    print(f"{len(cases) - failed} passed, {failed} failed")
    return 1 if failed else 0


def configuration(port=0, media="media", outputs=OUTPUTS, connections=3):
    """Returns the text of a configuration with two channels, for this port of loopback, or for one that is free."""
    channels = "".join(f'[[channel]]\nwidth = 8\nheight = 4\npairs = {pairs}\noutput = "{name}"\n' for name, pairs in zip(outputs, (3, 0)))
    return f'listen = "127.0.0.1:{port}"\nmedia = "{media}"\nrate = 100\nconnections = {connections}\n{channels}'


def prepare(room, **options):
    """Puts a configuration and a folder with the clip into a folder."""
    with open(f"{room}/server.toml", "w", encoding="utf-8") as it:
        it.write(configuration(**options))
    os.mkdir(f"{room}/media")
    with open(f"{room}/media/a clip.rclp", "wb") as it:
        it.write(CLIP)


def code_of(line):
    """Returns the code of a reply by its first line, before which a token may stand."""
    words = line.split(" ")
    return words[2 if words[0] == "RES" else 0]


class Client:
    """A client that waits for the reply to a line before it sends the next one. With a source of numbers it sends pieces of a few bytes."""

    def __init__(self, port, cuts=None, seconds=SECONDS):
        self.link = socket.create_connection(("127.0.0.1", port), timeout=seconds)
        self.held, self.cuts, self.replies = b"", cuts, []

    def more(self):
        """Waits for bytes, and returns them."""
        piece = self.link.recv(65536)
        if not piece:
            raise EOFError("the server closed the connection")
        return piece

    def line(self):
        while b"\r\n" not in self.held:
            self.held += self.more()
        line, self.held = self.held.split(b"\r\n", 1)
        return line.decode()

    def send(self, left):
        """Sends bytes."""
        while left:
            size = self.cuts.randint(1, 7) if self.cuts else len(left)
            self.link.sendall(left[:size])
            left = left[size:]
            if self.cuts:
                time.sleep(self.cuts.choice([0, 0, 0.002]))

    def reply(self):
        """Reads a reply, and returns its lines: one, two after a 201 and a 400, and up to an empty one after a 200."""
        lines = [self.line()]
        code = code_of(lines[0])
        if code in ("201", "400"):
            lines.append(self.line())
        while code == "200" and lines[-1]:
            lines.append(self.line())
        return lines

    def ask(self, text):
        """Sends a line, notes the lines of its reply, without the token that the line has, and returns them."""
        self.send(text.encode() + b"\r\n")
        lines, words = self.reply(), text.split()
        if words[0].upper() == "REQ" and lines[0] != "500 FAILED":
            head = f"RES {words[1]} "
            if not lines[0].startswith(head):
                raise ValueError(f"the reply to {text!r} is {lines}")
            lines[0] = lines[0][len(head):]
        self.replies += lines
        return lines

    def close(self):
        self.link.close()


class Server:
    """A run of the server in a folder that has its configuration. It is killed if it has not ended after some seconds. Further
    options are those of the process."""

    def __init__(self, program, room, words=("--config", "server.toml", "--journal", "history.script"), seconds=SECONDS, environment=None, **options):
        self.run = subprocess.Popen([program, *words], cwd=room, stdin=subprocess.DEVNULL, stdout=subprocess.PIPE, stderr=subprocess.PIPE, text=True, env=environment, **options)
        self.lines, self.is_ready = [], threading.Event()
        self.timer = threading.Timer(seconds, self.run.kill)
        self.reader = threading.Thread(target=self.hear)
        self.timer.start()
        self.reader.start()

    def hear(self):
        for line in self.run.stderr:
            self.lines.append(line)
            if "listening" in line:
                self.is_ready.set()
        self.is_ready.set()

    def said(self):
        return "".join(self.lines)

    def port(self):
        """Waits until the server listens, and returns the port."""
        self.is_ready.wait()
        found = re.search(r"listening on 127\.0\.0\.1:(\d+)", self.said())
        if not found:
            raise EOFError(f"the server does not listen, and said {self.said()!r}")
        return int(found[1])

    def end(self):
        """Waits for the end, and returns the exit status, the output and what was said."""
        output = self.run.stdout.read()
        self.reader.join()
        return self.run.wait(), output, self.said()

    def __enter__(self):
        return self

    def __exit__(self, *_):
        self.timer.cancel()
        self.run.kill()
        self.end()


def replay(player, room):
    """Plays the history, and returns the replies of each connection and the frames of each channel, as bytes."""
    with open(f"{room}/history.script", "rb") as it:
        ran = subprocess.run([player, "run", "--config", "server.toml"], cwd=room, stdin=it, capture_output=True, text=True, timeout=SECONDS)
    if ran.returncode:
        raise ValueError(f"the replay ended with status {ran.returncode}: {ran.stdout[-80:]!r}")
    replies, frames, channel = {}, {}, None
    for line in ran.stdout.split("\n")[:-1]:
        first, _, rest = line.partition(" ")
        if "." in first:
            replies.setdefault(first, []).append(rest)
        elif first == "F":
            channel = frames.setdefault(int(rest.split()[0]), bytearray())
        else:
            channel += bytes.fromhex(line)
    return replies, frames


def differences(player, room, got, outputs=OUTPUTS):
    """Replays the history, and says where the replies that the clients got, or the outputs, are not those of the replay."""
    replies, frames = replay(player, room)
    found, got = [], [it for it in got if it]
    if sorted(replies.values()) != sorted(got):
        found.append(f"the clients were answered {got}, and in the replay {replies}")
    for channel, name in enumerate(outputs, 1):
        with open(f"{room}/{name}", "rb") as it:
            if it.read() != bytes(frames.get(channel, b"")):
                found.append(f"{name} is not what the replay has of channel {channel}")
    if not frames.get(1):
        found.append("there was no tick")
    return found
