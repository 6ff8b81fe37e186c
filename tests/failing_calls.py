#!/usr/bin/env python3
"""Lets one call of a spool's files fail, each in turn, and all others go on: in `init`, in an opening, in an accept of
`serve`, in the outcome of an attempt of `push`, and in a first and a later `compact`. Each row says what the relay
says, and what the same files are opened to after that: the next number, how many recipients are held, and how many
octets the spool has. A row is wrong on purpose, and must come otherwise. Then a file is shorter than it is said to be.
It ends at the first difference.

    tests/failing_calls.py build/relayd
"""
import contextlib
import pathlib
import re
import shutil
import socket
import subprocess
import sys
import tempfile

sys.dont_write_bytecode = True

from links import COMMANDS, HOP_REPLIES
from mail_checks import connected
from relay_program import PATIENCE, Difference, Relay, built, free_port, run_main, same

# The calls before those of the node, by which the relay sees that its two files are two.
BEFORE = 2

# Which calls fail, from the first to the last of a node's; what is done; what the relay says by its status and its
# fault line; and what the files are opened to: the next number, the held recipients, and octets. No spool is opened
# where a fault stands there. An opening takes eight calls, and what comes after it in the same process counts on.
DEVICE, NO_SPOOL = (1, "relayd: device"), (1, "relayd: spool NotASpool")
ROWS = [
    (0, 6, "create", DEVICE, NO_SPOOL),
    (7, 7, "create", DEVICE, (1, 0, 18)),
    (8, 12, "create", (0, ""), (1, 0, 18)),
    (0, 7, "open", DEVICE, (2, 1, 178)),
    (8, 12, "open", (0, ""), (2, 1, 178)),
    (8, 10, "accept", DEVICE, (2, 1, 178)),
    (11, 11, "accept", DEVICE, (3, 2, 338)),
    (12, 16, "accept", (0, ""), (3, 2, 338)),
    (8, 10, "outcome", DEVICE, (2, 1, 178)),
    (11, 11, "outcome", DEVICE, (3, 0, 221)),
    (12, 16, "outcome", (0, ""), (3, 0, 221)),
    (8, 11, "compact", DEVICE, (2, 1, 178)),
    (12, 12, "compact", DEVICE, (2, 1, 209)),
    (13, 17, "compact", (0, ""), (2, 1, 209)),
    # A message more after a compaction: the head of the other file is open, and is closed first.
    (8, 14, "again", DEVICE, (3, 2, 369)),
    (15, 15, "again", DEVICE, (3, 2, 382)),
    (16, 20, "again", (0, ""), (3, 2, 382)),
]
WRONG = (8, 8, "accept", (0, ""), (3, 2, 338))

def told_on(link, wanted=rb"\A\Z."):
    """What comes on a connection up to its end, or up to what this expression finds; by default it finds nothing."""
    told = b""
    with contextlib.suppress(ConnectionError):
        while not re.search(wanted, told) and (part := link.recv(65536)):
            told += part
    return told


def length_of(octets):
    """How many octets a spool of this file has: its head, and the bodies whose gates are open, and the last gate."""
    place = 17
    while octets[place:place + 1] == b"\1":
        place += 5 + int.from_bytes(octets[place + 1:place + 5], "big")
    return place + 1


class Calls:
    """A relay whose spool holds one message, which is due, or isn't where the clock stands at 1970."""

    def __init__(self, program, folder):
        self.folder = pathlib.Path(folder)
        self.relay = Relay(program, folder, {"example.org": ("next.example", free_port())})
        self.plain = dict(self.relay.environment)
        self.failing, self.clock = built("failing_call", folder), built("later_clock", folder)
        self.relay.run("init")
        with self.accepting():
            pass
        self.keep("kept")
        self.relay.run("compact")
        with self.accepting():
            pass
        self.keep("again")

    def keep(self, name):
        for path in self.relay.spool, self.relay.second:
            shutil.copyfile(path, f"{path}.{name}")

    @contextlib.contextmanager
    def accepting(self):
        """A relay that serves and takes a message, and is killed before it tries that: its client is still there."""
        process = self.relay.start()
        with connected(self.relay) as link:
            try:
                link.sendall(COMMANDS.removesuffix(b"QUIT\r\n"))
                yield process, told_on(link, rb"queued as \d+\r\n")
            finally:
                process.kill()
                process.communicate()

    def begin(self, name):
        """The files before a call of this name: none for `create`, and else those of the one message, for `again` those
        of two."""
        self.relay.environment = dict(self.plain)
        self.relay.forget()
        if name != "create":
            for path in self.relay.spool, self.relay.second:
                shutil.copyfile(f"{path}.{'again' if name == 'again' else 'kept'}", path)

    def fail(self, number, *more):
        libraries = " ".join(str(it) for it in (self.failing, *more))
        self.relay.environment = {**self.plain, "LD_PRELOAD": libraries, "FAILED_CALL": str(number + BEFORE),
                                  "HELD": "0"}

    def answer(self, name, number):
        """What the relay says to a call of which the device fails so."""
        self.begin(name)
        return getattr(self, name)(number)

    def ended(self, *words):
        done = self.relay.ended(PATIENCE, *words)
        return done.returncode, done.stderr.decode().rstrip("\n").split("\n")[0]

    def create(self, number):
        self.fail(number)
        return self.ended("init")

    def open(self, number):
        """In 1970 nothing is due, so that a push opens the node and does no more."""
        self.fail(number, self.clock)
        return self.ended("push")

    def compact(self, number):
        self.fail(number)
        return self.ended("compact")

    def again(self, number):
        return self.compact(number)

    def look_past_the_end(self):
        """A read past the end of a file is a failure of the device."""
        self.begin("open")
        self.relay.spool.write_bytes(self.relay.spool.read_bytes()[:-1])
        self.relay.environment.update(LD_PRELOAD=f"{self.failing} {self.clock}", HELD="0", LONGER="8")
        same("a file that is shorter than it is said to be", self.ended("push"), DEVICE)

    def outcome(self, number):
        with socket.create_server(("127.0.0.1", 0)) as hop:
            hop.settimeout(PATIENCE)
            self.relay.route({"example.org": ("next.example", hop.getsockname()[1])})
            self.fail(number)
            process = subprocess.Popen(self.relay.words("push"), stdout=subprocess.PIPE, stderr=subprocess.PIPE,
                                       env=self.relay.environment)
            link, _ = hop.accept()
            with link:
                link.sendall(HOP_REPLIES)
                told_on(link)
            errors = process.communicate(timeout=PATIENCE)[1]
        return process.returncode, errors.decode().rstrip("\n").split("\n")[0]

    def accept(self, number):
        """The status of one that goes on is that of a relay that is killed here."""
        self.fail(number)
        with self.accepting() as (process, told):
            if b"queued as " in told:
                return 0, ""
            errors = process.communicate(timeout=PATIENCE)[1]
            return process.returncode, errors.decode().rstrip("\n").split("\n")[0]

    def opened(self):
        """What the files are opened to."""
        self.relay.environment = dict(self.plain)
        listed = self.relay.ended(PATIENCE, "list")
        if listed.returncode:
            return listed.returncode, listed.stderr.decode().rstrip("\n")
        octets = length_of(self.file_in_use())
        with self.accepting() as (_, told):
            number = int(told.split(b"250 queued as ")[1])
        return number, len(listed.stdout.splitlines()), octets

    def file_in_use(self):
        """The file whose head is open, and of two the one of the greater generation."""
        files = [path.read_bytes() for path in (self.relay.spool, self.relay.second)]
        return max((it for it in files if it[8:9] == b"\1"), key=lambda it: it[9:17])


def look_at(calls, row):
    first, last, name, said, found = row
    for number in range(first, last + 1):
        same(f"{name}, call {number}", (calls.answer(name, number), calls.opened()), (said, found))
    return last + 1 - first


def main(program):
    memory = "/dev/shm" if pathlib.Path("/dev/shm").is_dir() else None
    with tempfile.TemporaryDirectory(dir=memory) as folder:
        calls = Calls(program, folder)
        tried = sum(look_at(calls, row) for row in ROWS)
        calls.look_past_the_end()
        try:
            look_at(calls, WRONG)
        except Difference:
            print(f"failing_calls: {tried} calls, each of which fails")
            return
    raise Difference("a row that is wrong is as written down")


if __name__ == "__main__":
    run_main("failing_calls", main)
