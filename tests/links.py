#!/usr/bin/env python3
"""Serves a client by `relayd serve`, alone and as the first of two workers, and hands a message on by `relayd push`,
over connections that give and take little, and that end or fail after each octet that is read or written. Each row says
how the link ends, what it has written, how many recipients are held then, and how many changes the spool has. Then it
serves clients by `relayd run`, over connections that give and take in parts, and that would block. It ends at the first
difference.

    tests/links.py build/relayd
"""
import contextlib
import pathlib
import re
import select
import shutil
import socket
import subprocess
import sys
import tempfile
import time

sys.dont_write_bytecode = True

from mail_checks import connected
from relay_program import PATIENCE, Relay, built, free_port, run_main, same, until

# A client's lines, and the relay's greeting and its reply to each of them.
COMMANDS = b"HELO x\r\nMAIL FROM:<a@example.org>\r\nRCPT TO:<b@example.org>\r\nDATA\r\n.\r\nQUIT\r\n"
REPLIES = (b"220 relay.example ESMTP relay ready\r\n250 relay.example\r\n250 sender OK\r\n250 recipient OK\r\n"
           b"354 end with a line of one period\r\n250 queued as 1\r\n221 relay.example closing\r\n")

# What the next hop says, its greeting and a line each to EHLO, MAIL, RCPT, DATA and the content, and what the relay
# writes to that: the content is empty, and the time stamp line of any time has 31 octets in the place of this one.
HOP_REPLIES = b"220 n\r\n250 n\r\n250 ok\r\n250 ok\r\n354 go\r\n250 ok\r\n"
HOP_COMMANDS = (b"EHLO relay.example\r\nMAIL FROM:<a@example.org>\r\nRCPT TO:<b@example.org>\r\nDATA\r\n"
                b"Received: from x ([127.0.0.1])\r\n by relay.example with SMTP id 1;\r\n"
                b" Thu, 01 Jan 1970 00:00:00 +0000\r\n.\r\nQUIT\r\n")

# What is tried, by which numbers, and how the link ends then; how many octets it has written, as many as the number
# says where none stands here; how many recipients are held, and how many changes there are. The peer gives so many
# octets at a call (size), or ends after so many (input); or a call fails once where so many have come or gone (read,
# write).
SERVE = [
    ("size", 1, 100, "closed", 168, 1, 1),
    ("input", 0, 7, "closed", 37, 0, 0),
    ("input", 8, 34, "closed", 56, 0, 0),
    ("input", 35, 59, "closed", 71, 0, 0),
    ("input", 60, 65, "closed", 89, 0, 0),
    ("input", 66, 68, "closed", 124, 0, 0),
    ("input", 69, 74, "closed", 141, 1, 1),
    ("input", 75, 75, "closed", 168, 1, 1),
    ("read", 0, 7, "input", 37, 0, 0),
    ("read", 8, 34, "input", 56, 0, 0),
    ("read", 35, 59, "input", 71, 0, 0),
    ("read", 60, 65, "input", 89, 0, 0),
    ("read", 66, 68, "input", 124, 0, 0),
    ("read", 69, 74, "input", 141, 1, 1),
    ("write", 0, 123, "output", None, 0, 0),
    ("write", 124, 167, "output", None, 1, 1),
]

# The same of the first of two workers, whose client says line by line.
WORKERS = [
    ("read", 0, 0, "input", 37, 0, 0),
    ("read", 8, 8, "input", 56, 0, 0),
    ("read", 35, 35, "input", 71, 0, 0),
    ("read", 60, 60, "input", 89, 0, 0),
    ("read", 66, 66, "input", 124, 0, 0),
    ("read", 69, 69, "input", 141, 1, 1),
    ("read", 75, 75, "closed", 168, 1, 1),
    ("write", 0, 0, "output", 0, 0, 0),
    ("write", 37, 37, "output", 37, 0, 0),
    ("write", 56, 56, "output", 56, 0, 0),
    ("write", 71, 71, "output", 71, 0, 0),
    ("write", 89, 89, "output", 89, 0, 0),
    ("write", 124, 124, "output", 124, 1, 1),
    ("write", 141, 141, "output", 141, 1, 1),
    ("write", 168, 168, "closed", 168, 1, 1),
]

# The same over a node that has no number for a change any more: its spool is a snapshot alone, with no message, and
# after 2^62 the next number.
FULL = [("size", 100, 100, "spool Full", 124, 0, 0)]
LAST = b"RELAYQ01\x01\0\0\0\0\0\0\0\x01\x01\0\0\0\x0d\x05\x40\0\0\0\0\0\0\x01\0\0\0\0\0"

# How many octets the first writes and reads of a client's connection of `run` take and give, 0 for one that would
# block. It is written and read on when something comes, and each octet goes once.
PARTS = [
    ("3 0 2", "4"),
    ("3 0 2", "4 0 1"),
    ("1 1 0 0 5", "0 1 0 2"),
    ("0 36 0 1 0 8", "5 0 1"),
    ("37 0 3", "6 0 6 0 1"),
]

# The same of a push. One whose QUIT can't be written has ended all the same.
PUSH = [
    ("size", 1, 100, "ended", 188, 0, 2),
    ("input", 0, 6, "lost", 0, 1, 2),
    ("input", 7, 13, "lost", 20, 1, 2),
    ("input", 14, 21, "lost", 47, 1, 2),
    ("input", 22, 29, "lost", 72, 1, 2),
    ("input", 30, 37, "lost", 78, 1, 2),
    ("input", 38, 45, "lost", 182, 1, 2),
    ("read", 0, 6, "lost", 0, 1, 2),
    ("read", 7, 13, "lost", 20, 1, 2),
    ("read", 14, 21, "lost", 47, 1, 2),
    ("read", 22, 29, "lost", 72, 1, 2),
    ("read", 30, 37, "lost", 78, 1, 2),
    ("read", 38, 45, "lost", 182, 1, 2),
    ("write", 0, 181, "lost", None, 1, 2),
    ("write", 182, 187, "ended", None, 0, 2),
]

ENVIRONMENT = {"size": "READ_SIZE", "read": "READ_CUT", "write": "WRITE_CUT"}


def read_to_end(link):
    """All that comes on a connection up to its end."""
    octets = b""
    with contextlib.suppress(ConnectionResetError):
        while part := link.recv(65536):
            octets += part
    return octets


def say(link, octets):
    """Says octets on a connection that may have ended, and then nothing more."""
    with contextlib.suppress(ConnectionError, OSError):
        link.sendall(octets)
        link.shutdown(socket.SHUT_WR)


class Links:
    """A relay in a folder, over a spool that is made anew for each link. The next hop listens at a push alone."""

    def __init__(self, program, folder):
        self.relay = Relay(program, folder, {"example.org": ("next.example", free_port())})
        self.plain = dict(self.relay.environment)
        self.shim = built("narrow_links", folder)

    def narrow(self, what, number, **more):
        """Lets the programs from now on have one connection that gives and takes little, as a row says."""
        numbers = {"READ_SIZE": 1, **more}
        if what in ENVIRONMENT:
            numbers[ENVIRONMENT[what]] = number
        self.relay.environment = {**self.plain, "LD_PRELOAD": str(self.shim),
                                  **{name: str(it) for name, it in numbers.items()}}

    def widen(self):
        self.relay.environment = dict(self.plain)

    def keep(self):
        """Keeps the spool as it stands, for `put_back`."""
        for path in self.relay.spool, self.relay.second:
            shutil.copyfile(path, f"{path}.kept")

    def put_back(self):
        for path in self.relay.spool, self.relay.second:
            shutil.copyfile(f"{path}.kept", path)

    def changes(self):
        """How many bodies the spool has whose gate is open, in the chain of its first file."""
        octets, place, count = self.relay.spool.read_bytes(), 17, 0
        while octets[place:place + 1] == b"\1":
            place += 5 + int.from_bytes(octets[place + 1:place + 5], "big")
            count += 1
        return count

    def served(self, what, number, workers):
        """What has come of a client: how its link ended, what it was told, and what is held and changed by it."""
        self.put_back()
        before, log = self.changes(), []
        self.narrow(what, number, **{"READ_LINES": 1, "READ_SIZE": 65536} if workers else {})
        with self.relay.serving(*["--workers", "2"] * workers, log=log) as lines, connected(self.relay) as link:
            name = "{}:{}".format(*link.getsockname())
            say(link, COMMANDS[:number] if what == "input" else COMMANDS)
            if workers:
                with connected(self.relay) as other:
                    say(other, b"QUIT\r\n")
                    read_to_end(other)
            told = read_to_end(link)
        self.widen()
        end = next(re.search(r'reason="?([^"]*)"?$', line)[1] for line in log if f"client={name} " in line)
        # What was queued was tried at a hop where nobody listens, which is a change too.
        return end, told, self.held(), self.changes() - before - len(lines)

    def held(self):
        return len(self.relay.held())

    def queue(self):
        """Makes a spool with a message that is due. The relay that takes it is killed before it tries that."""
        self.put_back()
        process = self.relay.start()
        with connected(self.relay) as link:
            link.sendall(COMMANDS.removesuffix(b"QUIT\r\n"))
            told = b""
            while b"250 queued as 1\r\n" not in told:
                told += link.recv(65536)
            process.kill()
            process.communicate()
        self.keep()

    def pushed(self, what, number, _):
        """What has come of a message that is due, at a next hop that takes it."""
        self.put_back()
        with socket.create_server(("127.0.0.1", 0)) as hop:
            hop.settimeout(PATIENCE)
            self.relay.route({"example.org": ("next.example", hop.getsockname()[1])})
            self.narrow(what, number)
            # What the hop says waits for the relay, which connects before the hop takes the connection.
            process = subprocess.Popen(self.relay.words("push"), stdout=subprocess.PIPE, stderr=subprocess.PIPE,
                                       env=self.relay.environment)
            link, _ = hop.accept()
            with link:
                say(link, HOP_REPLIES[:number] if what == "input" else HOP_REPLIES)
                written = read_to_end(link)
            out, errors = process.communicate(timeout=PATIENCE)
        self.widen()
        same("relayd push", (process.returncode, errors), (0, b""))
        end = re.fullmatch(rb"1 next\.example (ended|lost)\n", out)[1].decode()
        # Another time stands there.
        place = HOP_COMMANDS.index(b"Thu, ")
        date = HOP_COMMANDS[place:place + 31][:max(0, len(written) - place)]
        return end, written[:place] + date + written[place + 31:], self.held(), self.changes()


def in_parts(links, writes, reads):
    """A client of `run` says NOOP until all has come that is to, of a connection that takes and gives these parts, and
    then ends: its octets and no others came."""
    links.narrow("parts", 0, WRITES=writes, READS=reads)
    with links.relay.running(), connected(links.relay) as link:
        name, said, told = "{}:{}".format(*link.getsockname()), 0, b""
        greeting, ends = REPLIES[:REPLIES.index(b"\n") + 1], time.monotonic() + PATIENCE
        while said < 3 or told != greeting + b"250 OK\r\n" * said:
            same(f"whether all comes: {told}", time.monotonic() < ends, True)
            link.sendall(b"NOOP\r\n")
            said += 1
            while select.select([link], [], [], 0.1)[0]:
                told += link.recv(65536)
        link.shutdown(socket.SHUT_WR)
        same("what comes after the end", read_to_end(link), b"")
        ended = f"client-end client={name} messages=0 rejected=0 octets={6 * said}"
        until("the line of its end", lambda: ended in links.relay.log.read_text())
    links.widen()


def look_at(play, row, expected, workers=False):
    """Tries each number of a row, and says how many there are."""
    what, first, last, end, written, held, changes = row
    for number in range(first, last + 1):
        count = number if written is None else written
        same(f"{what} {number}", play(what, number, workers), (end, expected[:count], held, changes))
    return last + 1 - first


def main(program):
    # In memory, where there is such a folder: no row is about a disk.
    memory = "/dev/shm" if pathlib.Path("/dev/shm").is_dir() else None
    with tempfile.TemporaryDirectory(dir=memory) as folder:
        links = Links(program, folder)
        links.relay.run("init")
        links.keep()
        tried = [sum(look_at(links.served, row, REPLIES) for row in SERVE)]
        tried.append(sum(look_at(links.served, row, REPLIES, True) for row in WORKERS))
        links.queue()
        tried.append(sum(look_at(links.pushed, row, HOP_COMMANDS) for row in PUSH))
        links.relay.spool.write_bytes(LAST)
        links.relay.second.write_bytes(b"")
        links.keep()
        tried.append(sum(look_at(links.served, row, REPLIES, True) for row in FULL))
        for writes, reads in PARTS:
            in_parts(links, writes, reads)
    print("links: {} clients, {} of workers, {} pushes and {} of a full spool, each as it has to be".format(*tried))
    print(f"links: {len(PARTS)} clients of a relay that stays up, each octet of which goes once")


if __name__ == "__main__":
    run_main("links", main)
