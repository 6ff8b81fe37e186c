#!/usr/bin/env python3
"""Holds dialogues with a node over memory, which are written out by hand: with every reply of the table and every
message that is accepted. What the client says comes whole, in two pieces cut at each octet, octet by octet, and among
so many other clients that 64 sessions are open. Each reply must be as it is written down, and at the end the spool has
the records of the messages, to the octet; no call may run out of memory. A message whose text is `no room` meets a full
spool, which has room again after it. Two dialogues are wrong on purpose, one in a reply and one in a message.

    tests/dialogues_of_a_node.py build/relay_rows_tests
"""
import pathlib
import re
import sys
import tempfile

sys.dont_write_bytecode = True

from relay_program import run_main, same
from scenarios import HOP, HOST, PATH, Spool, accept_of, conversation, escaped, otherwise, outcome_of, right, trace

FOLDER = pathlib.Path(__file__).resolve().parent / "rows/dialogues"
WRONG = ["another_offer", "another_reply"]
# What a node is made with, by dialogue, where that isn't the usual.
OPEN = f"table example.org {HOP} * {HOP}"
HOSTS = {
    "small_contents": "keys max_content = 4",
    "small_chunks": "keys max_content = 4",
    "refused_line_ends": 'keys bare_newlines = "refuse"',
    "refused_nul": 'keys bare_newlines = "refuse"',
    "postmaster_routed": OPEN,
    "standard_paths": OPEN,
    "routed_addresses": 'keys routed_paths = "refuse"',
    "routed_addresses_of_a_listed_client": 'keys trusted_clients = ["127.0.0.0/8"] ; routed_paths = "refuse"',
}
# What ends a message that meets a full spool, the reply to it, and how many octets such a spool may have.
NO_ROOM, FULL, LIMIT = rb"(?:no )?room\r\n(?:\.\r\n)?", b"452 spool full\r\n", 2_048
ITEM = rf"{PATH}(?: [A-Z]+=\S*)*"
OFFER = re.compile(rf"\[offer of (\S+) by (\S+) from ({ITEM}) to((?: {ITEM})+)")


def offers_of(octets):
    """Returns the client's word, the protocol, the texts of MAIL and of each RCPT, and the content of each offer."""
    for part in octets.split(b"[end of offer]\r\n")[:-1]:
        head, _, content = part.partition(b"]\r\n")
        word, protocol, mail, recipients = OFFER.fullmatch(head.decode()).groups()
        yield word, protocol, mail, re.findall(ITEM, recipients), content


class Dialogue:
    """A dialogue, and the spool of the node that holds it."""

    def __init__(self, name):
        self.name, self.spool, self.queued = name, Spool(), 0
        said, replies, offers = ((FOLDER / f"{name}.{end}").read_bytes() for end in ("in", "ref", "offers"))
        self.said, self.offers = said, offers_of(offers)
        greeting, end, self.replies = replies.partition(b"\r\n")
        self.greeting = greeting + end

    def take(self, found):
        """Takes the next offer. Returns the line that says its number: as it is written down the offers are numbered
        from 1, and the node's changes are, which has those of other clients too."""
        word, protocol, mail, recipients, content = next(self.offers)
        number = self.spool.changes + 1
        self.spool.append(accept_of(mail, recipients, trace(word, protocol, number) + content))
        self.queued += 1
        return b"250 queued as %d\r\n" % (number + int(found[1]) - self.queued)

    def hold(self, said, replies):
        """Returns the lines by which the client says this, and is told these replies."""
        told = re.sub(rb"(?m)^250 queued as (\d+)\r\n", self.take, replies)
        return ["hold client 0", f">. {escaped(said)}", f"=. {escaped(told)}"]

    def fill(self):
        """Another client's message, which leaves no room for one more. Returns its number, and the lines."""
        number, mail, rcpt = self.spool.changes + 1, "<f@example.org>", "<g@example.org>"
        before = trace("f", "SMTP", number)
        rest = LIMIT - len(self.spool.octets()) - len(accept_of(mail, [rcpt], before)) - 50
        content = b"f" * rest + b"\r\n"
        self.spool.append(accept_of(mail, [rcpt], before + content))
        said = f"HELO f\r\nMAIL FROM:{mail}\r\nRCPT TO:{rcpt}\r\nDATA\r\n".encode() + content + b".\r\n"
        told = (f"250 {HOST}\r\n250 sender OK\r\n250 recipient OK\r\n354 end with a line of one period\r\n"
                f"250 queued as {number}\r\n").encode()
        lines = ["connect 1", "= session 1", f"=. {escaped(self.greeting)}",
                 "hold client 1", f">. {escaped(said)}", f"=. {escaped(told)}", "end 1"]
        return number, lines + [f"start {number} {HOP}", "= attempt 0", "= place 0"], before + content

    def drain(self, number, text):
        """Returns the lines by which that message leaves, and its room with it."""
        self.spool.append(outcome_of(number, [(0, "Taken, no DSN offered")]))
        talk = conversation("<f@example.org>", ["<g@example.org>"], text)
        before, after = self.spool.compact()
        return ["give hop 0", *talk, f"= change {self.spool.changes}", "compact", f"= {before} {after}"]

    def scenario(self):
        ends = [it.span() for it in re.finditer(NO_ROOM, self.said)] if FULL in self.replies else []
        limit = [f"keys spool_limit = {LIMIT}"] if ends else [HOSTS[self.name]] if self.name in HOSTS else []
        lines = [f"name {self.name}", *limit, "create", "connect 1", "= session 0", f"=. {escaped(self.greeting)}"]
        place, replies = 0, self.replies.split(FULL)
        same(f"{self.name}: messages without room", len(ends), len(replies) - 1)
        for (start, end), told in zip(ends, replies):
            lines += self.hold(self.said[place:start], told)
            number, filling, text = self.fill()
            # It is the spool that refuses the message, which is an offer too.
            next(self.offers)
            lines += [*filling, *self.hold(self.said[start:end], FULL), *self.drain(number, text)]
            place = end
        lines += self.hold(self.said[place:], replies[-1])
        same(f"{self.name}: offers that no reply takes", list(self.offers), [])
        return lines + self.spool.image()


def main(program):
    names = sorted(path.stem for path in FOLDER.glob("*.in"))
    same("whether those that are wrong are there", set(WRONG) <= set(names), True)
    with tempfile.TemporaryDirectory() as folder:
        count = right(program, folder, [Dialogue(it).scenario() for it in names if it not in WRONG])
        wrong = otherwise(program, folder, [Dialogue(it).scenario() for it in WRONG])
    print(f"dialogues_of_a_node: {count} dialogues, cut at every octet: as written down, and {wrong} others aren't")


if __name__ == "__main__":
    run_main("dialogues_of_a_node", main)
