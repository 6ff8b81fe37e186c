#!/usr/bin/env python3
"""Plays networks of relays, each a whole relay in a box: 2 to 16 of them with connections among them, clients and a
next hop outside, lost connections, disks that fail, and relays that are stopped. Judges the network by the promise
alone: mail that was acknowledged arrives, or its sender gets the report; nothing arrives but what was sent; and there
are no more copies than lost replies allow.

    tests/networks_in_a_box.py build/relay_box_tests [COUNT [FIRST]] [--lanes N]

Plays COUNT networks (100), from the seed FIRST (1) on, in N lanes, by default one for each processor. Saves the scripts
of the relays of a network that differs, and prints its seed and what is wrong. Exits with 1 at a difference.
"""
import argparse
import collections
import multiprocessing
import os
import random
import re
import sys
import time

sys.dont_write_bytecode = True

from box_answer import Answer
from box_setup import text_of
from days_in_a_box import Box, save
from relay_program import Difference

MORNING = 1_764_489_600
OUTSIDE = "192.0.2.200:25"
DOMAINS = ["a.example", "b.example", "c.example"]
# How often the clock goes on in the evening, at most, and how far, in milliseconds.
EVENING_STEPS, EVENING_STEP = 300, 1_801_000
# The most steps until all relays are at rest.
MOST_STEPS = 2_000
TOKEN = re.compile(rb"Subject: (token\d+)\r\n")
TRACE = re.compile(rb"(?:Received: from [^\r]+\r\n by [^\r]+\r\n [^\r]+\r\n)+")
FAILED = re.compile(rb"Final-Recipient: rfc822; ([^\r]+)\r\nAction: failed\r\n")


def require(holds, what):
    if not holds:
        raise Difference(what)


class Reader:
    """Reads the answers of a relay, and judges nothing. It knows how many streams the relay has had."""

    def __init__(self):
        self.streams = 0

    def sent(self, line):
        self.streams += line.startswith("client ")

    def answered(self, line, lines):
        """Returns what a turn printed, or the lines of another answer but the last."""
        if line != "turn":
            return lines[:-1]
        answer = Answer(lines)
        self.streams += len(answer.dials)
        return answer


class RelayInBox(Box):
    """A relay of a network, which isn't judged by itself."""

    def begin(self):
        super().begin()
        self.judge = Reader()


class Sent:
    """A message that a client gives to a relay: its recipients, its content, and whether it was acknowledged."""

    def __init__(self, token, recipients, content):
        self.token, self.recipients, self.content = token, recipients, content
        self.is_acknowledged, self.lost = False, 0


class Client:
    """A client outside, which gives one message without waiting for replies."""

    def __init__(self, sent):
        self.sent, self.heard, self.closes = sent, b"", False
        recipients = b"".join(b"RCPT TO:<%b>\r\n" % path for path in sent.recipients)
        self.out = (b"EHLO c.example\r\nMAIL FROM:<sender@s.example>\r\n" + recipients + b"DATA\r\n" +
                    (b"\r\n" + sent.content).replace(b"\r\n.", b"\r\n..")[2:] + b".\r\nQUIT\r\n")

    def hear(self, octets):
        self.heard += octets
        self.sent.is_acknowledged |= b"\r\n250 queued as " in self.heard


class Server:
    """The next hop outside. It refuses recipients whose names begin with `no`, and keeps what it accepts."""

    def __init__(self, chance, kept):
        self.kept, self.text, self.out, self.closes = kept, b"", b"220 outside\r\n", False
        self.recipients, self.left, self.is_data = [], None, False
        self.offers = [b"outside", *(one for one in (b"PIPELINING", b"CHUNKING", b"DSN") if chance.random() < 0.7)]

    def hear(self, octets):
        self.text += octets
        while self.text and self.take():
            pass

    def take(self):
        """Takes a command or a content. Returns whether there was a whole one."""
        if self.is_data:
            whole, found, rest = (b"\r\n" + self.text).partition(b"\r\n.\r\n")
            if found:
                self.accept((whole + b"\r\n").replace(b"\r\n..", b"\r\n.")[2:], rest)
            return bool(found)
        if self.left is not None:
            if len(self.text) < self.left:
                return False
            self.accept(self.text[:self.left], self.text[self.left:])
            return True
        line, found, self.text = self.text.partition(b"\r\n")
        if not found:
            self.text = line
            return False
        self.command(line)
        return True

    def accept(self, content, rest):
        self.kept.append((self.recipients, content))
        self.text, self.left, self.is_data, self.recipients = rest, None, False, []
        self.out += b"250 kept\r\n"

    def command(self, line):
        if line.startswith(b"EHLO"):
            lines = [b"250%c%b\r\n" % (b"- "[at == len(self.offers) - 1], one) for at, one in enumerate(self.offers)]
            self.out += b"".join(lines)
        elif line.startswith(b"RCPT TO:<no"):
            self.out += b"550 nobody\r\n"
        elif line.startswith(b"RCPT"):
            self.recipients.append(line[9:line.index(b">")])
            self.out += b"250 ok\r\n"
        elif line == b"DATA":
            self.is_data = True
            self.out += b"354 go on\r\n"
        elif line.startswith(b"BDAT"):
            self.left = int(line.split(b" ")[1])
        elif line == b"QUIT":
            self.out, self.closes = self.out + b"221 bye\r\n", True
        else:
            self.out += b"250 ok\r\n"


class End:
    """An end of a link: a relay's stream, or somebody outside. `pending` is what it hasn't got yet of the other end's
    octets."""

    def __init__(self, relay=None, number=None, outside=None):
        self.relay, self.number, self.outside = relay, number, outside
        self.pending, self.has_closed, self.was_told = b"", False, False


class Link:
    """A connection. What its client's end has written tells whose mail it carries."""

    def __init__(self, client, server):
        self.ends, self.is_over, self.has_ended, self.written = (client, server), False, False, b""


class Network:
    """Relays, each in a box, and what happens among them by a seed."""

    def __init__(self, seed, boxes):
        self.chance = random.Random(seed)
        self.boxes = boxes[:self.chance.choice([2, 2, 2, 3, 3, 4, 5, 8, 16])]
        self.sent, self.kept, self.links, self.ends = {}, [], [], {}
        self.wall, self.now, self.port, self.is_busy = MORNING, 1_000, 40_000, False

    def play(self):
        chance = self.chance
        for at, box in enumerate(self.boxes):
            box.begin()
            box.ask(f"begin {self.configuration(at).encode().hex()}")
            for address in [OUTSIDE, *(address_of(other) for other in range(len(self.boxes)))]:
                box.tell(f"hop {address} accept")
        self.pass_time(0)
        for _ in range(chance.choice([10, 20, 40])):
            self.busy_step()
        self.evening()
        self.judge()

    def evening(self):
        """Lets time pass, and loses nothing any more, until no mail is queued."""
        for _ in range(EVENING_STEPS):
            self.rest()
            if not any(box.ask("queue") for box in self.boxes):
                return
            self.pass_time(EVENING_STEP)
        require(False, "mail is still queued at the end, though every next hop takes it")

    def rest(self):
        """Goes on until no relay does anything any more."""
        for _ in range(MOST_STEPS):
            self.is_busy = False
            self.step(is_calm=True)
            if not self.is_busy:
                return
        require(False, f"the network isn't at rest after {MOST_STEPS} steps")

    def configuration(self, at):
        """Returns the text of a relay's configuration: mail goes to a later relay, or outside."""
        keys = {"host": host_of(at), "listen": address_of(at), "spool": "relay.spool"}
        routes = {"s.example": ("outside.example", OUTSIDE)}
        for domain in DOMAINS:
            later = self.chance.randint(at + 1, len(self.boxes))
            routes[domain] = ((host_of(later), address_of(later)) if later < len(self.boxes) else
                              ("outside.example", OUTSIDE))
        return text_of(keys, routes)

    def pass_time(self, milliseconds):
        self.now += milliseconds
        self.wall = MORNING + self.now // 1_000
        for box in self.boxes:
            box.tell(f"clock {self.wall} {self.now}")

    def busy_step(self):
        chance = self.chance
        if chance.random() < 0.4:
            self.send()
        if chance.random() < 0.3:
            self.pass_time(chance.choice([1, 1_000, 61_000, 1_801_000]))
        if chance.random() < 0.1 and self.links:
            self.lose(chance.choice(self.links))
        if chance.random() < 0.05:
            chance.choice(self.boxes).tell(f"fail {chance.randint(0, 20)}")
        if chance.random() < 0.05:
            self.stop(chance.choice(self.boxes))
        self.step(is_calm=False)

    def send(self):
        """Lets a client come to a relay with a message."""
        chance, token = self.chance, b"token%d" % len(self.sent)
        names = [b"r", b"r", b"r", b"no"]
        recipients = [b"%b%d.%b@%b" % (chance.choice(names), at, token, chance.choice(DOMAINS).encode())
                      for at in range(chance.choice([1, 1, 2, 3]))]
        body = b"".join(chance.choice([b"hi\r\n", b".\r\n", b"..\r\n", b"\r\n"]) for _ in range(chance.randint(0, 5)))
        sent = Sent(token, recipients, b"Subject: %b\r\n\r\n" % token + body)
        self.sent[token] = sent
        self.connect(End(outside=Client(sent)), chance.choice(self.boxes), "127.0.0.1")

    def connect(self, client, box, address):
        """Opens a link from an end to a relay."""
        self.port += 1
        server = End(box, box.judge.streams)
        box.tell(f"client {address}:{self.port}")
        self.add(Link(client, server))

    def add(self, link):
        self.links.append(link)
        for at, end in enumerate(link.ends):
            if end.relay:
                self.ends[end.relay, end.number] = link, at

    def step(self, is_calm):
        """Carries octets, and lets each relay take a turn."""
        chance = self.chance
        for link in self.links:
            self.carry(link, 0, is_calm)
            self.carry(link, 1, is_calm)
        self.links = [link for link in self.links if not link.is_over]
        for at, box in enumerate(self.boxes):
            if is_calm or chance.random() < 0.8:
                self.turn(at, box)

    def carry(self, link, at, is_calm):
        """Carries octets from one end of a link to the other, and its end after them."""
        end, other = link.ends[at], link.ends[1 - at]
        if end.outside and end.outside.out:
            other.pending, end.outside.out = other.pending + end.outside.out, b""
        if end.outside and end.outside.closes:
            end.has_closed = True
        if other.pending and (is_calm or self.chance.random() < 0.7):
            count = len(other.pending)
            if not is_calm and self.chance.random() < 0.3:
                count = self.chance.randint(1, count)
            octets, other.pending = other.pending[:count], other.pending[count:]
            self.is_busy = True
            if other.outside:
                other.outside.hear(octets)
            elif not other.has_closed:
                other.relay.tell(f"input {other.number} {octets.hex()}")
        if end.has_closed and not other.pending and not other.was_told:
            other.was_told = True
            if other.relay and not other.has_closed:
                other.relay.tell(f"end {other.number}")
        link.is_over = link.is_over or all(one.has_closed and not one.pending for one in link.ends)

    def turn(self, at, box):
        answer = box.ask("turn")
        self.is_busy |= bool(answer.dials or answer.writes or answer.reads or not answer.wait)
        for number, address in answer.dials:
            self.dialled(at, box, number, address)
        for number, octets in answer.writes:
            link, side = self.ends[box, number]
            link.ends[1 - side].pending += octets
            if side == 0:
                link.written += octets
        for number in [*answer.shuts, *answer.closes]:
            link, side = self.ends[box, number]
            link.ends[side].has_closed = True
            if side == 0:
                self.note_end(link)
        if answer.clock:
            self.pass_time(max(0, answer.clock[1] - self.now))
        if answer.fault:
            self.stop(box)

    def dialled(self, at, box, number, address):
        client = End(box, number)
        if address == OUTSIDE:
            self.add(Link(client, End(outside=Server(self.chance, self.kept))))
        else:
            self.connect(client, self.boxes[int(address.split(":")[0].split(".")[3]) - 1], address_of(at).split(":")[0])

    def lose(self, link):
        """Breaks a link. Mail that it carries may have arrived although its client's end doesn't know."""
        for end in link.ends:
            if end.relay and not end.has_closed:
                end.relay.tell(f"reset {end.number}")
            end.has_closed, end.pending, end.was_told = True, b"", True
        self.note_end(link)
        link.is_over = True

    def note_end(self, link):
        """Notes the end of a link at its client: unless that has read the last reply, and so has written QUIT, its mail
        may have arrived without its knowing."""
        if link.ends[0].relay and not link.has_ended and not link.written.endswith(b"\r\nQUIT\r\n"):
            for token in set(TOKEN.findall(link.written)):
                self.sent[token].lost += 1
        link.has_ended = True

    def stop(self, box):
        """Stops a relay, and starts it again."""
        for link in self.links:
            if any(end.relay is box for end in link.ends):
                for end in link.ends:
                    end.has_closed = end.has_closed or end.relay is box
                self.lose(link)
        box.ask(f"stop {self.chance.choice([0, 1, 2, 3, self.chance.randint(4, 300)])}")

    def judge(self):
        """Judges what has arrived outside."""
        copies, reported = collections.Counter(), set()
        for recipients, content in self.kept:
            reported.update(FAILED.findall(content))
            if recipients == [b"sender@s.example"]:
                continue
            found = TOKEN.search(content)
            require(found, f"a content arrived that nobody has sent: {content[:200]}")
            sent = self.sent[found[1]]
            trace = TRACE.match(content)
            require(trace and content[trace.end():] == sent.content, f"a content has changed: {content[:400]}")
            for path in recipients:
                require(path in sent.recipients, f"{path} isn't a recipient of {sent.token}")
                copies[path] += 1
        for sent in self.sent.values():
            for path in sent.recipients:
                what = f"{path.decode()}, of which {copies[path]} copies arrived, with {sent.lost} replies lost"
                require(copies[path] <= 1 + sent.lost, f"too many copies of {what}")
                require(not sent.is_acknowledged or copies[path] or path in reported, f"lost: {what}")


def host_of(at):
    return f"relay{at}.example"


def address_of(at):
    return f"192.0.2.{at + 1}:25"


def lane(told, first, results):
    """Plays every so many networks, from a seed on."""
    boxes, count, messages = [RelayInBox(told.program) for _ in range(16)], 0, 0
    for seed in range(first, told.first + told.count, told.lanes):
        network = Network(seed, boxes)
        try:
            network.play()
            count, messages = count + 1, messages + len(network.sent)
        except Difference as difference:
            files = [str(save(f"{told.save}/{at}", seed, box.record, str(difference)))
                     for at, box in enumerate(network.boxes)]
            results.put(f"seed {seed}: {difference}\n    its scripts are {' '.join(files)}")
            for box in boxes:
                box.close()
            boxes = [RelayInBox(told.program) for _ in range(16)]
    for box in boxes:
        box.close()
    results.put((count, messages))


def arguments():
    summary, usage = __doc__.split("\n\n")[:2]
    parser = argparse.ArgumentParser(description=summary, epilog=usage)
    parser.add_argument("program")
    parser.add_argument("count", nargs="?", type=int, default=100)
    parser.add_argument("first", nargs="?", type=int, default=1)
    parser.add_argument("--lanes", type=int, default=os.cpu_count() or 2)
    parser.add_argument("--save", default="build/tests/networks")
    return parser.parse_args()


def main():
    told, begun, results = arguments(), time.monotonic(), multiprocessing.Queue()
    lanes = [multiprocessing.Process(target=lane, args=(told, told.first + at, results)) for at in range(told.lanes)]
    for one in lanes:
        one.start()
    left, count, messages, differences = len(lanes), 0, 0, 0
    while left:
        found = results.get()
        if isinstance(found, str):
            print(found, flush=True)
            differences += 1
        else:
            left, count, messages = left - 1, count + found[0], messages + found[1]
    seconds = time.monotonic() - begun
    print(f"{count} networks in {seconds:.1f} s, with {messages} messages")
    return f"networks_in_a_box: {differences} networks differ" if differences else 0


if __name__ == "__main__":
    sys.exit(main())
