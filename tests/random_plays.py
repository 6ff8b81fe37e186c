#!/usr/bin/env python3
"""Makes random plays of two relays, and judges each by its output alone: whether mail that a node acknowledged is held,
was relayed, has ended, or was withdrawn as the play asks; whether relayed mail was accepted; whether there are no more
copies than lost replies allow; and whether the ledger only grows. Prints a play that fails, without the lines that the
failure doesn't need.

    tests/random_plays.py build/relayd [COUNT [FIRST]]

Makes COUNT plays (50) of 60 events each, from the seed FIRST (1) on.
"""
import functools
import pathlib
import random
import re
import subprocess
import sys

sys.dont_write_bytecode = True

from relay_program import Difference, PATIENCE, Play, run_main

EVENTS = 60
# Says 0 and nothing else, whatever was played: it ends the lines of the event before it.
END_OF_LINES = "copies a 999999999 0"
LETTERS = "abcdefghijklmnop"
HOSTS = {f"{letter}.example": letter for letter in LETTERS}
DOMAINS = ["a.example", "b.example", "c.example", "loop.example", "out.example", "nowhere.example"]
PEOPLE = ["r", "s", '"q r"', "postmaster"]
MARKS = re.compile(r"([a-p]) (\d+) (\d+)")
ACCEPT = re.compile(r"accept ([a-p]) (\d+) (\d+) link (\d+)")
LEFT = re.compile(r"(transfer|end|return|discard) ([a-p]) (\d+) (\d+) (?:failed )?link (\d+) report (\d+)")
DELAYED = re.compile(r"delay ([a-p]) (\d+) (\d+) link (\d+) report (\d+)")
WITHDRAWALS = ("return ", "discard ")
# What an event may print.
PRINTED = re.compile(
    r"link \d+ out .*|ok|node [a-p] link \d+ used \d+ out .*?( change \d+)?( end)?|start [a-p] \d+ \S+ link \d+"
    r"|noroute [a-p] \d+ change \d+|(return|discard) [a-p] \d+ \d+ change \d+|compact [a-p] size \d+|broken \d+"
    r"|now \d+|stopped [a-p]|armed [a-p]|refused [A-Z][A-Za-z]+")


def nodes_of(lines):
    """Returns the letters of a script's nodes: two, or as many as its first significant line says."""
    said = [line for line in lines if line and not line.startswith("#")]
    count = re.fullmatch(r"nodes (\d+)", said[0]) if said else None
    return LETTERS[:int(count[1])] if count else "ab"


def escaped(octets):
    named = {13: r"\r", 10: r"\n", 92: r"\x5C"}
    return "".join(named.get(octet, chr(octet) if 32 <= octet < 127 else f"\\x{octet:02X}") for octet in octets)


def lines_after(play, line):
    """Returns the lines that an event or a question prints."""
    play.tell(line)
    play.tell(END_OF_LINES)
    lines = []
    while True:
        found = play.answer()
        if not found:
            raise Difference("the play has ended")
        if found == "0\n" and (lines or not line.startswith(("copies ", "lost "))):
            return lines
        lines.append(found.rstrip("\n"))


def told_at_once(program, events, messages, places):
    """Returns the output of each event, and of a question after them, for a play in which a node has at most so many
    messages of so many places."""
    questions = ["ledger", "marks"]
    questions += [f"{word} {node} {number} {place}" for word in ("copies", "lost") for node in nodes_of(events)
                  for number in range(1, messages + 1) for place in range(places)]
    script = "".join(f"{line}\n{END_OF_LINES}\n" for line in [*events, *questions])
    done = subprocess.run([program, "play"], input=script, capture_output=True, text=True, timeout=PATIENCE)
    if done.returncode != 0:
        raise Difference(f"the play has ended: {done.stderr}")
    lines, found = iter(done.stdout.split("\n")), []
    for line in [*events, *questions]:
        printed = [next(lines)] if line.startswith(("copies ", "lost ")) else []
        while (one := next(lines)) != "0":
            printed.append(one)
        found.append(printed)
    answers = dict(zip(questions, found[len(events):]))
    return found[:len(events)], answers.__getitem__


class Link:
    """A link, according to its lines: its ends (None for outside), the work that it was opened for, and what is still
    to be written at its outer end."""

    def __init__(self, client, server, work=None):
        self.client, self.server, self.work = client, server, work
        self.whole, self.ended, self.pending, self.codes = True, "", b"", []

    def has_end(self, node):
        return self.whole and node in (self.client, self.server)


class Judge:
    """What the printed lines say of links, attempts and mail, and whether it is consistent."""

    def __init__(self):
        self.links, self.acknowledged, self.ledger = {}, {}, []
        # What the postmaster asked for, and, by place, what the output says was done for him.
        self.asked, self.withdrawn = set(), {}

    def event(self, line, printed):
        if line.startswith(WITHDRAWALS):
            way, node, number, place = line.split()
            self.asked.add((way, node, int(number), int(place)))
        for one in printed:
            self.require(PRINTED.fullmatch(one), f"`{line}` printed `{one}`")
            words = one.split(" ")
            if words[0] == "link":
                self.links[int(words[1])] = Link(None, line.split()[1])
            elif words[0] == "start":
                self.links[int(words[5])] = Link(words[1], HOSTS.get(words[3]), (words[1], int(words[2])))
            elif words[0] == "broken":
                self.links[int(words[1])].whole = False
            elif words[0] == "stopped":
                for link in self.links.values():
                    link.whole = link.whole and words[1] not in (link.client, link.server)
            elif words[0] == "node":
                self.carried(words[1], int(words[3]), one)
            elif one.startswith(WITHDRAWALS):
                self.withdrawn[words[1], int(words[2]), int(words[3])] = words[0]
            elif one in ("refused NoMemory", "refused Full") and line.startswith("carry"):
                self.links[int(line.split()[1])].whole = False

    def carried(self, node, number, printed):
        link = self.links[number]
        if link.server == node:
            for queued in re.findall(r"250 queued as (\d+)", printed):
                self.acknowledged[node, int(queued)] = number
        elif re.search(r" change \d+( end)?$", printed):
            link.ended = "without a reply" if f"link {number} used 0 " in printed else "by a reply"

    def require(self, holds, what):
        if not holds:
            raise Difference(what)

    def settle(self, ask):
        """Asks for the ledger, the held places and the copies, and compares them."""
        ledger = ask("ledger")
        self.require(ledger[:len(self.ledger)] == self.ledger, "the ledger has forgotten a line")
        self.ledger = ledger
        taken, left = self.read(ledger)
        held = [(one[1], int(one[2]), int(one[3])) for one in map(MARKS.fullmatch, ask("marks"))]
        self.require(len(set(held)) == len(held), f"a place is held twice: {held}")
        for key, link in self.acknowledged.items():
            self.require(key in taken and taken[key][1] == link,
                         f"{key} was acknowledged on link {link}, and isn't in the ledger")
        for (node, number), (places, _) in taken.items():
            for place in range(places):
                one = (node, number, place)
                self.require((one in held) + (one in left) == 1, f"{one} isn't either held or gone")
        for one in [*held, *left]:
            self.require(one[:2] in taken and one[2] < taken[one[:2]][0], f"{one} is of no message")
        for one, (way, link) in left.items():
            if way == "transfer":
                self.handed_on(one, link, taken)
            elif way != "end":
                self.require((way, *one) in self.asked and link == 0, f"{one} left by a {way} that nobody asked for")
        for one, way in self.withdrawn.items():
            self.require(one in left and left[one][0] == way, f"{one} hasn't left by its {way}")
        for (node, number), (places, _) in taken.items():
            for place in range(places):
                copies, lost = (int(ask(f"{word} {node} {number} {place}")[0]) for word in ("copies", "lost"))
                self.few_copies(node, number, place, copies, lost)

    def read(self, ledger):
        """Returns the messages of a ledger, reports included, each with its places and its link, and the places that
        left. A place is reported as delayed once, and before it leaves."""
        taken, left, delayed = {}, {}, set()
        for line in ledger:
            accept, gone, late = ACCEPT.fullmatch(line), LEFT.fullmatch(line), DELAYED.fullmatch(line)
            self.require(accept or gone or late, f"the ledger says `{line}`")
            if accept:
                node, number, places, link = accept[1], *map(int, accept.groups()[1:])
                self.require((node, number) not in taken, f"{line}: for the second time")
                self.require(self.links[link].server == node, f"{line}: that link isn't this node's")
                taken[node, number] = places, link
            elif late:
                node, number, place, _, report = late[1], *map(int, late.groups()[1:])
                self.require((node, number, place) not in delayed | left.keys(),
                             f"{line}: for the second time, or too late")
                self.require(report > number, f"{line}: without a report")
                delayed.add((node, number, place))
                taken[node, report] = 1, 0
            else:
                way, node, number, place, link, report = gone[1], gone[2], *map(int, gone.groups()[2:])
                self.require((node, number, place) not in left, f"{line}: for the second time")
                self.require(way != "discard" or report == 0, f"{line}: with a report")
                left[node, number, place] = way, link
                if report:
                    taken[node, report] = 1, 0
        return taken, left

    def handed_on(self, one, number, taken):
        link = self.links.get(number)
        self.require(link and link.work == one[:2], f"{one} was handed on, on link {number}, which isn't its own")
        if link.server:
            children = [key for key, (_, on) in taken.items() if on == number and key[0] == link.server]
            self.require(len(children) == 1,
                         f"{one} was handed on, on link {number}, which has {len(children)} messages")
        else:
            self.require("250" in link.codes, f"{one} was handed on, on link {number}, and outside said {link.codes}")

    def few_copies(self, node, number, place, copies, lost):
        """There is at most one copy, and one more for each lost reply; and only a link that has ended loses a reply."""
        tried = [link for link in self.links.values() if link.work == (node, number)]
        broken = sum(link.ended != "by a reply" and not (link.whole and not link.ended) for link in tried)
        self.require(copies <= min(1 + lost, len(tried)) and lost <= broken,
                     f"{copies} copies of {(node, number, place)}, of {len(tried)} attempts; "
                      f"{lost} replies lost, {broken} broken")


class Driver:
    """Chooses events by chance: most of them on the last link, so that mail is relayed, and the others anywhere."""

    def __init__(self, seed, messages):
        """Begins with a seed. `messages` are the nodes and numbers of those that were acknowledged, and may grow."""
        self.chance, self.clock, self.turn, self.armed, self.messages = random.Random(seed), 0, 0, [], messages

    def choose(self, links):
        if self.armed:
            return self.compact(links)
        if links and self.chance.random() < 0.85:
            return self.go_on(links, max(links))
        kinds = {"connect": 1, "write": 2, "carry": 4, "reply": 2, "give": 2, "break_off": 1, "tick": 3, "stop": 0.5,
                 "arm": 2, "compact": 2, "arm_compact": 1, "withdraw": 3}
        return getattr(self, self.chance.choices([*kinds], [*kinds.values()])[0])(links)

    def go_on(self, links, number):
        """Returns the next event on a link: one end writes, and then the other reads."""
        link, self.turn = links[number], self.turn + 1
        if not link.whole or link.ended or self.turn > (14 if link.client else 2):
            self.turn = 0
            return self.chance.choice([self.give, self.give, self.give, self.connect])(links)
        if link.client is None:
            return self.send(links, number, self.message) if self.turn % 2 else f"carry {number} {link.server} 100000"
        if link.server is None:
            if self.turn % 2:
                return self.send(links, number, lambda: self.next_reply(link))
            return f"carry {number} {link.client} 100000"
        count = self.chance.choices([100000, 20], [12, 1])[0]
        return f"carry {number} {link.server if self.turn % 2 == 0 else link.client} {count}"

    def one(self, links, fits):
        """Returns a link that fits, mostly one of the last, or any number."""
        found = [number for number, link in links.items() if fits(link)]
        if not found or self.chance.random() < 0.02:
            return self.chance.randint(0, len(links) + 1)
        return self.chance.choice(found[-3:])

    def node(self):
        return self.chance.choice("ab")

    def connect(self, links):
        return f"connect {self.node()}"

    def write(self, links):
        """Returns an event in which a client outside writes some of a message."""
        number = self.one(links, lambda link: link.whole and link.client is None)
        return self.send(links, number, self.message)

    def reply(self, links):
        """Returns an event in which a next hop outside writes a reply."""
        number = self.one(links, lambda link: link.whole and link.server is None)
        return self.send(links, number, lambda: self.chance.choices(
            [b"220 x\r\n", b"250 x\r\n", b"250-x\r\n250-PIPELINING\r\n250-CHUNKING\r\n250 DSN\r\n",
             b"354 x\r\n", b"451 x\r\n",
             b"550 x\r\n", b"2x0 a\r\n"], [3, 8, 3, 4, 1, 2, 0.2])[0])

    def next_reply(self, link):
        """Returns the reply of a next hop that accepts everything to one command after another."""
        taken = [b"220 x\r\n", b"250 x\r\n", b"250 x\r\n", b"250 x\r\n", b"354 x\r\n", b"250 x\r\n"]
        return taken[min(len(link.codes), 5)] if self.chance.random() < 0.95 else b"550 x\r\n"

    def send(self, links, number, text):
        link = links.get(number)
        if link is None:
            return f"send {number} x"
        link.pending = link.pending or text()
        count = len(link.pending) if self.chance.random() < 0.8 else self.chance.randint(1, len(link.pending))
        now, link.pending = link.pending[:count], link.pending[count:]
        link.codes += re.findall(r"(?m)^(\d\d\d) ", now.decode("latin-1"))
        return f"send {number} {escaped(now)}"

    def message(self):
        path = self.chance.choice(["<s@out.example>", "<s@a.example>", "<>", "<s@nowhere.example>"])
        keywords = self.chance.choice(["", " RET=FULL", " RET=HDRS ENVID=q+2B1"])
        lines = ["EHLO x", f"MAIL FROM:{path}{keywords}"]
        for _ in range(self.chance.choice([1, 1, 1, 2, 3])):
            notify = self.chance.choice(["", "", " NOTIFY=NEVER", " NOTIFY=SUCCESS,FAILURE"])
            lines.append(f"RCPT TO:<{self.chance.choice(PEOPLE)}@{self.chance.choice(DOMAINS)}>{notify}")
        text = [self.chance.choice(["hi", ".", "..x", ""]) for _ in range(3)]
        content = "Subject: t\r\n\r\n" + "\r\n".join(text) + "\r\n"
        if self.chance.random() < 0.3:
            lines += [f"BDAT {len(content)} LAST", content[:-2]]
        else:
            lines += ["DATA", content[:-2].replace("\r\n.", "\r\n.."), "."]
        return ("\r\n".join(lines) + "\r\n").encode()

    def carry(self, links):
        number = self.one(links, lambda link: link.whole)
        link = links.get(number)
        ends = [end for end in (link.client, link.server) if end] if link else []
        node = self.chance.choice(ends) if ends and self.chance.random() < 0.98 else self.node()
        count = self.chance.choices([1000, 100000, 50, 7, 3, 1, 0], [12, 6, 3, 1, 1, 1, 0.3])[0]
        return f"carry {number} {node} {count}"

    def give(self, links):
        return f"give {self.node()}"

    def withdraw(self, links):
        """Returns an event in which the postmaster returns or discards a place, mostly of a message that there was."""
        way, found = self.chance.choice(["return", "discard"]), [*self.messages][-3:]
        any_message = self.node(), self.chance.randint(1, 9)
        node, number = self.chance.choice(found) if found and self.chance.random() < 0.9 else any_message
        return f"{way} {node} {number} {self.chance.choice([0, 0, 0, 1, 2])}"

    def break_off(self, links):
        return f"break {self.one(links, lambda link: link.whole)}"

    def tick(self, links):
        step = self.chance.choice([1, 60, 1800, 3600, 7200, 14400, 432000, -1, -1800, -100000])
        self.clock = max(0, self.clock + step)
        return f"tick {self.clock}"

    def pick(self):
        return self.chance.choice([0, 0, 1, 1, 2, 3, self.chance.randint(4, 400)])

    def stop(self, links):
        return f"stop {self.node()} 0 {self.pick()}"

    def arm(self, links):
        return f"stop {self.node()} {self.chance.randint(1, 6)} {self.pick()}"

    def compact(self, links):
        return f"compact {self.armed.pop() if self.armed else self.node()}"

    def arm_compact(self, links):
        """Returns an event that sets a fault at one of the seven device calls of a compaction, which is the event after
        it."""
        self.armed = [self.node()]
        return f"stop {self.armed[0]} {self.chance.randint(1, 7)} {self.pick()}"


def made(program, seed):
    """Returns the events of a play made from this seed, and what failed, if anything."""
    judge, events = Judge(), []
    driver = Driver(seed, judge.acknowledged)
    with Play(program) as play:
        try:
            for number in range(EVENTS):
                events.append(driver.choose(judge.links))
                judge.event(events[-1], lines_after(play, events[-1]))
                if number % 20 == 19:
                    judge.settle(functools.partial(lines_after, play))
            for node in "ab":
                events.append(f"stop {node} 0 0")
                judge.event(events[-1], lines_after(play, events[-1]))
            judge.settle(functools.partial(lines_after, play))
        except Difference as difference:
            return events, str(difference), judge
    return events, None, judge


def judged(program, events, messages, places):
    """Returns the output of these events, which must be consistent."""
    judge = Judge()
    printed, ask = told_at_once(program, events, messages, places)
    for event, lines in zip(events, printed):
        words = event.split(" ", 2)
        link = judge.links.get(int(words[1])) if words[0] == "send" else None
        if link:
            link.codes += re.findall(r"(?:^|\\n)(\d\d\d) ", words[2])
        judge.event(event, lines)
    judge.settle(ask)
    return printed


def failure(program, events):
    """Returns what fails for these events, if anything."""
    try:
        judged(program, events, EVENTS, 3)
    except Difference as difference:
        return str(difference)
    return None


def shortened(program, events):
    """Returns the events without those that the failure doesn't need."""
    at = len(events)
    while at > 0:
        at -= 1
        fewer = events[:at] + events[at + 1:]
        if failure(program, fewer):
            events = fewer
    return events


def main(program, count="50", first="1"):
    program = str(pathlib.Path(program).resolve())
    messages = left = withdrawn = 0
    for seed in range(int(first), int(first) + int(count)):
        events, difference, judge = made(program, seed)
        if difference:
            raise Difference(f"seed {seed}: {difference}\n" + "\n".join(shortened(program, events)))
        messages += sum(line.startswith("accept") for line in judge.ledger)
        left += sum(not line.startswith("accept") for line in judge.ledger)
        withdrawn += sum(line.startswith(WITHDRAWALS) for line in judge.ledger)
    if int(count) >= 20 and not (messages and left):
        raise Difference("no message was accepted, or none left its node: these plays show nothing")
    print(f"ok: {count} random plays: {messages} messages were taken, {left} recipients were handed on or ended, "
          f"{withdrawn} of them as the postmaster asked")


if __name__ == "__main__":
    run_main("random_plays", main)
