#!/usr/bin/env python3
"""Lets a message go from one node over memory to another. A row says how many recipients it has, which of them the
other node has a hop for, which text goes, whether the other has room, how many messages it is offered, and what the
places whose RCPT was accepted have at last. Each end is given what the other one says: whole, in two pieces cut at each
octet, of many recipients in pieces of 7 and 64 octets from each place on, octet by octet, and among so many other
clients that 64 sessions are open. It must write what it is to write
after just these octets. The spool of the one that serves has the message, or none, and the outcome's record of the
other has the verdicts, to the octet. Then the one that relays loses its next hop after each octet of its replies: each
place may be tried again. Four rows are wrong on purpose.

    tests/errands_of_nodes.py build/relay_rows_tests
"""
import pathlib
import sys
import tempfile

sys.dont_write_bytecode = True

from relay_program import run_main, same
from scenarios import HOP, HOST, Spool, accept_of, dotted, escaped, played, ruled, trace

ROWS = pathlib.Path(__file__).resolve().parent / "rows/errands.in"
# How many of the rows are wrong on purpose, the last ones; and with how many recipients octets come in larger pieces.
WRONG, MANY = 4, 100
MAIL = "<sender@client.example> RET=HDRS ENVID=e+2B1"
# The other node takes fewer octets than `too_many_lines` and `too_many_octets` have, and no text with a hundred
# `Received:` fields, of which the node that relays adds one.
CONTENT_LIMIT, FIELDS = 2_000, b"received:\r\n" * 99
TEXTS = {
    "lines": b"Received: from a by b; c\r\n\r\n.\r\n..two\r\n\r\nend\r\n",
    "octets": b"Received: from a by b; c\r\n\r\n.\r\nQUIT\r\n\0\xffend",
    "too_many_lines": b"line\r\n" * (CONTENT_LIMIT // 5),
    "too_many_octets": b"octet" * (CONTENT_LIMIT // 4),
    "circling": FIELDS + b"\r\n",
    "circling_octets": FIELDS + b"\r\nend",
}
NO_ROUTE, TOO_LARGE, CIRCLING = "550 no route", "552 content too large", "554 too many Received fields"
OFFERED = [f"250-{HOST}", "250-PIPELINING", "250-CHUNKING", "250 DSN"]


class Errand:
    def __init__(self, line):
        count, self.routed, self.text_name, answer, self.offers, self.last = line.split(" ")
        self.line, self.has_room, self.content = line, answer != "full", TEXTS[self.text_name]
        self.text = trace("x", "ESMTP", 1) + self.content
        self.sizes = ["sizes 7 64"] if int(count) >= MANY else []
        self.goes = [self.routed == "all" or (self.routed == "second" and place % 2 == 1)
                     for place in range(int(count))]
        self.recipients = [f"<r{place}@example.{'org' if goes else 'net'}> NOTIFY=FAILURE ORCPT=rfc822;r{place}"
                           for place, goes in enumerate(self.goes)]

    def last_reply(self):
        """Returns the reply to the text."""
        if self.text_name.startswith("circling"):
            return CIRCLING
        if self.text_name.startswith("too_many"):
            return TOO_LARGE
        return "250 queued as 1" if self.has_room else "452 spool full"

    def exchange(self):
        """Returns what the one that relays says, and the other's replies to it, in turns: a greeting is the first."""
        yield b"", [f"220 {HOST} ESMTP relay ready"]
        yield f"EHLO {HOST}\r\n".encode(), OFFERED
        group = [f"MAIL FROM:{MAIL}", *(f"RCPT TO:{recipient}" for recipient in self.recipients)]
        replies = ["250 sender OK", *("250 recipient OK" if goes else NO_ROUTE for goes in self.goes)]
        yield "".join(f"{it}\r\n" for it in group).encode(), replies
        if any(self.goes) and self.text.endswith(b"\r\n"):
            yield b"DATA\r\n", ["354 end with a line of one period"]
            yield dotted(self.text) + b".\r\n", [self.last_reply()]
        elif any(self.goes):
            yield b"BDAT %d LAST\r\n" % len(self.text) + self.text, [self.last_reply()]
        yield b"QUIT\r\n", [f"221 {HOST} closing"]

    def served(self):
        """Returns the scenario of the one that serves."""
        spool, is_queued = Spool(), self.offers == "1" and self.has_room
        if is_queued:
            offered = [it for it, goes in zip(self.recipients, self.goes) if goes]
            spool.append(accept_of(MAIL, offered, trace(HOST, "ESMTP", 1) + self.text))
        limit = "" if self.has_room else " ; spool_limit = 100"
        lines = [f"name {self.line}, served", *self.sizes, f"keys max_content = {CONTENT_LIMIT}{limit}", "create",
                 "connect 1", "= session 0"]
        (_, greeting), *exchange = self.exchange()
        lines += [f"= {it}" for it in greeting] + ["give client 0"]
        for said, replies in exchange:
            parts = said.splitlines(keepends=True) if said.startswith(b"MAIL") else [said]
            told = [[it] for it in replies] if len(parts) > 1 else [replies]
            for part, lines_of_it in zip(parts, told, strict=True):
                lines += [f">. {escaped(part)}", *(f"< {it}" for it in lines_of_it)]
        return lines + (["= change 1"] if is_queued else []) + ["= closed", *spool.image()]

    def relayed(self):
        """Returns the lines of a scenario of the one that relays, up to the talk with the other, and those of the talk.
        """
        handed_in = ["create", "connect 1", "= session 0", f"= 220 {HOST} ESMTP relay ready", "give client 0",
                     "> EHLO x", *(f"< {it}" for it in OFFERED), f"> MAIL FROM:{MAIL}", "< 250 sender OK"]
        for recipient in self.recipients:
            handed_in += [f"> RCPT TO:{recipient}", "< 250 recipient OK"]
        handed_in += [f"> BDAT {len(self.content)} LAST", f">. {escaped(self.content)}", "< 250 queued as 1",
                      "= change 1", f"start 1 {HOP}", "= attempt 0",
                      *(f"= place {place}" for place in range(len(self.goes)))]
        talk = []
        for said, replies in self.exchange():
            if said:
                talk.append(f"<. {escaped(said)}")
            # The reply to QUIT isn't awaited.
            if said != b"QUIT\r\n":
                talk += [f"> {it}" for it in replies]
        return handed_in, talk

    def verdict_of(self, goes):
        if not goes:
            return f"Refused {NO_ROUTE}"
        reply = {"taken": "Taken, DSN offered", "later": "Later"}
        return reply.get(self.last) or f"Refused {TOO_LARGE if self.last == '552' else CIRCLING}"

    def ended(self, verdicts):
        """Returns the lines that show an outcome: its note, its record up to its report, and what is held."""
        kept = [place for place, verdict in enumerate(verdicts) if verdict == "Later"]
        is_reported = any(it.startswith("Refused") for it in verdicts)
        lines = ["note", "= change 2", "= accepts 0"]
        for place, verdict in enumerate(verdicts):
            if verdict != "Later":
                lines.append(f"= {'there' if verdict.startswith('Taken') else 'failed'} {place}")
        lines.append("= report" if is_reported else "= no report")
        lines += ["has", f">. {escaped(ruled(1, list(enumerate(verdicts))))}", "= yes", "marks"]
        return lines + [f"= 1 {place}" for place in kept] + (["= 2 0"] if is_reported else [])

    def scenarios(self):
        """Returns the scenarios of the one that serves, of the one that relays, and of that when it loses the other."""
        handed_in, talk = self.relayed()
        table, ended = f"table * {HOP}", self.ended([self.verdict_of(it) for it in self.goes])
        octets = sum(len(it) for it in talk if it.startswith("> "))
        lost = self.ended(["Later"] * len(self.goes))
        return [self.served(),
                [f"name {self.line}, relayed", *self.sizes, table, *handed_in, "give hop 0", *talk, "= change 2",
                 *ended],
                [f"name {self.line}, lost", f"calls 0 {octets - 1}", table, *handed_in, "part hop 0", *talk, "lose 0",
                 "= change 2", *lost]]


def main(program):
    errands = [Errand(line) for line in ROWS.read_text().splitlines()]
    scenarios = [it for errand in errands for it in errand.scenarios()]
    with tempfile.TemporaryDirectory() as folder:
        outcomes = played(program, folder, scenarios)
    for place, errand in enumerate(errands):
        told = [it[:600] for it in outcomes[3 * place:3 * place + 3] if it != "as written down"]
        if place < len(errands) - WRONG:
            same(errand.line, told, [])
        else:
            same(f"{errand.line}: whether it is as written down", not told, False)
    print(f"errands_of_nodes: {len(errands) - WRONG} errands, cut at every octet: as written down, and {WRONG} aren't")


if __name__ == "__main__":
    run_main("errands_of_nodes", main)
