#!/usr/bin/env python3
"""Plays attempts at a next hop, which are written out by hand, with a node over memory: with each row of the verdict
table. A client submits mail, and what the next hop says comes whole, cut in two after each octet, octet by octet, and
with so many other sessions that 64 are open. The node must write the same commands after the same octets, with its time
stamp line before the mail data, and use no octet after an attempt's end; the outcome's record must have the row's
verdicts, to the octet, and the places that they keep are held afterwards; no call may run out of memory. Four rows are
wrong on purpose.

    tests/attempts_of_a_node.py build/relay_rows_tests
"""
import pathlib
import re
import sys
import tempfile

sys.dont_write_bytecode = True

from relay_program import run_main, same
from scenarios import HOP, HOST, dotted, escaped, otherwise, right, ruled, trace

ROWS = pathlib.Path(__file__).resolve().parent / "rows/attempts.in"
LINE_LIMIT = 2_048
LETTERS = {b"r": b"\r", b"n": b"\n", b"t": b"\t", b"0": b"\0", b"d": b"\x7f", b"h": b"\x80", b"f": b"\xff"}
# How long places wait that may be tried again, in seconds.
WAIT = 1_800


def octets_of(text):
    return re.sub(rb"\\(.)", lambda found: LETTERS.get(found[1], found[1]), text.encode("latin-1"), flags=re.DOTALL)


def rows():
    for block in ROWS.read_text().split("\n\n"):
        if block.strip():
            yield [line.partition(" ")[::2] for line in block.strip("\n").split("\n")]


class Row:
    def __init__(self, lines):
        def all_of(word):
            return [text for it, text in lines if it == word]
        self.name, self.mail, self.end = all_of("name")[0], all_of("mail")[0], all_of("end")[0]
        self.recipients, self.verdicts = all_of("rcpt"), all_of("V")
        self.places = [int(it) for it in all_of("place")]
        self.talk = [(word, text) for word, text in lines if word in ("S", "s", "C", "c")]
        # What the hop says after the end belongs to no attempt, and isn't used.
        self.more = all_of("B")
        text = octets_of(all_of("text")[0])
        self.protocol = next((it for it in ("SMTP", "ESMTP") if text.startswith(trace("x", it, 1))), None)
        self.content = text[len(trace("x", self.protocol, 1)):] if self.protocol else text

    def handed_in(self):
        """Returns the lines with which a client submits the message, and the replies."""
        yield from ("> HELO x", f"< 250 {HOST}") if self.protocol == "SMTP" else (
            "> EHLO x", f"< 250-{HOST}", "< 250-PIPELINING", "< 250-CHUNKING", "< 250 DSN")
        yield from (f"> MAIL FROM:{self.mail}", "< 250 sender OK")
        for recipient in self.recipients:
            yield from (f"> RCPT TO:{recipient}", "< 250 recipient OK")
        if self.protocol == "SMTP":
            yield from ("> DATA", "< 354 end with a line of one period", f">. {escaped(dotted(self.content))}", "> .")
        else:
            yield from (f"> BDAT {len(self.content)} LAST", f">. {escaped(self.content)}")
        yield from ("< 250 queued as 1", "= change 1")

    def said(self):
        """Returns what the hop writes, and what the node writes: as in the row, with the node's time stamp line before
        the mail data."""
        written = (trace("x", self.protocol, 1) if self.protocol else b"") + self.content
        stamped = trace("x", self.protocol or "ESMTP", 1) + self.content
        ours = {dotted(written) + b".\r\n": dotted(stamped) + b".\r\n", written: stamped,
                f"BDAT {len(written)} LAST".encode(): f"BDAT {len(stamped)} LAST".encode()}
        for word, it in self.talk:
            octets = octets_of(it)
            if word == "S" and len(octets) + 2 > LINE_LIMIT:
                # The attempt ends by the last octet that a line may have and that isn't its end: no more is used.
                yield ">. " + escaped((octets + b"\r\n")[:LINE_LIMIT])
            else:
                yield {"S": "> ", "s": ">. ", "C": "< ", "c": "<. "}[word] + escaped(ours.get(octets, octets))

    def said_in_vain(self, change):
        """Returns the lines of a talk that a reply ends, and what the hop says after that."""
        used = sum(len(octets_of(text)) + (2 if word == "S" else 0) for word, text in self.talk if word in "Ss")
        return [*(f"> {escaped(octets_of(it))}" for it in self.more), f"= change {change}", "= unknown",
                f"= used {used}"]

    def others_taken(self):
        """Returns the lines of an attempt before this one, by which the places that it isn't for are taken, and the
        time at which the rest is due."""
        others = [place for place in range(len(self.recipients)) if place not in self.places]
        if not others:
            return [], 0
        talk = ["> 220 n", f"< EHLO {HOST}", "> 250 n", f"< MAIL FROM:{self.mail}", "> 250 ok"]
        for place, recipient in enumerate(self.recipients):
            talk += [f"< RCPT TO:{recipient}", "> 250 ok" if place in others else "> 450 later"]
        text = dotted(trace("x", self.protocol or "ESMTP", 1) + self.content)
        talk += ["< DATA", "> 354 go", f"<. {escaped(text)}", "< .", "> 250 ok", "< QUIT", "= change 2"]
        places = [f"= place {place}" for place in range(len(self.recipients))]
        return [f"start 1 {HOP}", "= attempt 0", *places, "give hop 0", *talk, f"at {WAIT}"], WAIT

    def is_reported(self, place, verdict):
        notify = re.search(r" NOTIFY=(\S+)", self.recipients[place])
        wanted = notify[1].split(",") if notify else ["FAILURE"]
        word = "FAILURE" if verdict.startswith(("Refused", "CantSend")) else "SUCCESS" if "no DSN" in verdict else None
        return not self.mail.startswith("<>") and word in wanted

    def ended(self, change, moment):
        """Returns the lines that show the outcome: its note, its record up to its report, and what is held."""
        ruled_on = list(zip(self.places, self.verdicts, strict=True))
        is_reported = any(self.is_reported(*it) for it in ruled_on)
        yield from ("note", f"= change {change}", "= accepts 0")
        for place, verdict in ruled_on:
            if verdict != "Later":
                yield f"= {'there' if verdict.startswith('Taken') else 'failed'} {place}"
        yield "= report" if is_reported else "= no report"
        yield from ("has", f">. {escaped(ruled(1, ruled_on, moment))}", "= yes")
        held = [f"1 {place}" for place, verdict in ruled_on if verdict == "Later"]
        yield from ("marks", *(f"= {it}" for it in held + ([f"{change} 0"] if is_reported else [])))

    def scenario(self):
        before, moment = self.others_taken()
        change = 3 if before else 2
        yield from (f"name {self.name}", f"table * {HOP}", "create", "connect 1", "= session 0",
                    f"= 220 {HOST} ESMTP relay ready", "give client 0", *self.handed_in(), *before)
        yield from (f"start 1 {HOP}", "= attempt 0", *(f"= place {place}" for place in self.places))
        if self.talk:
            yield from ("give hop 0", *self.said())
            if self.end == "reply" and self.more:
                yield from self.said_in_vain(change)
            elif self.end in ("reply", "fault"):
                yield f"= change {change}"
        if self.end == "loss":
            yield from ("lose 0", f"= change {change}")
        if self.end == "none":
            yield from ("marks", *(f"= 1 {place}" for place in self.places))
        else:
            yield from self.ended(change, moment)


def main(program):
    every = [Row(lines) for lines in rows()]
    wrong = [it for it in every if it.name.startswith("wrong: ")]
    same("rows that are wrong", len(wrong), 4)
    with tempfile.TemporaryDirectory() as folder:
        count = right(program, folder, [list(it.scenario()) for it in every if it not in wrong])
        otherwise(program, folder, [list(it.scenario()) for it in wrong])
    print(f"attempts_of_a_node: {count} attempts, each with one session and with 64: as written down, and 4 others "
          "aren't")


if __name__ == "__main__":
    run_main("attempts_of_a_node", main)
