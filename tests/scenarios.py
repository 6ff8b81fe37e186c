"""Scenarios of a node, which the program of scenarios plays, and the records of the node's spool: they are made of the
layout in docs/ alone, so that the program's output isn't compared with itself."""
import pathlib
import re
import struct
import subprocess

from relay_program import Difference, same
from spool_files import file_of, snapshot_of

PATH = r'<(?:"(?:[^"\\]|\\.)*"|[^">])*>'
RET = {"": 0, "FULL": 1, "HDRS": 2}
NOTIFY = {"NEVER": 1, "SUCCESS": 2, "FAILURE": 4, "DELAY": 8}
HOP, HOST = "next.example", "relay.example"


def escaped(octets):
    """Returns octets as a scenario writes them."""
    return "".join(chr(it) if 32 <= it < 127 and it != 92 else f"\\x{it:02x}" for it in octets)


def trace(word, protocol, number):
    """Returns the time stamp line of a message at the first second."""
    return (f"Received: from {word} ([127.0.0.1])\r\n by {HOST} with {protocol} id {number};\r\n"
            " Thu, 01 Jan 1970 00:00:00 +0000\r\n").encode()


def dotted(content):
    """Returns a content with its leading periods doubled."""
    return re.sub(rb"(?m)(\A|(?<=\r\n))\.", b"..", content)


def sized(width, octets):
    return len(octets).to_bytes(width, "big") + octets


def parameters_of(text):
    return dict(it.split("=", 1) for it in text.split())


def accept_of(mail, recipients, text):
    """Returns the record of a message at the first second, of what its MAIL and its RCPTs say after the colon."""
    path, = re.match(f"({PATH})", mail).groups()
    of_mail = parameters_of(mail[len(path):])
    body = b"\1" + bytes(8) + sized(2, path.encode())
    body += bytes([RET[of_mail.get("RET", "")]]) + sized(2, of_mail.get("ENVID", "").encode())
    body += bytes([len(recipients)])
    for recipient in recipients:
        path, = re.match(f"({PATH})", recipient).groups()
        of_rcpt = parameters_of(recipient[len(path):])
        notify = sum(NOTIFY[it] for it in of_rcpt.get("NOTIFY", "").split(",") if it)
        body += sized(2, path.encode()) + bytes([notify]) + sized(2, of_rcpt.get("ORCPT", "").encode())
    return body + sized(4, text)


def verdict_of(words):
    """Returns the octets of a verdict, which is told in words: `Refused 550 no`."""
    word, _, rest = words.partition(" ")
    if word == "Refused":
        code, _, text = rest.partition(" ")
        return b"\3" + int(code).to_bytes(2, "big") + sized(1, text.encode("latin-1"))
    return {"Taken, DSN offered": b"\1", "Taken, no DSN offered": b"\2", "Later": b"\4", "CantSend": b"\5"}[words]


def ruled(message, verdicts, moment=0):
    """Returns the record of an attempt's outcome, a place and the words of its verdict for each, up to its report."""
    rulings = b"".join(bytes([place]) + verdict_of(words) for place, words in verdicts)
    return b"\4" + struct.pack(">QQ", message, moment) + sized(2, HOP.encode()) + bytes([len(verdicts)]) + rulings


def outcome_of(message, verdicts):
    """Returns the record of an outcome without a report."""
    return ruled(message, verdicts) + sized(4, b"")


def conversation(mail, recipients, text):
    """Returns the lines by which a next hop without extensions takes a message: what it says, and what is written to it
    after that."""
    yield from ("> 220 n", f"< EHLO {HOST}", "> 250 n", f"< MAIL FROM:{mail}", "> 250 ok")
    for recipient in recipients:
        yield from (f"< RCPT TO:{recipient}", "> 250 ok")
    yield from ("< DATA", "> 354 go", f"<. {escaped(dotted(text))}", "< .", "> 250 ok", "< QUIT")


class Spool:
    """What a node's spool holds."""

    def __init__(self):
        self.records, self.bodies, self.generation = [], [], 1

    @property
    def changes(self):
        return len(self.records)

    def append(self, record):
        self.records.append(record)
        self.bodies.append(record)

    def octets(self):
        return file_of(self.generation, *self.bodies)

    def compact(self):
        """Puts a snapshot in the place of all bodies. Returns the sizes before and after that."""
        before = len(self.octets())
        self.bodies, self.generation = [snapshot_of(self.records)], self.generation + 1
        return before, len(self.octets())

    def image(self):
        """Returns the lines that show the file in use."""
        return ["image" if self.generation % 2 else "image second", f"=. {escaped(self.octets())}"]


def played(program, folder, scenarios):
    """Plays scenarios, each a list of lines whose first is its name. Returns what is told of each, in order."""
    path = pathlib.Path(folder) / "scenarios.in"
    path.write_text("".join("\n".join(it) + "\n\n" for it in scenarios))
    done = subprocess.run([program, "file", path], capture_output=True, text=True)
    lines, names = done.stdout.splitlines(), [it[0].removeprefix("name ") for it in scenarios]
    same("the number of lines", (len(lines), done.stderr[-300:] if len(lines) < len(names) else ""), (len(names), ""))
    for name, line in zip(names, lines):
        same("the name of a line", line[:len(name) + 2], f"{name}: ")
    outcomes = [line[len(name) + 2:] for name, line in zip(names, lines)]
    are_right = all(it == "as written down" for it in outcomes)
    same("the status", (done.returncode == 0, are_right or "a scenario came otherwise" in done.stderr),
         (are_right, True))
    return outcomes


def right(program, folder, scenarios):
    """Plays scenarios, each of which must come as it is written down. Returns how many there are."""
    for scenario, outcome in zip(scenarios, played(program, folder, scenarios), strict=True):
        if outcome != "as written down":
            raise Difference(f"{scenario[0][5:]}: {outcome[:600]}")
    return len(scenarios)


def otherwise(program, folder, scenarios):
    """Plays scenarios that are wrong on purpose, each of which must come otherwise. Returns how many there are."""
    for scenario, outcome in zip(scenarios, played(program, folder, scenarios), strict=True):
        same(f"{scenario[0][5:]}: whether it is as written down", outcome == "as written down", False)
    return len(scenarios)
