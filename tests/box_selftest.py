"""Shows that the judge of days in a box notices what is wrong: transcripts that were checked by hand show no
difference, and each with a planted fault shows the difference that it must.

In a transcript, tests/days/NAME.day, `> ` stands before a line of the script and `< ` before one of an answer; octets
are a text in quotes. NAME.plants has the faults: after `= ` words of the difference, after `- ` a text of the
transcript (its occurrence after `@ `, from 0), and after `+ ` what stands in its place; further such pairs may follow.
"""
import json
import pathlib

from box_judge import Judge
from relay_program import Difference, same

DAYS = pathlib.Path(__file__).resolve().parent / "days"
ANSWERED = ("begin", "turn", "stop", "queue", "ask")


class Edit:
    """A text of a transcript, its occurrence, and what stands in its place."""

    def __init__(self, lines):
        self.old, self.new, at = ("\n".join(text for mark, text in lines if mark == wanted) for wanted in "-+@")
        self.at = int(at or 0)

    def apply(self, text):
        parts = text.split(self.old)
        if len(parts) < self.at + 2:
            raise Difference(f"the transcript has no such text: {self.old}")
        return self.old.join(parts[:self.at + 1]) + self.new + self.old.join(parts[self.at + 1:])


class Plant:
    """A fault: one edit or more of a transcript, and words of the difference that follows."""

    def __init__(self, block):
        lines = [(line[:1], line[2:]) for line in block.splitlines()]
        self.words = "\n".join(text for mark, text in lines if mark == "=")
        begins = [index for index, (mark, _) in enumerate(lines)
                  if mark in "@-" and lines[index - 1][0] in "=+"]
        ends = [*begins[1:], len(lines)]
        self.edits = [Edit(lines[begin:end]) for begin, end in zip(begins, ends)]

    def apply(self, text):
        for edit in self.edits:
            text = edit.apply(text)
        return text


def plants_of(file):
    """Returns the faults of a file."""
    blocks = file.read_text().split("\n\n")
    return [Plant(block) for block in blocks if not block.startswith("#")]


def lines_of(text):
    """Returns the lines of a transcript with octets as the protocol has them, each with whether it was sent."""
    for line in text.splitlines():
        front, quote, rest = line.partition(' "')
        if quote and front[2:].split(" ")[0] in ("begin", "config", "input", "wrote", "queued", "answer"):
            line = front + " " + json.loads('"' + rest).encode("latin-1").hex()
        yield line.startswith("> "), line[2:]


def judge(text):
    """Judges a transcript. Returns what differs, or None."""
    judged, command, answer = Judge(), None, []
    try:
        for is_sent, line in lines_of(text):
            if not is_sent:
                answer.append(line)
                if line.startswith("done "):
                    judged.answered(command, answer)
            elif line.startswith(ANSWERED):
                command, answer = line, []
            else:
                judged.sent(line)
    except Difference as difference:
        return str(difference)
    return None


def require_noticed(plant, text):
    found = judge(plant.apply(text))
    if found is None or plant.words not in found:
        edit = plant.edits[-1]
        raise Difference(f"{edit.old[:200]!r}, replaced by {edit.new[:200]!r}, gives {found!r}, and not "
                         f"{plant.words!r}")


def selftest():
    """Judges all transcripts, and each with its plants. Returns how many transcripts and faults there are."""
    transcripts = faults = 0
    for file in sorted(DAYS.glob("*.day")):
        text = file.read_text()
        same(f"the difference of {file.stem}", judge(text), None)
        transcripts += 1
        for plant in plants_of(file.with_suffix(".plants")):
            require_noticed(plant, text)
            faults += 1
    idle = Plant("= and did nothing\n- > stop 0\n+ " + "> turn\n+ < done 0\n+ " * 200 + "> stop 0")
    require_noticed(idle, (DAYS / "report.day").read_text())
    return transcripts, faults + 1
