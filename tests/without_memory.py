#!/usr/bin/env python3
"""Runs a program once for each of its allocations, which is refused. Each run has one of the outcomes that its case
names, and each of these comes. It ends at the first difference.

    tests/without_memory.py sessions build/relayd
    tests/without_memory.py books build/relay_rows_tests
    tests/without_memory.py nodes build/relayd

- sessions: three dialogues. All goes well all the same; or the program says so, ends with status 1, and has written a
  prefix of the replies. A disk in memory that can't grow is a device that failed.
- books: changes of a book. If the book refuses one for lack of memory, the program applies it again, and each later
  row comes out; else it ends with status 1, and has written a prefix of the rows.
- nodes: plays of one node: two sessions, whose mail comes as lines or in chunks; an attempt whose three places go three
  ways in one change with a report, which is handed on then; and a spool that is compacted twice after a message. Each
  ends with stops, after which the node is opened again. The play says that there was no memory and has shown a prefix;
  or one line is refused, and what is done after it comes as if it hadn't been said, or as if its link had broken in its
  place or after it; or the disk couldn't grow, and all comes as if the node had been stopped there.
"""
import pathlib
import re
import subprocess
import sys
import tempfile

sys.dont_write_bytecode = True

from refusals import outcomes_without, runs_without
from relay_program import HERE, Difference, run_main, same

CRATES = HERE.parent / "crates"
ROWS = CRATES / "relay_rows_tests"
DIALOGUES = [
    (CRATES / "relayd/stdin", CRATES / "relayd/stdout"),
    *((HERE / f"rows/dialogues/{name}.in", HERE / f"rows/dialogues/{name}.ref")
      for name in ("parameters", "gathering")),
]
BOOK_ROWS = re.compile(r"(apply|held|due).*")


def printed(*words):
    """What a program prints with all its memory."""
    return subprocess.run(words, capture_output=True, text=True, check=True).stdout


def counted(met):
    return ", ".join(f"{count} {outcome}" for outcome, count in met.items())


def prefix_of(run, wanted, faults):
    """Whether a run ended well, with all that is wanted. If not it ended by one of these faults, after a prefix of
    that."""
    what = f"without allocation {run.number}"
    if run.status == 0:
        same(what, (run.out, run.errors), (wanted, ""))
        return True
    same(f"{what}: status, a known fault, a prefix",
         (run.status, run.errors.rstrip("\n") in faults, wanted.startswith(run.out)), (1, True, True))
    return False


def sessions(program, folder):
    for given, replies in DIALOGUES:
        wanted, refused = replies.read_bytes().decode("latin-1"), 0
        for run in runs_without([program, "session"], folder, given=given.read_bytes()):
            prefix_of(run, wanted, ("relayd: no memory", "relayd: device"))
            refused += run.was_refused
        same(f"{given.name}: whether one was refused", refused > 0, True)
        yield f"{given.name}: {refused} allocations refused in turn, and each answered"


def books(program, folder):
    # The rows of the first file that change the book and ask it. Without the others a run takes a few milliseconds.
    rows = (ROWS / "data/rows.in").read_text().split("\n")[:-1]
    # Their outcomes stand in the program's output after the rows of others.
    outcomes = (ROWS / "stdout").read_text("latin-1").split("\n")
    first = next(place for place, line in enumerate(outcomes) if line.startswith(f"{rows[0]} => "))
    wanted = [line for line in outcomes[first:first + len(rows)] if BOOK_ROWS.match(line)]
    (folder / "rows.in").write_text("".join(f"{row}\n" for row in rows if BOOK_ROWS.match(row)))
    for name in ("octets.in", "snapshots.in", "delay.in", "reports.in"):
        (folder / name).touch()
    whole, refused, answered = "".join(f"{line}\n" for line in wanted), 0, 0
    for run in runs_without([program, "books", folder], folder):
        answered += prefix_of(run, whole, ("no memory",)) and run.was_refused
        refused += run.was_refused
    same("whether a change was applied again", answered > 0, True)
    yield f"{refused} allocations refused in turn, and after {answered} of them all rows came out"


# Plays of one node, line by line, with what is seen of each; none stands where that follows from the rest. A session's
# mail has one recipient, and that of the report three, of which a next hop with DSN takes the first, refuses the
# second, and may take the third later.

SESSION = r"HELO x\r\nMAIL FROM:<a@out.example>\r\nRCPT TO:<b@out.example>\r\n"
LINES = SESSION + r"DATA\r\n.\r\n"
CHUNKS = SESSION.replace("HELO", "EHLO") + r"BDAT 1\r\naDATA\r\nBDAT 2\r\n\r\nBDAT 0 LAST\r\n"
FOR_THREE = (SESSION.replace("HELO", "EHLO") + r"RCPT TO:<c@out.example>\r\nRCPT TO:<d@out.example>\r\nDATA\r\n.\r\n")
OFFERS = r"250-a.example\r\n250-PIPELINING\r\n250-CHUNKING\r\n250 DSN\r\n"
TAKEN = {
    LINES: r"node a link {0} used 69 out 250 a.example\r\n250 sender OK\r\n250 recipient OK\r\n"
           r"354 end with a line of one period\r\n250 queued as {1}\r\n change {1}",
    CHUNKS: r"node a link {0} used 98 out " + OFFERS + r"250 sender OK\r\n250 recipient OK\r\n250 chunk OK\r\n"
            r"503 bad sequence\r\n250 chunk OK\r\n250 queued as {1}\r\n change {1}",
    FOR_THREE: r"node a link {0} used 119 out " + OFFERS + r"250 sender OK\r\n" + r"250 recipient OK\r\n" * 3 +
               r"354 end with a line of one period\r\n250 queued as {1}\r\n change {1}",
}


def connect(link):
    return [("connect a", rf"link {link} out 220 a.example ESMTP relay ready\r\n")]


def mail(link, change, text):
    return [(f"send {link} {text}", "ok"), (f"carry {link} a 1000", TAKEN[text].format(link, change))]


def leaving(link):
    return [(rf"send {link} QUIT\r\n", "ok"),
            (f"carry {link} a 1000", rf"node a link {link} used 6 out 221 a.example closing\r\n end")]


def two_sessions(text):
    rows = [*connect(1), *connect(2), *mail(1, 1, text), *mail(2, 2, text), *leaving(1), *leaving(2)]
    return rows, "a 1 0\na 2 0\n"


def attempt_with_a_report():
    """The report is handed on too."""
    hop = r"220 n\r\n250-n\r\n250 DSN\r\n250 ok\r\n250 ok\r\n"
    return [*connect(1), *mail(1, 1, FOR_THREE), ("give a", "start a 1 out.example link 2"),
            (rf"send 2 {hop}550 no\r\n552 full\r\n354 go\r\n250 ok\r\n", "ok"), ("carry 2 a 1000", None),
            ("give a", "start a 2 out.example link 3"), (rf"send 3 {hop}354 go\r\n250 ok\r\n", "ok"),
            ("carry 3 a 1000", None)], "a 1 2\n"


def two_compactions():
    """A message takes 174 octets, of the head too. The one body has 31 more: 12 of a next number and a count, 8 of the
    message's number, where its record has none, and 11 of its place: that it is held, how often it was tried, whether
    it was reported as delayed, and when it is due."""
    size = ("compact a", f"compact a size {174 + 12 + 8 + 11}")
    return [*connect(1), *mail(1, 1, LINES), size, size, *mail(1, 2, LINES), *leaving(1)], "a 1 0\na 2 0\n"


NODES = {
    "sessions": lambda: two_sessions(LINES),
    "chunks": lambda: two_sessions(CHUNKS),
    "report": attempt_with_a_report,
    "compactions": two_compactions,
}
# A node that can't be opened for want of memory is opened by its next stop.
ENDING = ["stop a 0 0", "marks", "ledger"] * 2


class Plays:
    """Plays of a program with all its memory, each done once."""

    def __init__(self, program):
        self.program, self.seen = program, {}

    def of(self, lines):
        """What is seen of each line of a play, and of its ending."""
        if tuple(lines) not in self.seen:
            done = subprocess.run([self.program, "play"], input=script_of(lines), capture_output=True, check=True)
            shown = done.stdout.decode().splitlines()
            self.seen[tuple(lines)] = shown[:len(lines)], shown[len(lines):]
        return self.seen[tuple(lines)]

    def outcomes(self, lines, place):
        """What may be seen where the line of this place met the refusal: by the name of what that is, all lines."""
        before, line, after = lines[:place], lines[place], lines[place + 1:]
        link = line.split(" ")[1]
        others = {"as if it had not been said": []}
        if line.startswith("carry "):
            others["as if its link had broken"] = [f"break {link}"]
            others["as if its link had broken after it"] = [line, f"break {link}"]
            if any(it.startswith("start a ") and it.endswith(f" link {link}") for it in self.of(lines)[0]):
                # An attempt that is refused leaves no change. No other link of such a play is of use after it.
                others["as if its attempt had not begun"] = ["stop a 0 0"]
        if not line.startswith(("connect ", "send ", "give ")):
            others["as if the node had been stopped"] = ["stop a 0 0"]
        for name, instead in others.items():
            seen, end = self.of(before + instead + after)
            shown = "stopped a" if name.endswith("stopped") else "refused NoMemory"
            yield name, [*seen[:place], shown, *seen[place + len(instead):], *end]


# What comes of a refusal in each play, but of the mail of one client alone: its link breaks as if nothing was said.
OUTCOMES = {"no memory for the play", "as if it had not been said", "as if its link had broken",
            "as if its link had broken after it", "as if the node had been stopped", "down until its next stop"}
OF_AN_ATTEMPT = OUTCOMES - {"as if its link had broken"} | {"as if its attempt had not begun"}


def script_of(lines):
    return "".join(f"{line}\n" for line in [*lines, *ENDING]).encode()


def is_down(shown, wanted):
    """Whether this is what is wanted but for the marks of a node that stays down at one of the last stops."""
    def up_to(place):
        return next((it for it in range(place, len(wanted)) if not wanted[it].startswith("a ")), len(wanted))

    stops = [place + 1 for place, line in enumerate(wanted) if line == "stopped a"]
    return any(shown == wanted[:place] + wanted[up_to(place):] for place in stops)


def nodes(program, folder):
    plays = Plays(program)
    for word, row in NODES.items():
        rows, held = row()
        lines = [line for line, _ in rows]
        seen, end = plays.of(lines)
        same(f"{word} with all its memory", [it for it, (_, wanted) in zip(seen, rows) if wanted],
             [wanted for _, wanted in rows if wanted])
        shown = "".join(f"{it}\n" for it in end)
        same(f"{word}: what is held in the end", shown[:10 + len(held)], f"stopped a\n{held}")
        whole = [*seen, *end]

        def name_of(run):
            what = f"{word} without allocation {run.number}"
            shown = run.out.splitlines()
            if run.status != 0:
                is_prefix = "".join(f"{line}\n" for line in whole).startswith(run.out)
                same(f"{what}: status, fault and a prefix", (run.status, run.errors, is_prefix),
                     (1, "relayd: no memory\n", True))
                return "no memory for the play"
            if shown == whole:
                return "none"
            if is_down(shown, whole):
                return "down until its next stop"
            place = next(it for it, (one, other) in enumerate(zip(shown, whole)) if one != other)
            # Stopping a node takes no memory, so none of its last stops is refused.
            same(f"{what}: whether a line of the play differs", place < len(lines), True)
            for name, wanted in plays.outcomes(lines, place):
                if shown == wanted:
                    return name
            raise Difference(f"{what}: {run.out}")

        met = outcomes_without([program, "play"], folder, name_of, given=script_of(lines))
        missing = [name for name in (OF_AN_ATTEMPT if word == "report" else OUTCOMES) if met[name] == 0]
        same(f"{word}: outcomes that no refusal has", missing, [])
        yield f"{word}: {sum(met.values())} allocations refused in turn: {counted(met)}"


CASES = {case.__name__: case for case in (sessions, books, nodes)}


def main(name, program):
    program = str(pathlib.Path(program).resolve())
    with tempfile.TemporaryDirectory() as folder:
        for line in CASES[name](program, pathlib.Path(folder)):
            print(f"without_memory: {name}: {line}")


if __name__ == "__main__":
    run_main("without_memory", main)
