#!/usr/bin/env python3
"""Plays the scripts of docs/plays/ once for each allocation of the program, which is refused. The play goes on after it
or reports that memory ran out; and at the end, after all nodes were stopped and opened again, each recipient that a
node acknowledged is held, was relayed, has ended, or was withdrawn. Then a node that can't be opened for lack of
memory: each event that it refuses, in its order, and what it has after it is opened. And a carry without memory: before
the node's call nothing changes; in it or after it, if what the node wrote can't be put on the link, the link breaks,
and what the node recorded is in the ledger. Ends at the first difference.

    tests/plays_without_memory.py build/relayd
"""
import pathlib
import re
import sys
import tempfile

sys.dont_write_bytecode = True

from plays import GREETED, MAIL, QUEUED
from random_plays import nodes_of
from refusals import runs_without
from relay_program import HERE, Difference, run_main, same

PLAYS = HERE.parent / "docs" / "plays"
ACCEPTED = re.compile(r"^node ([a-p]) link \d+ used \d+ out .*250 queued as (\d+)\\r\\n", re.MULTILINE)
# What stands before node a stops, while it is down, and after its next stop: each line with its answer.
BEFORE = [
    ("connect b", GREETED.format(1, "b")),
    ("send 1 " + MAIL.format("a.example"), "ok"),
    ("carry 1 b 1000", "node b link 1 used 71 out " + QUEUED.format("b", 1) + " change 1"),
    ("connect a", GREETED.format(2, "a")),
    ("send 2 " + MAIL.format("b.example"), "ok"),
    ("carry 2 a 1000", "node a link 2 used 71 out " + QUEUED.format("a", 1) + " change 1"),
]
STOP = [("stop a 0 0", "stopped a")]
DOWN = [
    ("connect a", "refused Down"),
    ("carry 3 a 1", "refused NoLink"),
    ("carry 2 a 1", "refused NoLink"),
    ("carry 1 a 0", "refused NotYours"),
    ("give a", "refused Down"),
    ("return a 1 0", "refused Down"),
    ("give b", "refused Down"),
    ("stop a 3 0", "refused Down"),
    ("marks", "b 1 0"),
    ("ledger", "accept b 1 1 link 1\naccept a 1 1 link 2"),
    ("copies a 1 0", "0"),
    ("tick 60", "now 60"),
    ("stop b 0 0", "stopped b"),
    ("carry 1 b 1", "refused NoLink"),
    ("connect b", GREETED.format(3, "b")),
]
AGAIN = [
    ("stop a 0 1", "stopped a"),
    ("marks", "a 1 0\nb 1 0"),
    ("connect a", GREETED.format(4, "a")),
    ("give b", "start b 1 a.example link 5"),
    ("give a", "start a 1 b.example link 6"),
]


def ending(script):
    """Stops each node of a script, and asks what they have. Twice: a node that can't be opened for want of memory is
    down until its next stop, and `marks` leaves it out."""
    stops = "".join(f"stop {node} 0 0\n" for node in nodes_of(script.decode().splitlines()))
    return f"{stops}marks\nledger\n".encode() * 2


def plays_of(program, folder, script):
    """The plays of a script with each allocation refused in turn."""
    return runs_without([program, "play"], folder, given=script)


def look(what, run):
    """Checks the output of one play with a refused allocation."""
    if run.status != 0:
        same(what, (run.status, run.errors), (1, "relayd: no memory\n"))
        return
    same(what, run.errors, "")
    # What both endings show, and not what the script asked for before.
    end = "".join(run.out.rsplit("stopped a\n", 2)[1:])
    for node, number in ACCEPTED.findall(run.out):
        gone = re.search(rf"^(transfer|end|return|discard) {node} {number} 0 ", end, re.MULTILINE)
        if not gone and f"\n{node} {number} 0\n" not in end:
            raise Difference(f"{what}: message {number} of {node} is neither held nor gone:\n{run.out}")


def seen(rows):
    return "".join(f"{line}\n" for _, line in rows)


def a_node_that_is_down(program, folder):
    """Refuses each allocation in turn, and checks the plays in which node a stays down after its stop."""
    script = "".join(f"{line}\n" for line, _ in BEFORE + STOP + DOWN + AGAIN).encode()
    down, found = seen(BEFORE + STOP + DOWN[:1]), 0
    for run in plays_of(program, folder, script):
        if run.was_refused and run.out.startswith(down):
            same(f"a node that is down, by allocation {run.number}", (run.status, run.out, run.errors),
                 (0, seen(BEFORE + STOP + DOWN + AGAIN), ""))
            found += 1
    same("whether a node was down", found > 0, True)
    print(f"ok: a node that is down, by {found} allocations of {run.number - 1}")


def a_carry_without_memory(program, folder):
    """Refuses each allocation in turn, and checks the plays in which a carry of a whole message met it."""
    lines = [*(line for line, _ in BEFORE[:2]), "carry 1 b 1000", "marks", "ledger", "carry 1 b 1000", "connect b"]
    script, opened, greeted = "".join(f"{line}\n" for line in lines).encode(), seen(BEFORE[:2]), GREETED.format(2, "b")
    whole, none = BEFORE[2][1], "refused NoLink"
    ways = {
        "before the call": f"{whole}\n{greeted}\n",
        "in the call": f"{none}\n{greeted}\n",
        "after the call": f"b 1 0\naccept b 1 1 link 1\n{none}\n{greeted}\n",
    }
    found = dict.fromkeys(ways, 0)
    refused = f"{opened}refused NoMemory\n"
    for run in plays_of(program, folder, script):
        if run.was_refused and run.out.startswith(refused):
            way = [it for it, after in ways.items() if run.out == refused + after]
            if (run.status, run.errors, len(way)) != (0, "", 1):
                raise Difference(f"a carry without allocation {run.number}: {run.out}")
            found[way[0]] += 1
    same("the ways that were met", [it for it in ways if found[it] == 0], [])
    print(f"ok: a carry without memory: {', '.join(f'{count} {way}' for way, count in found.items())}")


def main(program):
    program = str(pathlib.Path(program).resolve())
    with tempfile.TemporaryDirectory() as folder:
        for script in sorted(PLAYS.glob("*.play")):
            text = script.read_bytes()
            for run in plays_of(program, folder, text + ending(text)):
                look(f"{script.name}, allocation {run.number}", run)
            same(f"{script.name}: whether allocations were refused", run.number > 100, True)
            print(f"ok: {script.name} without memory: {run.number - 1} allocations refused in turn")
        a_node_that_is_down(program, folder)
        a_carry_without_memory(program, folder)


if __name__ == "__main__":
    run_main("plays_without_memory", main)
