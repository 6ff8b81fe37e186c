#!/usr/bin/env python3
"""Plays a script of docs/plays/ with a stop before each of its events in turn: of each node, at its first device call
after that, its second, and so on until no stop is met; and the same with a compaction of that node after the stop. A
script that doesn't set the number of nodes is played with two and with three. Each play is judged by its output, as in
tests/random_plays.py: no acknowledged mail is lost, and there are no more copies than lost replies allow.

    tests/stops_in_plays.py build/relayd [all]

A pick says what the device has kept of the octets that changed and weren't synced: 0 none of them, 1 all, 2 and 3 an
octet 1 or 255 in place of each, 4 and more the first so many less 4. Of lost_reply.play the stops have each of 21
picks, and those before a compaction picks 0 and 1; of three_nodes.play all have picks 0 and 1. With `all` each script
has each pick in both. The plays run side by side, as many as there are processors.
"""
import multiprocessing
import os
import pathlib
import sys

sys.dont_write_bytecode = True

from random_plays import judged, nodes_of
from relay_program import Difference, run_main, same

PLAYS = pathlib.Path(__file__).resolve().parent.parent / "docs" / "plays"
FEW_PICKS = [0, 1]
ALL_PICKS = [0, 1, 2, 3, *range(4, 261, 16)]
# The picks of the stops in a script, and of those before a compaction.
PICKS = {"lost_reply.play": (ALL_PICKS, FEW_PICKS), "three_nodes.play": (FEW_PICKS, FEW_PICKS)}


def events_of(script):
    lines = script.read_text().splitlines()
    return [line for line in lines if line and not line.startswith(("#", "marks", "ledger", "copies", "lost", "stop"))]


def is_met(program, events):
    """Plays the events, and returns whether a node has stopped; the nodes are opened again at the end."""
    ends = [f"stop {node} 0 0" for node in nodes_of(events)]
    printed = judged(program, [*events, *ends], 4, 2)
    return any(line.startswith("stopped") for lines in printed[:-len(ends)] for line in lines)


def stops_before(program, events, at, node, pick, compacts):
    """Returns the number of plays with a stop of this node before this event, with or without a compaction after it, in
    which a node has stopped."""
    compaction = [f"compact {node}"] if compacts else []
    for call in range(1, 100):
        changed = [*events[:at], f"stop {node} {call} {pick}", *compaction, *events[at:]]
        try:
            if not is_met(program, changed):
                return call - 1
        except Difference as difference:
            raise Difference(f"{difference}\n" + "\n".join(changed)) from None
    raise Difference(f"a node stops at each of 99 device calls after event {at}")


def kinds_of(events, picks, picks_before_compaction):
    """Yields where to stop, which node, with which pick, and whether a compaction follows."""
    for at in range(1 if events[0].startswith("nodes") else 0, len(events)):
        for node in nodes_of(events):
            yield from ((at, node, pick, False) for pick in picks)
            yield from ((at, node, pick, True) for pick in picks_before_compaction)


def main(program, which=""):
    program = str(pathlib.Path(program).resolve())
    scripts = sorted(PLAYS.glob("*.play")) if which == "all" else [PLAYS / name for name in PICKS]
    with multiprocessing.Pool(os.cpu_count()) as pool:
        for script in scripts:
            events = events_of(script)
            picks = (ALL_PICKS, ALL_PICKS) if which == "all" else PICKS[script.name]
            for one in [events] if events[0].startswith("nodes") else [events, ["nodes 3", *events]]:
                tasks = [(program, one, *kind) for kind in kinds_of(one, *picks)]
                counts = pool.starmap(stops_before, tasks, 4)
                for pick in sorted({pick for some in picks for pick in some}):
                    met = sum(count for task, count in zip(tasks, counts) if task[4] == pick)
                    same(f"{script.name}: whether a node stopped with pick {pick}", met > 0, True)
                print(f"ok: {script.name} of {len(nodes_of(one))} nodes with a stop before each event: "
                      f"{sum(counts)} plays in which a node stopped")


if __name__ == "__main__":
    run_main("stops_in_plays", main)
