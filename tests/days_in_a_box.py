#!/usr/bin/env python3
"""Plays days of a relay in a box: clients and next hops act by a seed, the clock jumps, the disk fails, the relay is
stopped. Judges each day by what the relay answers alone: dialogues by the reply table, courses by the verdict table,
custody by the list of changes. Saves the script of a day that differs, and prints its seed and what is wrong.

    tests/days_in_a_box.py build/relay_box_tests [COUNT [FIRST]] [--lanes N] [--seconds N] [--save FOLDER]
    tests/days_in_a_box.py build/relay_box_tests --script FILE
    tests/days_in_a_box.py --selftest

Plays COUNT days (2,000), from the seed FIRST (1) on, in N lanes, by default one for each processor; with --seconds it
ends when that time is over, and COUNT is without a limit by default. --script plays a saved script again. --selftest
judges transcripts with and without faults, and needs no program. Exits with 1 at a difference.

A day has up to 64 sessions and clients beyond them; on some days most of them stay and say little. Clients send mail by
DATA and BDAT, whole or octet by octet, and some connect through a balancer, with a header of the PROXY protocol or
without. Next hops reply by a script, right, wrong, too early or never. Connections are refused, break, end, and take a
few octets at a time. Calls of the disks fail, also while replies of next hops are on their way, and the relay opens its
spool again or is started again; it is stopped with any pick; its clock is set. In the evening all next hops accept
mail, until nothing is queued.

On some days a postmaster asks for things, as by the control socket, between two turns: to hold, release and flush mail,
to return and discard it, and to read another configuration, with other next hops, limits and clients. That is judged by
the answers, by the lines of the log, by which mail is tried, and by when sessions end.

A day has no drain, no status page, and no control socket of the system: the requests don't come over one, and what is
held isn't read again when the relay is started again. Its memory doesn't run out.
"""
import argparse
import contextlib
import multiprocessing
import os
import pathlib
import queue
import signal
import subprocess
import sys
import time
import traceback

sys.dont_write_bytecode = True

from box_day import Day
from box_judge import Judge
from box_selftest import ANSWERED, selftest
from relay_program import Difference, PATIENCE

# How many days are played.
COUNT = 2_000
# How long the program may take for an answer, in seconds.
LONGEST_ANSWER = 120
# Where the scripts of days that differ are saved.
FOLDER = pathlib.Path(__file__).resolve().parent.parent / "build/tests/days"


def give_up(*_):
    raise Difference(f"the program doesn't answer within {LONGEST_ANSWER} seconds")


class Box:
    """A running program, the judge of its day, and the record of that."""

    def __init__(self, program):
        signal.signal(signal.SIGALRM, give_up)
        self.process = subprocess.Popen([program], stdin=subprocess.PIPE, stdout=subprocess.PIPE, bufsize=1 << 16)
        self.begin()

    def begin(self):
        self.judge, self.record, self.unsent = Judge(), [], []

    def close(self):
        self.process.kill()
        self.process.wait(PATIENCE)
        with contextlib.suppress(OSError):
            self.process.stdin.close()
        self.process.stdout.close()

    def tell(self, line):
        """Sends a line that has no answer, with the next one that has."""
        self.unsent.append(line)
        self.record.append((line, None))
        self.judge.sent(line)

    def ask(self, line):
        """Sends a line and judges its answer. Returns what a turn printed, or the lines of another answer but the last.
        """
        self.unsent.append(line)
        lines = []
        self.record.append((line, lines))
        with contextlib.suppress(BrokenPipeError):
            self.process.stdin.write("\n".join(self.unsent + [""]).encode())
            self.process.stdin.flush()
        self.unsent = []
        signal.alarm(LONGEST_ANSWER)
        readline = self.process.stdout.readline
        while True:
            found = readline()
            if not found:
                raise Difference(f"the program has ended with {self.process.wait(PATIENCE)} after `{line[:80]}`")
            lines.append(found[:-1].decode("latin-1"))
            if found.startswith(b"done "):
                break
        return self.judge.answered(line, lines) or lines[:-1]


def shown(line):
    """Returns a line's octets as text, if it has any."""
    word, _, rest = line.partition(" ")
    octets = rest.rpartition(" ")[2]
    if word in ("input", "wrote", "begin", "config", "queued", "answer") and octets != "-":
        return repr(bytes.fromhex(octets))[1:]
    return ""


def script_of(record, comment):
    """Returns the text of a record: the lines that were sent, and as comments their octets and the answers."""
    texts = ["# " + comment.replace("\n", "\n# ")]
    for line, answer in record:
        if shown(line):
            texts.append(f"# {shown(line)}")
        texts.append(line)
        for one in answer or ():
            texts.append(f"#   {one[:200]}" + (f" {shown(one)}" if shown(one) else ""))
    return "\n".join(texts) + "\n"


def play_day(box, seed):
    """Plays the day of a seed. Returns what differs, or None."""
    box.begin()
    try:
        Day(seed, box.tell, box.ask).play()
    except Difference as difference:
        return str(difference)
    except Exception:
        # A fault of this test is shown with its day, and the other days go on.
        return "the test has failed: " + traceback.format_exc()
    return None


def play_script(program, file):
    """Plays a saved script again, and judges it."""
    box = Box(program)
    try:
        for line in pathlib.Path(file).read_text().splitlines():
            if line.startswith(ANSWERED):
                box.ask(line)
            elif line and (line[0] != "#" or line.startswith("#!")):
                box.tell(line)
    finally:
        box.close()


def lane(program, seeds, results, ends, folder):
    """Plays days of seeds from a queue, until there are none, or time is over."""
    box, count, totals = Box(program), 0, {}
    while time.monotonic() < ends:
        with seeds[0].get_lock():
            first, last = seeds[0].value, min(seeds[0].value + 10, seeds[1])
            seeds[0].value = last
        if first >= last:
            break
        for seed in range(first, last):
            difference = play_day(box, seed)
            count += 1
            for key, value in box.judge.counts.items():
                totals[key] = totals.get(key, 0) + value
            if difference:
                file = save(folder, seed, box.record, difference)
                results.put(("different", f"seed {seed}: {difference}\n    its script is {file}"))
                box.close()
                box = Box(program)
    box.close()
    results.put(("done", (count, totals)))


def save(folder, seed, record, difference):
    """Saves the script of a day that differs. Returns its file."""
    file = pathlib.Path(folder) / f"day_{seed}.script"
    file.parent.mkdir(parents=True, exist_ok=True)
    file.write_text(script_of(record, f"seed {seed}: {difference}"))
    return file


def next_result(results, lanes):
    """Returns what a lane has to say next."""
    while True:
        try:
            return results.get(timeout=10)
        except queue.Empty:
            if any(one.exitcode for one in lanes):
                raise Difference("a lane has ended without a result")


def play_days(told):
    """Plays days in lanes. Returns how many were played, what they had, and what differs."""
    last = told.first + (told.count or (COUNT if told.seconds is None else 1 << 60))
    ends = time.monotonic() + (told.seconds or 1 << 30)
    seeds, results = (multiprocessing.Value("q", told.first), last), multiprocessing.Queue()
    lanes = [multiprocessing.Process(target=lane, args=(told.program, seeds, results, ends, told.save))
             for _ in range(told.lanes)]
    for one in lanes:
        one.start()
    left, count, totals, differences = len(lanes), 0, {}, []
    while left:
        kind, what = next_result(results, lanes)
        if kind == "different":
            differences.append(what)
            print(what, flush=True)
        else:
            left, count = left - 1, count + what[0]
            for key, value in what[1].items():
                totals[key] = totals.get(key, 0) + value
    for one in lanes:
        one.join()
    return count, totals, differences


def arguments():
    parser = argparse.ArgumentParser(description=__doc__.split("\n\n")[0])
    parser.add_argument("program", nargs="?", help="the program, as build/relay_box_tests")
    parser.add_argument("count", nargs="?", type=int, help="how many days are played")
    parser.add_argument("first", nargs="?", type=int, default=1, help="the seed of the first day")
    parser.add_argument("--lanes", type=int, default=os.cpu_count() or 2, metavar="N", help="how many side by side")
    parser.add_argument("--seconds", type=float, metavar="N", help="play until so much time is over")
    parser.add_argument("--script", metavar="FILE", help="play a saved script again, and nothing else")
    parser.add_argument("--save", default=FOLDER, metavar="FOLDER", help="where scripts are saved")
    parser.add_argument("--selftest", action="store_true", help="judge transcripts, without a program")
    told = parser.parse_args()
    if not told.program and not told.selftest:
        parser.error("name the program")
    return told


def main():
    told = arguments()
    begun = time.monotonic()
    if told.selftest:
        print("ok: {} transcripts show no difference, and {} planted faults are noticed".format(*selftest()))
        return
    if told.script:
        play_script(told.program, told.script)
        print("ok: the script shows no difference")
        return
    count, totals, differences = play_days(told)
    seconds = time.monotonic() - begun
    numbers = ", ".join(f"{value} {key}" for key, value in totals.items())
    print(f"{count} days in {seconds:.1f} s, {count * 60 / seconds:.0f} a minute: {numbers}")
    if differences:
        raise Difference(f"{len(differences)} days differ")


if __name__ == "__main__":
    try:
        main()
    except Difference as difference:
        sys.exit(f"days_in_a_box: {difference}")
