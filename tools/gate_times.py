#!/usr/bin/env python3
"""Measures the cost of a gate (a full run of proofs and tests) while it runs. At its end prints the minutes and units
of each crate, for the table of docs/GATE.md.

    RT_JOBS=4 tools/proofs.py > build/gate.log & tools/gate_times.py $!
    RT_JOBS=4 tools/proofs.py > build/gate.log & tools/gate_times.py --short $!

With --short it takes no units, and prints few lines: the minutes of each crate, and the seconds of the runs for its
edits, in their order. `make test` prints those.

It adds up the processor time of each run of the prover, by crate, with the must-fail edits apart: those are the runs in
a folder of edits, of tools/proofs.py or of `rt ci`. It looks only at descendants of the given process. What a run takes
between the last look and its end is missed, half a second at most.

A unit is the processor time of one `rt lib --jobs 1` of relay_octets from nothing. It is taken every ten minutes in the
place of one lane, whose prover stands still meanwhile, since machines differ by more than two and drift within minutes.
The unit of the run is the mean of these.
"""
import os
import pathlib
import re
import resource
import shutil
import signal
import subprocess
import sys
import tempfile
import textwrap
import time

TOP = pathlib.Path(__file__).resolve().parent.parent
TICKS = os.sysconf("SC_CLK_TCK")
CRATE = re.compile(r"--crate-name\0([^\0]+)\0")
# The folders in which edits are tried.
EDITS = re.compile(r"/(?:edits|rt-edit)-")
# How many seconds pass between two looks, and between two units.
LOOK, UNIT = 0.5, 600
# The unit of the machine by which docs/GATE.md says what the whole takes, in seconds.
GATE_UNIT = 12


def fields_of(process):
    """Returns the fields of a process that follow its name: its state first, then its parent."""
    return (process / "stat").read_text().rpartition(")")[2].split()


def crate_of(process):
    found = CRATE.search((process / "cmdline").read_bytes().decode(errors="replace"))
    return found and found[1]


def is_below(process, number):
    """Returns whether a process is a descendant of another."""
    while process.name not in ("0", "1", number):
        process = pathlib.Path("/proc") / fields_of(process)[1]
    return process.name == number


def processes():
    return [it for it in pathlib.Path("/proc").iterdir() if it.name.isdigit()]


def look(process, number):
    """Returns what identifies a run of the prover, its crate, when it began, whether it tries an edit, and its seconds,
    including those of its ended children."""
    crate, fields = crate_of(process), fields_of(process)
    if not crate or crate_of(pathlib.Path("/proc") / fields[1]) or not is_below(process, number):
        return None
    is_edit = bool(EDITS.search(os.readlink(process / "cwd")))
    return (process.name, fields[19]), crate, int(fields[19]), is_edit, sum(map(int, fields[11:15])) / TICKS


def look_at_all(found, number):
    """Notes each run of the prover; returns the numbers of those that are running."""
    running = []
    for process in processes():
        try:
            seen = look(process, number)
        except OSError:
            continue
        if seen:
            found[seen[0]] = seen[1:]
            running.append(process.name)
    return running


def is_running(number):
    try:
        return fields_of(pathlib.Path(f"/proc/{number}"))[0] != "Z"
    except OSError:
        return False


def signal_all(number, what):
    """Stops, or continues, a process and its descendants."""
    for process in processes():
        try:
            if is_below(process, number):
                os.kill(int(process.name), what)
        except OSError:
            continue


def begin_unit(count):
    """Begins one unit: the lowest crate under a name of its own, without kept results."""
    name, folder = f"relay_unit_{os.getpid()}_{count}", pathlib.Path(tempfile.mkdtemp())
    crate = folder / "crates" / name
    for part in ("src", "specs", "proofs"):
        shutil.copytree(TOP / "crates" / "relay_octets" / part, crate / part)
    for file in crate.rglob("*.*"):
        if file.is_file():
            file.write_text(file.read_text().replace("relay_octets", name))
    (folder / "crates.txt").write_text(f"{name}: memchr\n")
    shutil.copy(TOP / "HANDLES", folder)
    return folder, subprocess.Popen(["rt", "lib", "--jobs", "1"], cwd=crate, stdin=subprocess.DEVNULL,
                                    stdout=subprocess.DEVNULL, stderr=subprocess.DEVNULL)


class Units:
    """The units of a run, one at a time."""

    def __init__(self):
        self.taken, self.next, self.unit, self.lane, self.before = [], time.monotonic() + 60, None, None, 0

    def attend(self, running):
        """Begins a unit when it is time, and ends one that is done."""
        if self.unit and self.unit[1].poll() is not None:
            self.end()
        elif not self.unit and running and self.next <= time.monotonic():
            self.next = time.monotonic() + UNIT
            self.lane, self.before = running[0], spent()
            signal_all(self.lane, signal.SIGSTOP)
            self.unit = begin_unit(len(self.taken))

    def end(self):
        folder, unit = self.unit
        if unit.wait() == 0:
            self.taken.append(spent() - self.before)
            print(f"{time.strftime('%H:%M')} a unit: {self.taken[-1]:.1f} seconds", flush=True)
        signal_all(self.lane, signal.SIGCONT)
        shutil.rmtree(folder)
        self.unit = None


def spent():
    """Returns the processor time of the commands that have ended here, in seconds."""
    used = resource.getrusage(resource.RUSAGE_CHILDREN)
    return used.ru_utime + used.ru_stime


def count_edits(crate):
    return len(list((TOP / "crates" / crate / "must-fail").glob("*.edit")))


def tell(found, units):
    """Prints the sums and the table: minutes of one processor, units, and the seconds of a crate's edits in the order
    in which they ran."""
    sums, edits_of = {}, {}
    for crate, _begun, is_edit, seconds in sorted(found.values(), key=lambda it: it[1]):
        sums.setdefault(crate, [0, 0])[is_edit] += seconds
        if is_edit:
            edits_of.setdefault(crate, []).append(f"{seconds:.0f}")
    proofs, edits = (sum(it[at] for it in sums.values()) for at in (0, 1))
    unit = sum(units) / len(units) if units else 0
    print(f"whole: {(proofs + edits) / 60:.0f} minutes of one processor, {edits / 60:.0f} of them edits")
    if unit:
        whole = (proofs + edits) / unit
        print(f"{len(units)} units of {min(units):.1f} to {max(units):.1f} seconds, {unit:.1f} in the mean: "
              f"{whole:.0f} units, {whole * GATE_UNIT / 60:.0f} minutes where a unit takes {GATE_UNIT} seconds")
    print("| Crate | Minutes | Units | Edits | Minutes of the edits | Units |\n|---|---|---|---|---|---|")
    for crate, (proof, edit) in sorted(sums.items(), key=lambda it: -sum(it[1])):
        in_units = [f"{it / unit:.0f}" if unit else "" for it in (proof, edit)]
        print(f"| {crate} | {proof / 60:.1f} | {in_units[0]} | {count_edits(crate) or ''} | "
              f"{f'{edit / 60:.1f}' if edit else ''} | {in_units[1] if edit else ''} |")
    for crate, seconds in sorted(edits_of.items()):
        print(f"{crate}: {' '.join(seconds)}")


def tell_shortly(found):
    """Prints a crate's minutes, with those of its edits after a plus sign, and then the seconds of its edits."""
    sums, edits_of = {}, {}
    for crate, _begun, is_edit, seconds in sorted(found.values(), key=lambda it: it[1]):
        name = crate.removeprefix("relay_")
        sums.setdefault(name, [0, 0])[is_edit] += seconds
        if is_edit:
            edits_of.setdefault(name, []).append(f"{seconds:.0f}")
    whole, edits = sum(map(sum, sums.values())), sum(it[1] for it in sums.values())
    print(f"gate: {whole / 60:.0f} minutes of a processor, {edits / 60:.0f} of them edits")
    by_cost = sorted(sums.items(), key=lambda it: -sum(it[1]))
    words = [f"{name} {proof / 60:.1f}" + (f"+{edit / 60:.1f}" if edit else "") for name, (proof, edit) in by_cost]
    print(textwrap.fill(", ".join(words), 118, break_on_hyphens=False))
    for name, _sum in by_cost:
        if name in edits_of:
            print(f"{name}: {' '.join(edits_of[name])}")


def main(words):
    is_short, number = words[:1] == ["--short"], words[-1]
    found, units = {}, None if is_short else Units()
    while is_running(number):
        running = look_at_all(found, number)
        if units:
            units.attend(running)
        time.sleep(LOOK if units else 2 * LOOK)
    if is_short:
        tell_shortly(found)
        return
    if units.unit:
        units.end()
    tell(found, units.taken)


main(sys.argv[1:])
