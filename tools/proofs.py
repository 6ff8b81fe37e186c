#!/usr/bin/env python3
"""Every proof from nothing, and every edit that must fail: what the gate (tools/gate.sh) runs beside its scripts.

`rt ci` proves each crate, and builds and runs each program as two compilers make it. It gets a copy of the repository
without the edits. These are tried here, several in one run of the prover (tools/edits.py), over the libraries that `rt
ci` has proved: a crate's edits once the crate is proved, while fewer provers run than tools/lanes.sh says. A program is
copied to build/ once it is proved.

Prints what `rt ci` prints, a line for each crate with edits, and last how many crates passed and how many edits were
refused. Exits with 1 if a crate or an edit failed.
"""
import concurrent.futures
import os
import pathlib
import re
import shutil
import signal
import subprocess
import sys
import tempfile
import threading
import time

import edits
from prove import TOP, closure, edges, listed

# What isn't part of the copy: what git and earlier runs keep, and the edits.
LEFT_OUT = shutil.ignore_patterns(".git", "build", "out", "__pycache__", "must-fail")
PROVED = re.compile(r"rt: (\w+) (?:proved|is kept)")
# How many times in a row, a second apart, a lane must be free: where one of its provers ends, `rt ci` begins the next.
LOOKS = 4
LANES = int(subprocess.run([TOP / "tools" / "lanes.sh"], stdout=subprocess.PIPE, check=True).stdout)


def running_provers():
    """Returns how many provers of this session run, those of `rt ci` among them. One that waits for others, to which it
    has given its work, doesn't count."""
    parents = {}
    for stat in pathlib.Path("/proc").glob("[0-9]*/stat"):
        try:
            name, _, rest = stat.read_text().partition("(")[2].rpartition(")")
        except OSError:
            continue
        _state, parent, _group, session = rest.split()[:4]
        if name == "rattle" and int(session) == os.getsid(0):
            parents[stat.parent.name] = parent
    return len(parents.keys() - set(parents.values()))


class Gate:
    """One run: the folder of its copies, and what is proved so far."""

    def __init__(self, room):
        self.tree, self.libraries, self.room = room / "tree", room / "libraries", room
        self.below, self.lines = edges(), listed()
        self.turn = threading.Lock()
        shutil.copytree(TOP, self.tree, symlinks=True, ignore=LEFT_OUT)

    def await_lane(self):
        """Waits until a lane is free, and `rt ci` doesn't take it at once."""
        looks = 0
        with self.turn:
            while looks < LOOKS:
                looks = looks + 1 if running_provers() < LANES else 0
                time.sleep(1)

    def keep(self, name):
        """Keeps what was proved of a crate, which `rt ci` removes at its end."""
        out = self.tree / "crates" / name / "out"
        if (out / "rlib").is_dir():
            shutil.copytree(out / "rlib", self.libraries / name, copy_function=os.link)
        elif (out / name).is_file():
            shutil.copy(out / name, TOP / "build" / f"{name}.new")
            os.rename(TOP / "build" / f"{name}.new", TOP / "build" / name)

    def command(self, name):
        """Returns the prover's command for a crate, over the libraries below it. It yields to the provers of `rt ci`,
        which others wait for."""
        uses = self.lines[name].partition(":")[2].split()
        words = ["--crate-name", name, "src/lib.rt", "--links", f"{name}=", "--jobs", "1"]
        for it in ["std", *uses]:
            place = self.libraries / it if it in self.lines else edits.KIT / "rlibs"
            words += ["--extern", f"{it}={place}/{it}.rlib"]
        for place in [edits.KIT / "rlibs", *(self.libraries / it for it in closure(self.below, name))]:
            words += ["-L", f"dependency={place}"]
        words += ["--antt-project", edits.KIT / "rattle/logic/antt-project.json"]
        words += ["--logic-built", edits.KIT / "logic_built"]
        return ["nice", "-n", "19", edits.KIT / "bin/rattle", "check", *words]

    def try_edits(self, name):
        """Tries the edits of a crate and prints the result. Returns how many there are and how many were refused."""
        crate, room = TOP / "crates" / name, self.room / f"edits-{name}"
        try:
            all_edits = edits.edits_of(crate)
            trial = edits.Trial(crate, self.command(name), room, self.await_lane)
            missed = trial.run(all_edits)
        except edits.BadEdit as bad:
            print(f"edits of {name}: BAD EDIT: {bad}", flush=True)
            return len(list((crate / "must-fail").glob("*.edit"))), 0
        finally:
            shutil.rmtree(room, ignore_errors=True)
        said = f"NOT REFUSED: {' '.join(missed)}" if missed else "each was refused"
        print(f"edits of {name}: {len(all_edits)} tried in {trial.runs} runs of the prover; {said}", flush=True)
        return len(all_edits), len(all_edits) - len(missed)

    def run(self):
        """Proves all crates and tries all edits; returns the last line of `rt ci`, whether all passed, and how many
        edits there are and were refused."""
        with_edits = {it.parent.name for it in (TOP / "crates").glob("*/must-fail")}
        with concurrent.futures.ThreadPoolExecutor(LANES) as pool, subprocess.Popen(
                ["rt", "ci"], cwd=self.tree, stdin=subprocess.DEVNULL, stdout=subprocess.PIPE, text=True,
                stderr=subprocess.STDOUT, errors="replace", env={**os.environ, "RT_JOBS": str(LANES)}) as rt:
            trials, line = {}, ""
            for line in rt.stdout:
                print(line, end="", flush=True)
                found = PROVED.match(line)
                if found:
                    self.keep(found[1])
                    if found[1] in with_edits:
                        trials[found[1]] = pool.submit(self.try_edits, found[1])
            passed = rt.wait() == 0
            counts = [it.result() for it in trials.values()]
        for name in sorted(with_edits - trials.keys()):
            print(f"edits of {name}: not tried, since it isn't proved", flush=True)
        known, refused = (sum(column) for column in zip(*counts)) if counts else (0, 0)
        return line.strip(), passed and known == refused and not with_edits - trials.keys(), known, refused


def main():
    signal.signal(signal.SIGTERM, lambda *_: sys.exit(1))
    (TOP / "build").mkdir(exist_ok=True)
    with tempfile.TemporaryDirectory(prefix="relay-gate-", ignore_cleanup_errors=True) as room:
        line, passed, known, refused = Gate(pathlib.Path(room)).run()
    print(f"{line}; {refused} of {known} must-fail edits refused")
    return 0 if passed else 1


if __name__ == "__main__":
    sys.exit(main())
