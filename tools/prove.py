#!/usr/bin/env python3
"""Proves the libraries that a program uses, in parallel, and then the program, which it builds and runs once on its
stored input. One line per crate says how many functions were proved, how long that took, and about how long the rest
will take.

    tools/prove.py PROGRAM [WORD ..]

The words are the program's arguments. The built program is crates/PROGRAM/out/PROGRAM. So many crates are proved side
by side as tools/lanes.sh says; a crate begins when those that it stands on are there, and the one with the most work
above it goes first, with the lanes that no other crate takes as more jobs of the prover.

A run of the prover holds all the folders that it reads, and so keeps out every other. So each crate is proved in a
folder of its own below build/lanes, which has links to the files of the crates that it stands on; what is proved goes
back to crates/, and the folder goes at the end. There a program's version gets the commit and the toolchain that it is
built from.
"""
import concurrent.futures
import contextlib
import fcntl
import os
import pathlib
import re
import shutil
import subprocess
import sys
import time

TOP = pathlib.Path(__file__).resolve().parent.parent
LANES = TOP / "build" / "lanes"
# The functions and seconds that an estimate begins with, at the pace of docs/GATE.md: the first crates are too small to
# show another one.
BEFORE = 100, 160
FUNCTION = re.compile(r"\bfn \w")
PROVED = re.compile(r"^logic=proved functions=(\d+)", re.MULTILINE)
RUNNING = set()
# The file of a program that has its version, and what stands there for what only a build knows.
RELEASE, UNKNOWN = pathlib.Path("src") / "release.rt", "unknown commit"


class Failed(Exception):
    """A crate that wasn't proved, with the prover's output."""


def listed():
    """Returns the line of each crate in crates.txt."""
    lines = [line.split("#")[0].strip() for line in (TOP / "crates.txt").read_text().splitlines()]
    return {re.split(r"[ :]", line)[0]: line for line in lines if line}


def edges():
    """Returns the crates of this repository that each crate uses directly."""
    lines = listed()
    return {name: [it for it in line.partition(":")[2].split() if it in lines] for name, line in lines.items()}


def closure(below, name):
    """Returns all crates that a crate uses, each after those that it uses itself."""
    found = []
    for it in below[name]:
        found += [one for one in [*closure(below, it), it] if one not in found]
    return found


def work_of(below, name):
    """Estimates a crate's work, in functions: each of its own counts as one, and reading a crate that it uses as three.
    Compared with the minutes in docs/GATE.md that is off by a quarter on average."""
    files = (TOP / "crates" / name / "src").rglob("*.rt")
    return sum(len(FUNCTION.findall(it.read_text())) for it in files) + 3 * len(closure(below, name))


def longest_rows(below, work):
    """Returns for each of these crates, in their order, the work of the longest chain of them that begins with it, in
    which each uses the one before."""
    found = {}
    for name in reversed(list(work)):
        above = [found[it] for it in found if name in below[it]]
        found[name] = work[name] + max(above, default=0)
    return found


class Progress:
    """Which crates are done, and about how long the others will take: by the pace so far, on all lanes, but no less
    than the longest chain of crates that wait for each other."""

    def __init__(self, below, names, lanes):
        self.below, self.lanes, self.count = below, lanes, len(names)
        self.left = {name: work_of(below, name) for name in names}
        self.begun, self.done, self.seconds = {}, *BEFORE

    def begins(self, name):
        self.begun[name] = time.monotonic()

    def ends(self, name, functions):
        """Prints the line of a crate that is done."""
        seconds = time.monotonic() - self.begun.pop(name)
        self.done, self.seconds = self.done + self.left.pop(name), self.seconds + seconds
        line = f"[{self.count - len(self.left)}/{self.count}] {name}: {functions}proved in {seconds:.0f} s"
        print(f"{line}; about {self.seconds_left() / 60:.0f} min left" if self.left else line, flush=True)

    def seconds_left(self):
        pace, now = self.seconds / self.done, time.monotonic()
        left = {name: max(0, work - (now - self.begun.get(name, now)) / pace) for name, work in self.left.items()}
        return pace * max(sum(left.values()) / self.lanes, *longest_rows(self.below, left).values())


def link(source, target, parts):
    """Makes links in a crate's folder to the files of another."""
    target.mkdir(parents=True)
    for it in source.iterdir():
        if it.is_file():
            os.link(it, target / it.name)
        elif it.name in parts:
            shutil.copytree(it, target / it.name, copy_function=os.link)


@contextlib.contextmanager
def lane(below, name):
    """The folder in which a crate is proved. Kept results of the crate are there, and go back to the crate at the end.
    """
    root, crate = LANES / name, TOP / "crates" / name
    place = root / "crates" / name
    held = os.open(crate, os.O_RDONLY)
    try:
        fcntl.flock(held, fcntl.LOCK_EX)
        stands_on = closure(below, name)
        for it in stands_on:
            link(TOP / "crates" / it, root / "crates" / it, ("src", "specs", "proofs"))
            rlib = TOP / "crates" / it / "out" / "rlib"
            shutil.copytree(rlib, root / "crates" / it / "out" / "rlib", copy_function=os.link)
        link(crate, place, ("src", "specs", "proofs", "data"))
        lines = listed()
        (root / "crates.txt").write_text("".join(f"{lines[it]}\n" for it in [*stands_on, name]))
        shutil.copy(TOP / "HANDLES", root)
        if (crate / "out").is_dir():
            (crate / "out").rename(place / "out")
        yield place
    finally:
        bring_back(root)
        os.close(held)


def bring_back(root):
    """Ends a lane: moves the crate's results back."""
    kept, crate = root / "crates" / root.name / "out", TOP / "crates" / root.name
    if kept.is_dir() and not (crate / "out").exists():
        kept.rename(crate / "out")
    shutil.rmtree(root)


def run(name, place, *words):
    """Runs rt in a crate's folder; returns how many functions it proved, if it says so."""
    log, stored = TOP / "build" / f"{name}.log", place / "stdin"
    with open(stored if stored.exists() else os.devnull, "rb") as given, open(log, "wb") as out, \
            subprocess.Popen(["rt", *words], cwd=place, stdin=given, stdout=out, stderr=subprocess.STDOUT) as rt:
        RUNNING.add(rt)
        rt.wait()
        RUNNING.remove(rt)
    said = log.read_text(errors="replace")
    if rt.returncode:
        raise Failed(f"{name} failed:\n{said}")
    proved = PROVED.findall(said)
    return f"{proved[-1]} functions " if proved else ""


def name_release(place):
    """Names the commit and the toolchain in a program's version, if it has one. The file was a link; the tree's stays
    as it is."""
    file = place / RELEASE
    if file.exists():
        text = file.read_text()
        file.unlink()
        file.write_text(text.replace(UNKNOWN, f"{commit()}, {toolchain()}"))


def commit():
    """Returns the commit of this repository, with a mark if the files that git knows differ from it."""
    if not (TOP / ".git").exists() or shutil.which("git") is None:
        return UNKNOWN
    words = ["git", "describe", "--always", "--exclude=*", "--abbrev=12", "--dirty=+changes"]
    return subprocess.run(words, cwd=TOP, stdout=subprocess.PIPE, check=True, text=True).stdout.strip()


def toolchain():
    """Returns the name of the toolchain's kit."""
    return subprocess.run(["rt", "version"], stdout=subprocess.PIPE, check=True, text=True).stdout.split()[0]


def prove(below, name, jobs):
    with lane(below, name) as place:
        return run(name, place, "lib", "--jobs", str(jobs))


def prove_all(below, names, lanes, progress):
    """Proves libraries, each after those that it uses. At the first failure the others are stopped."""
    rows, left, running, done = longest_rows(below, progress.left), list(names), {}, set()
    with concurrent.futures.ThreadPoolExecutor(lanes) as pool:
        try:
            while left or running:
                ready = sorted((it for it in left if done.issuperset(below[it])), key=lambda it: -rows[it])
                for at, name in enumerate(ready):
                    idle = lanes - sum(jobs for _, jobs in running.values())
                    if idle < 1:
                        break
                    jobs = max(1, idle - (len(ready) - at - 1))
                    left.remove(name)
                    progress.begins(name)
                    running[pool.submit(prove, below, name, jobs)] = name, jobs
                ended = concurrent.futures.wait(running, return_when=concurrent.futures.FIRST_COMPLETED).done
                for it in ended:
                    name, _ = running.pop(it)
                    functions = it.result()
                    done.add(name)
                    progress.ends(name, functions)
        except BaseException:
            for it in list(RUNNING):
                it.terminate()
            raise


def main(program, *words):
    begun, below = time.monotonic(), edges()
    LANES.mkdir(parents=True, exist_ok=True)
    for it in LANES.iterdir():
        # What a run that was killed has left.
        bring_back(it)
    lanes = int(subprocess.run([TOP / "tools" / "lanes.sh"], stdout=subprocess.PIPE, check=True).stdout)
    libraries = closure(below, program)
    progress = Progress(below, [*libraries, program], lanes)
    print(f"Proving {program} and the {len(libraries)} crates that it uses, up to {lanes} in parallel. Crates that an "
          "earlier run has proved take seconds.", flush=True)
    try:
        prove_all(below, libraries, lanes, progress)
        progress.begins(program)
        with lane(below, program) as place:
            name_release(place)
            functions = run(program, place, "run", "--jobs", "1", "--", *words)
        progress.ends(program, functions)
    except Failed as failed:
        print(failed)
        return 1
    finally:
        shutil.rmtree(LANES, ignore_errors=True)
    print(f"Proved and built in {time.monotonic() - begun:.0f} s.", flush=True)
    return 0


if __name__ == "__main__":
    sys.exit(main(*sys.argv[1:]))
