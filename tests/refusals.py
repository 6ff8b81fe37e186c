"""Runs a program once for each of its allocations, or threads, which the system refuses."""
import collections
import os
import pathlib
import subprocess

from relay_program import Difference, built

# How long one run may take, in seconds, and how many there may be.
LONGEST, MOST = 60, 100_000

# A run without the allocation of this number. The last one has all of them, and nothing was refused.
Run = collections.namedtuple("Run", "number was_refused status out errors")


def runs_without(words, folder, shim="refuse_memory", given=b"", cwd=None):
    """Runs a program with its first allocation refused, then with its second, and so on; at last with none refused,
    because it makes no more. The shim is built in the folder, and notes there that it has refused one."""
    library, mark = built(shim, folder), pathlib.Path(folder) / "refused"
    for number in range(1, MOST):
        mark.unlink(missing_ok=True)
        environment = {**os.environ, "LD_PRELOAD": str(library), "REFUSE": str(number), "REFUSED": str(mark)}
        done = subprocess.run(words, input=given, capture_output=True, timeout=LONGEST, env=environment, cwd=cwd)
        run = Run(number, mark.exists(), done.returncode, done.stdout.decode("latin-1"), done.stderr.decode("latin-1"))
        yield run
        if not run.was_refused:
            return
    raise Difference(f"more than {MOST} allocations")


def outcomes_without(words, folder, outcome_of, shim="refuse_memory", given=b""):
    """Counts the outcomes of the runs in which one was refused, by the name that a function gives each."""
    met = collections.Counter()
    for run in runs_without(words, folder, shim, given):
        if run.was_refused:
            met[outcome_of(run)] += 1
    return met
