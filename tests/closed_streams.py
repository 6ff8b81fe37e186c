#!/usr/bin/env python3
"""Runs each subcommand of `relayd` with each set of its standard streams closed, over a spool with one queued message
and one due work. Compares the status, the fault, and that the spool is octet for octet the same as with all streams
open. Ends at the first difference.

    tests/closed_streams.py build/relayd
"""
import itertools
import os
import pathlib
import subprocess
import sys
import tempfile

sys.dont_write_bytecode = True

from mail_checks import hand_in
from relay_program import HERE, Difference, PATIENCE, Relay, is_listening, preload, same
from smtp_sink import Sink

STORED = HERE.parent / "crates" / "relayd"
SETS = [set(closed) for count in range(4) for closed in itertools.combinations(range(3), count)]

# A second at which the clock is held, so that two runs record the same.
MOMENT = 1_800_000_000


class Field:
    """A relay whose clock is stopped, and a sink as its next hop."""

    def __init__(self, program, folder):
        self.folder, self.sink = folder, Sink()
        self.relay = Relay(program, folder / "relay", {"example.org": ("next.example", self.sink.port)})
        preload(self.relay, folder, "later_clock", HELD=str(MOMENT))

    def waiting(self):
        """Makes a spool with a message of two recipients: one is due because its hop is back, and one waits."""
        self.relay.forget()
        self.relay.run("init")
        self.relay.environment["HELD"] = str(MOMENT - 3600)
        port = self.sink.port
        self.sink.close()
        with self.relay.serving():
            hand_in(self.relay)
        self.relay.environment["HELD"] = str(MOMENT)
        self.sink = Sink(port)
        return self.relay.spool.read_bytes()

    def close(self):
        self.sink.close()
        same("breaches at the sink", self.sink.breaches, [])


def ended(field, closed, words, given=b"", beside=None):
    """Returns the status, and what was written to standard output and to standard error; empty for a closed stream."""

    def close_streams():
        for stream in closed:
            os.close(stream)

    process = subprocess.Popen(words, stdin=subprocess.PIPE, stdout=subprocess.PIPE, stderr=subprocess.PIPE,
                               env=field.relay.environment, preexec_fn=close_streams)
    try:
        if beside:
            beside(process)
        out, errors = process.communicate(b"" if 0 in closed else given, timeout=PATIENCE)
        return process.returncode, out, errors
    finally:
        process.kill()
        process.wait()


def wanted(closed, status, out, fault=""):
    """Returns what a run is expected to show: nothing on a closed stream."""
    return status, b"" if 1 in closed else out, b"" if 2 in closed or not fault else f"relayd: {fault}\n".encode()


# The subcommands.


def session(field, closed):
    commands, replies = (STORED / "stdin").read_bytes(), (STORED / "stdout").read_bytes()
    found = ended(field, closed, [field.relay.program, "session"], commands)
    if 1 in closed:
        same("the run", found, wanted(closed, 1, b"", "output"))
    elif 0 in closed:
        # The greeting was written before the first read.
        same("the run", found, wanted(closed, 1, replies[:replies.index(b"\n") + 1], "input"))
    else:
        same("the run", found, wanted(closed, 0, replies))


def init(field, closed):
    field.relay.forget()
    same("the run", ended(field, closed, field.relay.words("init")), wanted(closed, 0, b""))
    same("the spool", field.relay.spool.read_bytes().hex(), b"RELAYQ01".hex() + "01" + "0000000000000001" + "00")


def listed(field, closed):
    spool = field.waiting()
    line = b"1 0 <b@example.org> %d\n" % (MOMENT - 1800)
    found = ended(field, closed, field.relay.words("list"))
    same("the run", found, wanted(closed, 1, b"", "output") if 1 in closed else wanted(closed, 0, line))
    same("the spool", field.relay.spool.read_bytes(), spool)


def push(field, closed):
    field.waiting()
    found = ended(field, closed, field.relay.words("push"))
    line = b"1 next.example ended\n"
    same("the run", found, wanted(closed, 1, b"", "output") if 1 in closed else wanted(closed, 0, line))
    return field.relay.spool.read_bytes()


def served(field, closed, *words):
    """Returns the result of `serve` after a client has submitted a message."""
    field.waiting()

    def client(process):
        while not is_listening(field.relay.port):
            if process.poll() is not None:
                raise Difference(f"serve has ended with {process.returncode}")
        hand_in(field.relay)

    return ended(field, closed, field.relay.words("serve", *words), beside=client)


def serve(field, closed):
    found = served(field, closed)
    lines = b"1 next.example ended\n3 next.example ended\n"
    same("the run", found, wanted(closed, 1, b"", "output") if 1 in closed else wanted(closed, 0, lines))
    return field.relay.spool.read_bytes()


def logged(field, closed):
    """`serve --log`: a line that can't be written is lost, and nothing else."""
    status, _, _ = served(field, closed, "--log")
    same("the status", status, 1 if 1 in closed else 0)
    return field.relay.spool.read_bytes()


def compacted(field, closed):
    spool = field.waiting()
    found = ended(field, closed, field.relay.words("compact"))
    second = field.relay.second.read_bytes()
    line = b"%d %d\n" % (len(spool), len(second))
    same("the run", found, wanted(closed, 1, b"", "output") if 1 in closed else wanted(closed, 0, line))
    same("the first file", field.relay.spool.read_bytes(), spool)
    return second


def with_each_set(field, run):
    """Runs a subcommand with each set of streams closed. The spool must be the same as with all open; if standard
    output is closed, `serve` and `push` end after their first work."""
    spools = {}
    for closed in SETS:
        try:
            spools[frozenset(closed)] = run(field, closed)
        except Difference as difference:
            raise Difference(f"with {sorted(closed)} closed: {difference}") from difference
    whole = spools[frozenset()]
    for closed, spool in spools.items():
        if whole is None or (1 in closed and whole.startswith(spool[:-1])):
            continue
        same(f"the spool with {sorted(closed)} closed", spool, whole)


def main():
    with tempfile.TemporaryDirectory() as folder:
        field = Field(sys.argv[1], pathlib.Path(folder))
        for run in [session, init, listed, push, serve, logged, compacted]:
            try:
                with_each_set(field, run)
            except (Difference, OSError, subprocess.SubprocessError) as difference:
                sys.exit(f"closed_streams: {run.__name__}: {type(difference).__name__}: {difference}")
        field.close()
    print(f"closed_streams: seven runs with each of {len(SETS)} sets of streams closed, each as it has to be")


main()
