#!/usr/bin/env python3
"""Measures what others cost a client of `relayd run`: one line per crowd, with the median and the longest wait for a
250.

    bench/delays.py build/relayd [CROWD ..]

The crowds are those of CROWDS below, or the named ones. MESSAGES (200) is how many messages each figure is of, DUE
(100000) how many are due for the measured listing. The client waits for the 250 that follows its mail data, one message
after another on one connection; beside a crowd of next hops a message's way to a next hop that answers is measured.

The relay has a processor of its own, and so has the client. A virtual machine's processor stands still at times, since
others of its host have the real one. So a process of the highest priority on each of these two wakes every millisecond
and notes how late it woke, and each line also has the longest wait without the time that such a processor stood still.
"""
import collections
import contextlib
import multiprocessing
import os
import pathlib
import socket
import statistics
import sys
import tempfile
import time

HERE = pathlib.Path(__file__).resolve().parent
sys.path.insert(0, str(HERE.parent / "tests"))
sys.dont_write_bytecode = True

from relay_program import free_port, until
from run_load import pipeline, pour
from running_relay import TEXT, Field, clients_of, in_a_process, lines_of, number_of, shim

MESSAGES = int(os.environ.get("MESSAGES", 200))
DUE = int(os.environ.get("DUE", 100_000))
MEGABYTE = b"Subject: long\r\n\r\n" + (b"x" * 1022 + b"\r\n") * 1023 + b".\r\n"
# How many messages of a megabyte wait while the spool is written anew, and how many go through it before.
WAITING, PASSING = 24, 64
# How many next hops say nothing.
SILENT = 63
# A process that sleeps for a millisecond wakes this much later without any standstill, in seconds.
LATE = 0.002

# A time, from a moment to a moment, in seconds of the monotonic clock.
Span = collections.namedtuple("Span", "begun ended")


def note_standstills(processor, pipe):
    """Notes when this processor stood still, until something comes through the pipe, and sends it there."""
    os.sched_setaffinity(0, {processor})
    with contextlib.suppress(PermissionError):
        os.nice(-20)
    standstills, last = [], time.monotonic()
    while not pipe.poll():
        time.sleep(0.001)
        now = time.monotonic()
        if now - last > 0.001 + LATE:
            standstills.append(Span(last, now))
        last = now
    pipe.send(standstills)


class Measured:
    """How long a relay and this process wait, each on a processor of its own, beside a flood on the others."""

    def __init__(self, relay, flood=None):
        self.all = sorted(os.sched_getaffinity(0))
        self.own = self.all[:2]
        os.sched_setaffinity(relay.pid, self.own[:1])
        if flood:
            os.sched_setaffinity(flood.pid, self.all[2:] or self.own[-1:])

    def __enter__(self):
        self.stack, self.pipes = contextlib.ExitStack(), []
        for processor in self.own:
            ours, theirs = multiprocessing.Pipe()
            self.stack.enter_context(in_a_process(note_standstills, processor, theirs))
            self.pipes.append(ours)
        os.sched_setaffinity(0, self.own[-1:])
        return self

    def __exit__(self, *failure):
        os.sched_setaffinity(0, self.all)
        self.stack.close()

    def tell(self, crowd, waits):
        """Prints the median and the longest of these waits, and the longest without standstills."""
        standstills = []
        for pipe in self.pipes:
            pipe.send(None)
            standstills += pipe.recv()
        times = [wait.ended - wait.begun for wait in waits]
        moving = [time - still_in(wait, standstills) for time, wait in zip(times, waits)]
        figures = [statistics.median(times), max(times), max(moving)]
        median, longest, without = (f"{figure * 1000:7.1f} ms" for figure in figures)
        print(f"{crowd:<44} median {median}   longest {longest}, without standstills {without}", flush=True)


def still_in(wait, standstills):
    """Returns how much of a wait is in one of these times, in seconds."""
    still, last = 0, wait.begun
    for begun, ended in sorted(standstills):
        begun, ended = max(begun, last), min(ended, wait.ended)
        if begun < ended:
            still, last = still + ended - begun, ended
    return still


def waits_of(client, count=MESSAGES):
    """Returns from when to when each of so many messages waits for its 250."""
    waits = []
    for _ in range(count):
        client.ask_for_text()
        begun = time.monotonic()
        number_of(client.say(TEXT))
        waits.append(Span(begun, time.monotonic()))
    return waits


def pipelining(count, line):
    """Clients that send this line over and over, and read the replies."""

    def measure(field, crowd):
        relay = field.relay(sessions_per_client=64)
        with relay.running("--quiet") as process, clients_of(relay, 1) as [client]:
            with in_a_process(pipeline, relay, count, line) if count else contextlib.nullcontext() as flood:
                time.sleep(1)
                with Measured(process, flood) as measured:
                    measured.tell(crowd, waits_of(client))

    return measure


def listings(field, crowd):
    """All mail that is due at next hops that are down is listed, each second with a clock sixty times as fast."""
    away = {f"away-{number}.example": (f"hop-{number}.example", free_port()) for number in range(4)}
    relay = field.relay(more=away, spool_limit=1 << 30, client_timeout=3600)
    shim(field, "run_clocks", relay, FASTER="60")
    with relay.running("--quiet") as process:
        pour(relay, list(away), DUE)
        with clients_of(relay, 1) as [client], Measured(process) as measured:
            measured.tell(crowd, waits_of(client))


def compactions(field, crowd):
    """The spool is compacted while long messages pass through it and others wait."""
    away = {"away.example": ("hop.example", free_port())}
    relay = field.relay(more=away, spool_limit=1 << 30, max_content=1 << 21)
    with relay.running() as process, clients_of(relay, 2) as [client, other]:
        for _ in range(WAITING):
            other.hand_in("b@away.example", MEGABYTE)
        for _ in range(PASSING):
            other.hand_in(text=MEGABYTE)
        with Measured(process) as measured:
            waits = waits_of(client)
            until("a compaction", lambda: waits.extend(waits_of(client, 1)) or lines_of(relay, "relayd: compacted"))
            measured.tell(crowd, waits)


def silent_hops(field, crowd):
    """A message's way to a next hop that has answered before, beside silent next hops."""
    with contextlib.ExitStack() as stack:
        # The system makes the connections, and nobody takes them.
        listeners = [stack.enter_context(socket.create_server(("127.0.0.1", 0))) for _ in range(SILENT)]
        more = {f"silent-{at}.example": (f"hop-{at}.example", listener.getsockname()[1])
                for at, listener in enumerate(listeners)}
        relay = field.relay(more=more)
        with relay.running("--quiet") as process, clients_of(relay, 1) as [client]:
            client.hand_in()
            field.arrived(1)
            for domain in more:
                client.hand_in(f"b@{domain}")
            waits = []
            with Measured(process) as measured:
                for _ in range(MESSAGES):
                    begun = time.monotonic()
                    client.hand_in()
                    field.sink.wait_for(1, 60)
                    waits.append(Span(begun, time.monotonic()))
                    field.sink.take_all()
                measured.tell(crowd, waits)


CROWDS = {
    "alone": pipelining(0, b""),
    "16 clients that pipeline empty lines": pipelining(16, b"\r\n"),
    "60 clients that pipeline NOOP": pipelining(60, b"NOOP\r\n"),
    "60 clients that pipeline unknown commands": pipelining(60, b"UNKNOWN\r\n"),
    "60 clients that pipeline empty lines": pipelining(60, b"\r\n"),
    f"{DUE} due messages, listed each second": listings,
    f"a compaction that leaves {WAITING} MB": compactions,
    f"{SILENT} next hops that say nothing": silent_hops,
}


def main():
    program, *names = sys.argv[1:]
    for crowd, measure in CROWDS.items():
        if names and crowd not in names:
            continue
        with tempfile.TemporaryDirectory() as folder:
            field = Field(os.path.realpath(program), pathlib.Path(folder))
            measure(field, crowd)
            field.sink.close()


main()
