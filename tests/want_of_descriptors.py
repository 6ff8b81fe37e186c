#!/usr/bin/env python3
"""Runs `relayd serve` and `relayd push` with too few file descriptors, as under `ulimit -n`: that uses up no round and
defers no work, and serving goes on when there are some again. Ends at the first difference.

    tests/want_of_descriptors.py build/relayd
"""
import pathlib
import resource
import subprocess
import sys
import tempfile

sys.dont_write_bytecode = True

from mail_checks import connected, hand_in, one_message
from relay_program import Difference, PATIENCE, Relay, preload, same, until
from smtp_sink import Sink

# The standard streams, the spool's two files and the listener.
HELD_BY_SERVE = 6

# After 63 clients that were missed there is a wait, in milliseconds; the 64th ends the run.
WAITS = [100, 200, 400, 800] + [1000] * 59


class Field:
    def __init__(self, program, folder):
        self.program, self.folder, self.sink = program, folder, Sink()
        self.sleeps = folder / "sleeps"

    def relay(self, name, **environment):
        relay = Relay(self.program, self.folder / name, {"example.org": ("next.example", self.sink.port)})
        relay.run("init")
        preload(relay, self.folder, "fewer_descriptors", SLEEPS=str(self.sleeps), **environment)
        return relay

    def slept(self):
        waits = [int(line) for line in self.sleeps.read_text().split()] if self.sleeps.exists() else []
        self.sleeps.unlink(missing_ok=True)
        return waits


def limited(descriptors):
    return lambda: resource.setrlimit(resource.RLIMIT_NOFILE, (descriptors, 64))


def no_round_is_used_up(field):
    relay = field.relay("no_round")
    begun = subprocess.run(relay.words("serve", "--rounds", "1000000"), capture_output=True, timeout=PATIENCE,
                           env=relay.environment, preexec_fn=limited(HELD_BY_SERVE))
    same("the run", (begun.returncode, begun.stdout, begun.stderr), (1, b"", b"relayd: socket\n"))
    same("the waits", field.slept(), WAITS)


def leave(link):
    link.sendall(b"QUIT\r\n")
    while link.recv(1000):
        pass


def serving_goes_on_when_there_are_some_again(field):
    relay = field.relay("goes_on")
    process = relay.start("--rounds", "2")
    try:
        with connected(relay) as link:
            same("the greeting", link.recv(1000)[:4], b"220 ")
            resource.prlimit(process.pid, resource.RLIMIT_NOFILE, (HELD_BY_SERVE, 64))
            leave(link)
        with connected(relay) as link:
            # The relay misses this client until it has a descriptor, and then greets it.
            until("a wait for a descriptor", lambda: field.sleeps.stat().st_size > 0)
            resource.prlimit(process.pid, resource.RLIMIT_NOFILE, (64, 64))
            same("the greeting", link.recv(1000)[:4], b"220 ")
            leave(link)
        out, errors = process.communicate(timeout=PATIENCE)
        same("the run", (process.returncode, out, errors), (0, b"", b""))
        if not 0 < len(field.slept()) < 64:
            raise Difference("the relay has missed no client")
    finally:
        process.kill()
        process.wait()


def a_push_puts_nothing_off(field):
    relay = field.relay("puts_nothing_off")
    # The message waits: its hop is away while it is taken.
    port = field.sink.port
    field.sink.close()
    with relay.serving():
        hand_in(relay)
    field.sink = Sink(port)
    before, held = relay.spool.read_bytes(), relay.held()
    # The standard streams and the spool's two files: no descriptor is left for a connection.
    relay.environment.update(LATER="1900", DESCRIPTORS="5")
    ended = relay.ended(PATIENCE, "push")
    same("the push", (ended.returncode, ended.stdout, ended.stderr), (1, b"", b"relayd: socket\n"))
    same("the spool", relay.spool.read_bytes(), before)
    same("list", relay.held(), held)
    del relay.environment["DESCRIPTORS"]
    same("push", relay.run("push"), ["1 next.example ended"])
    one_message(field.sink)


def a_push_of_serve_ends_alone(field):
    relay = field.relay("ends_alone", DESCRIPTORS=str(HELD_BY_SERVE))
    process = relay.start("--rounds", "2")
    try:
        hand_in(relay)
        line = process.stderr.readline()
        same("the line", line, b"relayd: push-ended reason=socket\n")
        resource.prlimit(process.pid, resource.RLIMIT_NOFILE, (64, 64))
        with connected(relay) as link:
            leave(link)
        out, errors = process.communicate(timeout=PATIENCE)
        same("the run", (process.returncode, out, errors), (0, b"1 next.example ended\n", b""))
    finally:
        process.kill()
        process.wait()
    one_message(field.sink)
    same("list", relay.held(), [])


ROWS = [no_round_is_used_up, serving_goes_on_when_there_are_some_again, a_push_puts_nothing_off,
        a_push_of_serve_ends_alone]


def main():
    with tempfile.TemporaryDirectory() as folder:
        field = Field(sys.argv[1], pathlib.Path(folder))
        for row in ROWS:
            try:
                row(field)
            except (Difference, OSError, subprocess.SubprocessError) as difference:
                sys.exit(f"want_of_descriptors: {row.__name__}: {type(difference).__name__}: {difference}")
        field.sink.close()
    print(f"want_of_descriptors: {len(ROWS)} rows, each as it has to be")


main()
