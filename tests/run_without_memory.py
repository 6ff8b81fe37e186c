#!/usr/bin/env python3
"""Runs `relayd run` over 127.0.0.1 with one of its allocations refused, a different one each time: it ends before it is
ready, or ends one connection and goes on, and each message with a 250 is held or was relayed. Ends at the first
difference.

    tests/run_without_memory.py build/relayd [ROW..]
"""
import collections
import itertools
import os
import subprocess
import sys
import time

sys.dont_write_bytecode = True

from relay_program import PATIENCE, built, same, until
from running_relay import Client, lines_of, number_of, play_rows, tokens_at

# Once it gets ready, the numbers of the allocations that are refused are ever farther apart, by a part of them.
PART = 50


def begun(relay, environment):
    """Starts `run`. Returns None if it has ended before it was ready, as it must without memory."""
    relay.log.unlink(missing_ok=True)
    with relay.log.open("wb") as log:
        process = subprocess.Popen(relay.words("run"), stdout=subprocess.PIPE, stderr=log, env=environment)
    if process.stdout.readline():
        return process
    ended = process.wait(PATIENCE), [line for line in relay.log.read_bytes().splitlines() if b" listening " not in line]
    process.stdout.close()
    same("its end before it is ready", ended, (1, [b"relayd: no memory"]))
    return None


def queued(relay, token):
    """Submits a message with this subject. Returns its queue number, or None if the connection was closed."""
    says = [(b"EHLO client.example\r\n", "250 "), (b"MAIL FROM:<a@example.org>\r\n", "250 "),
            (b"RCPT TO:<b@example.org>\r\n", "250 "), (b"DATA\r\n", "354 ")]
    try:
        with Client(relay) as client:
            reply, wanted = client.reply(), "220 "
            for octets, code in says:
                if not reply:
                    return None
                same("a reply", reply[:4], wanted)
                reply, wanted = client.say(octets), code
            if reply:
                same("a reply", reply[:4], wanted)
                reply = client.say(b"Subject: %d\r\n\r\n%b\r\n.\r\n" % (token, b"x" * 3000))
            return number_of(reply) if reply else None
    except ConnectionError:
        return None


def is_done(relay):
    """Returns whether nothing is due."""
    return all(row[3] > time.time() for row in relay.held())


def has_gone_on(relay, mark):
    """Returns whether nothing is due, or an allocation was just refused: an attempt without an outcome is tried again
    later."""
    return is_done(relay) or (mark.exists() and time.time() > mark.stat().st_mtime + 0.2)


def lost_of(relay, sink, answered):
    """Returns the messages that got a 250, and are neither queued nor relayed."""
    held, gone = {row[0] for row in relay.held()}, tokens_at(sink)
    return [token for token, number in answered.items() if number not in held and token not in gone]


# The rows. Each says in its name what holds.


def an_allocation_that_is_refused_ends_one_connection_at_most(field):
    """Once it is ready, it goes on, and the next client gets a 250."""
    mark, refuse = field.folder / "refused", built("refuse_memory", field.folder)
    relay = field.relay(more={"relay.example": ("next.example", field.sink.port)})
    environment = {**os.environ, "REFUSED": str(mark), "LD_PRELOAD": str(refuse)}
    answered, tokens, number, met = {}, itertools.count(), 1, collections.Counter()

    def is_queued():
        token = next(tokens)
        as_number = queued(relay, token)
        if as_number is not None:
            answered[token] = as_number
        return as_number is not None

    while True:
        # What has left before leads to no allocations.
        relay.run("compact")
        mark.unlink(missing_ok=True)
        process = begun(relay, {**environment, "REFUSE": str(number)})
        if process:
            try:
                visits = [is_queued() for _ in range(3)]
                if not visits[-1]:
                    visits.append(is_queued())
                ends = visits.count(False)
                until("mail that goes on", lambda: has_gone_on(relay, mark))
                same(f"its end without allocation {number}", (process.poll(), ends > 1), (None, False))
            finally:
                process.kill()
                process.communicate()
            met["cut off"] += ends
            met["unrecorded"] += len(lines_of(relay, " relayd: unrecorded "))
        else:
            met["not ready"] += 1
        same(f"messages lost without allocation {number}", lost_of(relay, field.sink, answered), [])
        if not mark.exists():
            break
        number += 1 if process is None else 1 + number // PART
    with relay.running():
        until("nothing that is due", lambda: is_done(relay))
    same("messages that are lost", lost_of(relay, field.sink, answered), [])
    # What was never met isn't counted.
    same("what was met", sorted(+met), ["cut off", "not ready", "unrecorded"])


ROWS = [
    an_allocation_that_is_refused_ends_one_connection_at_most,
]


if __name__ == "__main__":
    play_rows("run_without_memory", ROWS)
