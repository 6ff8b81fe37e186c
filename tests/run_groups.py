#!/usr/bin/env python3
"""Runs `relayd run` over 127.0.0.1 where several clients and a next hop are heard at once: the process is stopped while
they write. What ends at once is appended at once, in the calls of the device that one message takes, and each reply
goes to its own client. Ends at the first difference.

    tests/run_groups.py build/relayd [ROW..]
"""
import contextlib
import os
import re
import signal
import sys
import threading
import time

sys.dont_write_bytecode = True

from refusals import MOST
from relay_program import PATIENCE, same, until
from running_relay import TEXT, clients_of, hop_that, hop_that_hangs, lines_of, number_of, play_rows, shim

# The calls of an append: its octets but the first gate, and then that gate.
APPEND = [r"write \d+ octets at \d+", "sync", r"write 1 octets at \d+", "sync"]
BEFORE_REPLY = b"220 next.example\r\n", b"250 next.example\r\n", b"250 ok\r\n", b"250 ok\r\n", b"354 go\r\n"


@contextlib.contextmanager
def stopped(process):
    """Stops a process to the end of the block: what is written to it in the block comes to it at once."""
    process.send_signal(signal.SIGSTOP)
    until("a stop", lambda: re.search(r"^State:\s+T", open(f"/proc/{process.pid}/status").read(), re.M))
    try:
        yield
    finally:
        process.send_signal(signal.SIGCONT)


class Calls:
    """The calls of the device that a relay makes, written down by a shim."""

    def __init__(self, field, relay, **environment):
        self.file, self.seen = field.folder / f"{relay.folder.name}-calls", 0
        shim(field, "device_calls", relay, CALLS=str(self.file), **environment)

    def new(self):
        """Returns the calls since this was asked last."""
        lines = self.file.read_text().splitlines()
        seen, self.seen = self.seen, len(lines)
        return lines[seen:]


def end_at_once(process, clients, also=lambda: None):
    """Lets clients that may write their text do so at once, and something else happen with it. Returns the octets that
    come to each, up to the end of a line, or all where its connection ends."""
    with stopped(process):
        for client in clients:
            client.link.sendall(TEXT)
        also()
        # What is on its way over the loopback device comes while the process is stopped.
        time.sleep(0.01)
    return [told(client) for client in clients]


def told(client):
    with contextlib.suppress(ConnectionError):
        return client.replies.readline()
    return b""


def is_append(calls):
    return len(calls) == len(APPEND) and all(re.fullmatch(form, call) for form, call in zip(APPEND, calls))


def numbers_of(replies):
    return [number_of(reply.decode().rstrip("\r\n")) for reply in replies]


class SlowHop:
    """A next hop that takes the text of its first connection, and answers it when it is told to. On each further
    connection it says nothing."""

    def __init__(self):
        self.has_text, self.may_answer, self.has_answered = (threading.Event() for _ in range(3))

    def answer(self, link):
        link.settimeout(PATIENCE)
        if self.has_text.is_set():
            link.recv(1)
            return
        for reply in BEFORE_REPLY:
            link.sendall(reply)
            link.recv(1 << 16)
        self.has_text.set()
        self.may_answer.wait(PATIENCE)
        link.sendall(b"250 taken\r\n")
        self.has_answered.set()
        link.recv(1 << 16)

    def reply(self):
        self.may_answer.set()
        self.has_answered.wait(PATIENCE)


# The rows. Each says in its name what holds.


def messages_that_end_at_once_share_an_append(field):
    with hop_that_hangs() as (port, _):
        relay = field.relay(more={"example.org": ("next.example", port)})
        calls = Calls(field, relay)
        with relay.running() as process, clients_of(relay, 3) as clients:
            for client in clients[:2]:
                client.ask_for_text()
            calls.new()
            numbers = numbers_of(end_at_once(process, clients[:2]))
            same("the numbers", sorted(numbers), [1, 2])
            appended = calls.new()
            same(f"whether these calls are an append: {appended}", is_append(appended), True)
            same("another client", clients[2].say(b"NOOP\r\n"), "250 OK")
            same("what is queued", sorted(row[0] for row in relay.held()), [1, 2])


def the_last_of_them_finds_no_room(field):
    """Two messages fit into the spool, and three don't."""
    with hop_that_hangs() as (port, _):
        relay = field.relay(spool_limit=600, more={"example.org": ("next.example", port)})
        with relay.running() as process, clients_of(relay, 3) as clients:
            for client in clients:
                client.ask_for_text()
            replies = sorted(end_at_once(process, clients))
            same("the replies", [replies[0], replies[1], replies[2][:4]],
                 [b"250 queued as 1\r\n", b"250 queued as 2\r\n", b"452 "])
            same("what is queued", sorted(row[0] for row in relay.held()), [1, 2])


def a_device_that_fails_leaves_none_of_them(field):
    """No octet after the messages goes out."""
    with hop_that_hangs() as (port, _):
        relay = field.relay(more={"example.org": ("next.example", port)})
        Calls(field, relay, FULL_WRITE="1")
        with relay.running() as process, clients_of(relay, 2) as clients:
            for client in clients:
                client.ask_for_text()
            same("the replies", end_at_once(process, clients), [b"", b""])
            until("a line of it", lambda: lines_of(relay, "device-failed"))
            same("what is queued", relay.held(), [])


def outcome_beside_a_message(field, name, **environment):
    """A message and the outcome of an attempt at once: what the client is told, the calls, and what is queued then."""
    hop = SlowHop()
    with hop_that(hop.answer) as port:
        relay = field.relay(name, more={"example.org": ("next.example", port)})
        calls = Calls(field, relay, **environment)
        with relay.running() as process, clients_of(relay, 1) as [client]:
            same("the first number", client.hand_in(), 1)
            same("whether the next hop has the text", hop.has_text.wait(PATIENCE), True)
            client.ask_for_text()
            calls.new()
            reply, = end_at_once(process, [client], hop.reply)
            appended = calls.new()
            if environment:
                until("a line of it", lambda: lines_of(relay, "device-failed"))
            return reply, appended, sorted(row[0] for row in relay.held())


def a_message_and_an_outcome_share_an_append(field):
    reply, appended, queued = outcome_beside_a_message(field, "shared")
    # An outcome is a change, as a message is.
    same("the reply is a number, and that message is queued", [number_of(reply.decode().rstrip("\r\n"))], queued)
    same(f"whether these calls are an append: {appended}", is_append(appended), True)


def a_device_that_fails_leaves_neither(field):
    """The first message was two writes."""
    reply, _, queued = outcome_beside_a_message(field, "failed", FULL_WRITE="3")
    same("the reply, and what is queued", (reply, queued), (b"", [1]))


def without_memory_each_has_its_reply_or_is_gone(field):
    """Each allocation after the clients have written is refused in turn: each message is queued, and its client told
    so, or its connection is gone, and there are no more messages than those."""
    with hop_that_hangs() as (port, _):
        relay = field.relay(more={"example.org": ("next.example", port)})
        mark, begun, met = field.folder / "refused", field.folder / "begun", set()
        for number in range(1, MOST):
            relay.forget()
            mark.unlink(missing_ok=True)
            begun.unlink(missing_ok=True)
            relay.environment = dict(os.environ)
            relay.run("init")
            shim(field, "refuse_memory", relay, REFUSE=str(number), REFUSED=str(mark), REFUSE_FROM=str(begun))
            with relay.running() as process, clients_of(relay, 3) as clients:
                for client in clients:
                    client.ask_for_text()
                replies = end_at_once(process, clients, begun.touch)
                queued = [number_of(it.decode().rstrip("\r\n")) for it in replies if it]
                relay.environment = dict(os.environ)
                same(f"without allocation {number}: what is queued", sorted(row[0] for row in relay.held()),
                     sorted(queued))
                same(f"without allocation {number}: whether they are numbered on", sorted(queued),
                     list(range(1, len(queued) + 1)))
            if not mark.exists():
                break
            met.add(len(queued))
        same("whether a message was lost with its connection, and none", {2, 3} <= met, True)


ROWS = [
    messages_that_end_at_once_share_an_append,
    the_last_of_them_finds_no_room,
    a_device_that_fails_leaves_none_of_them,
    a_message_and_an_outcome_share_an_append,
    a_device_that_fails_leaves_neither,
    without_memory_each_has_its_reply_or_is_gone,
]


if __name__ == "__main__":
    play_rows("run_groups", ROWS)
