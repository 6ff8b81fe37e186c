#!/usr/bin/env python3
"""Runs `relayd serve --workers` over 127.0.0.1 with clients side by side, some of which are cut off or silent, and with
threads that can't be started. Ends at the first difference.

    tests/workers.py build/relayd
"""
import contextlib
import pathlib
import re
import select
import socket
import sys
import tempfile

sys.dont_write_bytecode = True

from mail_checks import connected, talk
from relay_program import PATIENCE, Difference, Relay, preload, same
from smtp_sink import Sink

GROUP = [b"EHLO x\r\n", b"MAIL FROM:<a@example.org>\r\n", b"RCPT TO:<b@example.org>\r\n", b"DATA\r\n"]
TEXT = b"Subject: side by side\r\n\r\ntext\r\n.\r\n"


def new_relay(program, folder, sink, **limits):
    relay = Relay(program, folder, {"example.org": ("next.example", sink.port)}, **limits)
    relay.run("init")
    return relay


@contextlib.contextmanager
def clients_of(relay, count):
    """Returns so many connections, in order."""
    with contextlib.ExitStack() as stack:
        yield [stack.enter_context(connected(relay)) for _ in range(count)]


def is_silent(link, seconds=0):
    """Returns whether nothing has come on a connection, and it is open."""
    return not select.select([link], [], [], seconds)[0]


def said_last(link, part):
    """Returns the reply to a part that is sent on a connection whose other replies were read."""
    link.sendall(part)
    return link.makefile("rb").readline().decode().rstrip("\r\n")


def number_of(reply):
    if not reply.startswith("250 queued as "):
        raise Difference(f"a message is answered {reply}")
    return int(reply.split()[-1])


def ended_as(link):
    """Returns what is still to be read on a connection up to its end."""
    with contextlib.suppress(ConnectionResetError):
        return link.makefile("rb").read()
    return b""


def log_line(link_name, octets, messages, reason="closed"):
    return f"relayd: client-end client={link_name} messages={messages} rejected=0 octets={octets} reason={reason}"


def mail_of(count):
    """Returns what a client that submits so many messages writes without waiting."""
    return b"HELO x\r\n" + b"".join([*GROUP[1:], TEXT]) * count + b"QUIT\r\n"


def numbers_in(replies):
    """Returns the numbers in these replies to a client, in order."""
    return [int(it) for it in re.findall(rb"(?m)^250 queued as (\d+)\r$", replies)]


# The rows. Each says in its name what holds.


def nobody_is_greeted_before_all_have_come(program, folder, sink):
    relay = new_relay(program, folder, sink)
    with relay.serving("--workers", "2") as lines, clients_of(relay, 1) as [first]:
        same("the first is greeted alone", is_silent(first, 0.3), True)
        with clients_of(relay, 1) as [second]:
            # The second first: neither waits for the other.
            same("the second", number_of(talk(second, *GROUP, TEXT)), 1)
            same("the first", number_of(talk(first, *GROUP, TEXT)), 2)
    same("the lines of serve", lines, ["1 next.example ended", "2 next.example ended"])
    sink.take_all()


def two_that_wait_for_each_other_are_answered(program, folder, sink):
    relay = new_relay(program, folder, sink)
    with relay.serving("--workers", "2") as lines, clients_of(relay, 2) as links:
        for link in links:
            same("what the text is asked for by", talk(link, *GROUP), "354 end with a line of one period")
        same("the replies", [said_last(link, TEXT) for link in links], ["250 queued as 1", "250 queued as 2"])
    same("the lines of serve", lines, ["1 next.example ended", "2 next.example ended"])
    sink.take_all()


# How many rounds, workers, and messages of each; the limits, and how many messages are queued, and how many are not for
# want of room. It doesn't depend on the order of the threads.
ROUNDS = [
    (1, 1, 1, {}, 1, 0),
    (25, 4, 1, {}, 100, 0),
    (1, 4, 25, {}, 100, 0),
    (1, 64, 2, {}, 128, 0),
    (1, 2, 1, {"max_content": 1024, "spool_limit": 300}, 1, 1),
    (1, 8, 3, {"max_content": 1024, "spool_limit": 300}, 1, 23),
]


def rounds_take_what_there_is_room_for(program, folder, sink):
    """Each message has a number of its own, from 1 on; those of each client rise. After its round each is relayed,
    which takes a number too."""
    for place, (rounds, workers, messages, limits, queued, full) in enumerate(ROUNDS):
        relay = new_relay(program, folder / str(place), sink, **limits)
        replies = []
        with relay.serving("--workers", str(workers), "--rounds", str(rounds)) as lines:
            for _ in range(rounds):
                with clients_of(relay, workers) as links:
                    for link in links:
                        link.sendall(mail_of(messages))
                    replies += [ended_as(link) for link in links]
        numbers = [numbers_in(it) for it in replies]
        same(f"round {place}: numbers of each client rise", numbers, [sorted(it) for it in numbers])
        each = queued // rounds
        wanted = [2 * each * turn + number for turn in range(rounds) for number in range(1, each + 1)]
        same(f"round {place}: numbers", sorted(sum(numbers, [])), wanted)
        same(f"round {place}: refused", sum(it.count(b"\r\n452 spool full\r\n") for it in replies), full)
        same(f"round {place}: ended well", [it[-15:] for it in replies], [b"ample closing\r\n"] * rounds * workers)
        same(f"round {place}: lines", lines, [f"{it} next.example ended" for it in wanted])
        same(f"round {place}: list", relay.held(), [])
        same(f"round {place}: at the sink", len(sink.take_all()), queued)


def a_device_that_fails_ends_the_service(program, folder, sink):
    """The first write of an append fails, and in another run its last, which opens its gate: nothing is queued."""
    for number in ("1", "2"):
        relay = new_relay(program, folder / number, sink)
        plain = dict(relay.environment)
        preload(relay, folder, "device_calls", CALLS=str(folder / "calls"), FULL_WRITE=number)
        process = relay.start("--workers", "2")
        with clients_of(relay, 2) as links:
            for link in links:
                link.sendall(mail_of(1))
            replies = [ended_as(link) for link in links]
        same("the numbers", [numbers_in(it) for it in replies], [[], []])
        out, errors = process.communicate(timeout=PATIENCE)
        same("what serve prints", (process.returncode, out, errors.splitlines()[:1]), (1, b"", [b"relayd: device"]))
        relay.environment = plain
        same("list", relay.held(), [])


def each_of_64_has_its_reply_whatever_the_others_do(program, folder, sink):
    """32 submit mail, 31 are cut off in their mail data, and one is silent."""
    relay = new_relay(program, folder, sink)
    preload(relay, folder, "shorter_waits", SHORTER="25")
    log = []
    with relay.serving("--workers", "64", log=log) as lines, clients_of(relay, 64) as links:
        names = ["{}:{}".format(*link.getsockname()) for link in links]
        silent, whole, cut = links[0], links[1:33], links[33:]
        for link in cut:
            same("what the text is asked for by", talk(link, *GROUP), "354 end with a line of one period")
            link.sendall(TEXT[:-3])
            link.shutdown(socket.SHUT_RDWR)
        numbers = [number_of(talk(link, *GROUP, TEXT)) for link in whole]
        same("numbers", sorted(numbers), list(range(1, 33)))
        for link in whole:
            link.sendall(b"QUIT\r\n")
        # It is given up after 300 seconds divided by 25.
        same("what the silent one got", ended_as(silent), b"220 relay.example ESMTP relay ready\r\n")
        for link in whole:
            same("after QUIT", ended_as(link), b"221 relay.example closing\r\n")
    same("the lines of serve", lines, [f"{number} next.example ended" for number in range(1, 33)])
    same("list", relay.held(), [])
    same("messages at the sink", len(sink.take_all()), 32)
    octets = sum(map(len, GROUP)) + len(TEXT)
    wanted = [log_line(names[0], 0, 0, "input"), *[log_line(name, octets + 6, 1) for name in names[1:33]],
              *[log_line(name, octets - 3, 0) for name in names[33:]]]
    same("the log of clients", [line for line in log if line.startswith("relayd: client-end ")], wanted)


def a_full_spool_takes_one_of_two(program, folder, sink):
    """There is room for one message only: 18 octets, and 160 of it and more."""
    relay = new_relay(program, folder, sink, max_content=1024, spool_limit=300)
    replies = []
    with relay.serving("--workers", "2") as lines, clients_of(relay, 2) as links:
        replies = [talk(link, *GROUP, TEXT) for link in links]
    same("the replies", replies, ["250 queued as 1", "452 spool full"])
    same("the lines of serve", lines, ["1 next.example ended"])
    sink.take_all()


def a_client_without_a_thread_hears_nothing(program, folder, sink):
    relay = new_relay(program, folder, sink)
    preload(relay, folder, "refuse_threads", REFUSE="2")
    log = []
    with relay.serving("--workers", "3", log=log) as lines, clients_of(relay, 3) as links:
        name = "{}:{}".format(*links[1].getsockname())
        same("the first", number_of(talk(links[0], *GROUP, TEXT)), 1)
        same("the third", number_of(talk(links[2], *GROUP, TEXT)), 2)
        for link in (links[0], links[2]):
            link.sendall(b"QUIT\r\n")
        same("what the second hears", ended_as(links[1]), b"")
    same("the lines of serve", lines, ["1 next.example ended", "2 next.example ended"])
    same("the log of the second", [line for line in log if name in line],
         [f"relayd: client-end client={name} reason=no-memory"])
    sink.take_all()


def numbers_of_workers_are_looked_at(program, folder, sink):
    relay = new_relay(program, folder, sink)
    for word in ("0", "65", "x", ""):
        same(f"--workers {word!r}", relay.ended(20, "serve", "--workers", word).returncode, 2)


ROWS = [
    nobody_is_greeted_before_all_have_come,
    two_that_wait_for_each_other_are_answered,
    rounds_take_what_there_is_room_for,
    a_device_that_fails_ends_the_service,
    each_of_64_has_its_reply_whatever_the_others_do,
    a_full_spool_takes_one_of_two,
    a_client_without_a_thread_hears_nothing,
    numbers_of_workers_are_looked_at,
]


def main():
    with tempfile.TemporaryDirectory() as folder, Sink() as sink:
        for row in ROWS:
            try:
                place = pathlib.Path(folder) / row.__name__
                place.mkdir()
                row(sys.argv[1], place, sink)
                same("breaches at the sink", sink.breaches, [])
            except Difference as difference:
                sys.exit(f"workers: {row.__name__}: {difference}")
    print(f"workers: {len(ROWS)} rows")


main()
