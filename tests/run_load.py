#!/usr/bin/env python3
"""Runs `relayd run` over 127.0.0.1 with much mail: for next hops that are down, for one that is up, and large. Its
costs must stay bounded, and it must sleep when nothing is to be done. Ends at the first difference.

    tests/run_load.py build/relayd [ROW..]

Runs the named rows, or all. DUE (6300) is how many messages are due at next hops that are down, THROUGH (2000) how many
pass through a relay, CONTENT (1048576) the size of each of 64 messages at once in octets; time limits are multiplied by
TIMES (2).
"""
import contextlib
import os
import pathlib
import selectors
import sys
import threading
import time

sys.dont_write_bytecode = True

from mail_checks import hand_in
from relay_program import Difference, PATIENCE, Slow, free_port, same, until
from running_relay import SOON, TIMES, Client, beside, clients_of, comes_to_rest, in_a_process, lines_of, no_later
from running_relay import number_of, play_rows, resident, shim, slowest, switches, token_of

DUE = int(os.environ.get("DUE", 6300))
THROUGH = int(os.environ.get("THROUGH", 2000))
CONTENT = int(os.environ.get("CONTENT", 1 << 20))
AWAY = 63
# How many messages are in one piece, and the piece's next hop's domain.
AT_ONCE = 20
# How many messages come before all of them have to be out: what waits at once takes memory of which an allocator
# doesn't give all back, more or less of it by how far the next hop lags.
WAVE = 2000
# How long a next hop may take to greet, in seconds, with some to spare.
GREETING = 240
# What a 250 may wait for while all that is due is listed, in seconds.
LISTING = 0.02 * TIMES
# What memory may grow by while mail goes through, in octets: what a run keeps doesn't grow with what has left.
MOST_GROWN = 4 << 20


def in_one_chunk(domain, octets=b"Subject: much mail\r\n\r\ntext\r\n"):
    """Returns the commands of a message for a domain, with the message in one chunk, so that no reply has to be waited
    for."""
    commands = b"MAIL FROM:<a@example.org>\r\nRCPT TO:<b@%b>\r\nBDAT %d LAST\r\n%b"
    return commands % (domain.encode(), len(octets), octets)


def submit(client, messages):
    """Submits messages, whose commands these are, at once."""
    client.link.sendall(b"".join(messages))
    replies = [client.reply() for _ in range(3 * len(messages))]
    same("replies that aren't 250", [reply for reply in replies if reply[:4] != "250 "], [])


def pour(relay, domains, count, address="127.0.0.1"):
    """Submits so many messages for these domains in turn, on one connection."""
    with Client(relay, address) as client:
        client.begin()
        for number in range(count // AT_ONCE):
            submit(client, [in_one_chunk(domains[number % len(domains)])] * AT_ONCE)


def bring(relay, tokens):
    """Submits a message for each token, which is its subject, on one connection."""
    messages = [in_one_chunk("example.org", b"Subject: %d\r\n\r\ntext\r\n" % token) for token in tokens]
    with Client(relay) as client:
        client.begin()
        for place in range(0, len(messages), AT_ONCE):
            submit(client, messages[place:place + AT_ONCE])


def pour_through(field, relay, count):
    """Submits about so many messages on eight connections, and waits until all have reached the next hop."""
    each = count // 8 // AT_ONCE * AT_ONCE
    threads = [threading.Thread(target=pour, args=(relay, ["example.org"], each)) for _ in range(8)]
    for thread in threads:
        thread.start()
    for thread in threads:
        thread.join()
    # The sink takes a hundred a second at the least.
    field.sink.wait_for(8 * each, 10 * PATIENCE + count / 100)
    field.sink.take_all()


def descriptors(process):
    return len(list(pathlib.Path(f"/proc/{process.pid}/fd").iterdir()))


# The rows. Each says in its name what holds.


def mail_for_63_hops_that_are_away_holds_up_no_other(field):
    """A new message for a hop that is up leaves within a second, whatever is due elsewhere."""
    # At an address where no relay of another test listens either.
    away = {f"away-{number}.example": (f"hop-{number}.example", free_port(), "127.0.0.9") for number in range(AWAY)}
    relay = field.relay(more=away, spool_limit=1 << 30)
    with relay.running("--quiet") as process, clients_of(relay, 1, "127.0.0.2") as [client]:
        pour(relay, list(away), DUE)
        waits = []
        for _ in range(20):
            begun = time.monotonic()
            client.hand_in()
            field.arrived(1)
            waits.append(time.monotonic() - begun)
            time.sleep(0.1)
        if max(waits) > SOON:
            raise Slow(f"a message waits {max(waits):.2f} s beside {DUE} that are due")
        held = len(relay.held())
        if held != DUE // AT_ONCE * AT_ONCE:
            raise Difference(f"{held} messages wait, of {DUE}")
        comes_to_rest(process, "beside hops that are away")


def what_is_due_is_listed_beside_prompt_replies(field):
    """Once per minute of its clock, which is a second here, in parts: no 250 waits for it."""
    away = {f"away-{number}.example": (f"hop-{number}.example", free_port()) for number in range(4)}
    relay = field.relay(more=away, spool_limit=1 << 30, client_timeout=3600)
    shim(field, "run_clocks", relay, FASTER="60")
    with relay.running("--quiet") as process:
        with clients_of(relay, 1) as [client]:
            alone = slowest(client, 20)
        field.arrived(20)
        pour(relay, list(away), DUE)
        waits = []
        with clients_of(relay, 1) as [client]:
            for _ in range(40):
                waits.append(slowest(client, 5, "c@away-0.example"))
                time.sleep(0.1)
        if max(waits) > alone + LISTING:
            raise Slow(f"a message waits {max(waits):.3f} s beside {DUE} that are due, and {alone:.3f} s without")
        same("how many wait", len(relay.held()), DUE // AT_ONCE * AT_ONCE + 200)
        comes_to_rest(process, "beside what is due")


def what_is_listed_in_parts_is_tried_once(field):
    """In at least four parts, once per minute of its clock, which is four seconds here, while messages arrive and
    leave."""
    relay = field.relay(spool_limit=1 << 30, client_timeout=3600)
    shim(field, "run_clocks", relay, FASTER="15")
    field.sink.hold_greetings()
    with relay.running("--quiet"):
        begun = time.monotonic()
        bring(relay, range(THROUGH))
        time.sleep(5)
        # A next hop has five minutes to greet; a message that waits longer for it is put off for hours.
        if time.monotonic() - begun > GREETING / 15:
            raise Slow(f"{THROUGH} messages take {time.monotonic() - begun:.1f} s")
        field.sink.greet()
        bring(relay, range(THROUGH, THROUGH + 200))
        field.sink.wait_for(THROUGH + 200, PATIENCE + THROUGH / 50)
        time.sleep(5)
        until("an empty list", lambda: relay.held() == [])
    tokens = sorted(token_of(message) for message in field.sink.take_all())
    same("what came", tokens, list(range(THROUGH + 200)))


def listing(relay):
    """Returns how long `list` takes, in seconds, and the numbers of the messages that it prints."""
    begun = time.monotonic()
    numbers = [row[0] for row in relay.held()]
    return time.monotonic() - begun, numbers


def list_takes_no_longer_beside_a_flood(field):
    """What is appended while it reads isn't printed: it prints the queue as it was at one time."""
    relay = field.relay(
        more={"example.net": ("away.example", free_port())}, spool_limit=1 << 30, sessions_per_client=64)

    def flood(done):
        while not done.is_set():
            pour(relay, ["example.net"], 5 * AT_ONCE)

    with relay.running("--quiet"):
        pour(relay, ["example.net"], DUE)
        alone = max(listing(relay)[0] for _ in range(3))
        _, before = listing(relay)
        with contextlib.ExitStack() as stack:
            for _ in range(8):
                stack.enter_context(beside(flood))
            for _ in range(5):
                took, numbers = listing(relay)
                same("each is listed once, in order", numbers, sorted(set(numbers)))
                same("what was listed and isn't any more", set(before) - set(numbers), set())
                before = numbers
                if took > 3 * alone + SOON:
                    raise Slow(f"list takes {took:.2f} s beside a flood, and {alone:.2f} s alone")


def list_ends_beside_compactions(field):
    """One compaction per second, while mail passes through a small spool, which is full at times."""
    relay = field.relay(spool_limit=200_000, sessions_per_client=64)

    def feed(done):
        with clients_of(relay, 1) as [client]:
            while not done.is_set():
                client.offer()

    with relay.running():
        with beside(feed):
            until("compactions", lambda: len(lines_of(relay, "relayd: compacted")) >= 1)
            for _ in range(100):
                took, _ = listing(relay)
                if took > SOON:
                    raise Slow(f"list takes {took:.2f} s beside compactions")


def pipeline(relay, count, line):
    """Sends this line over and over on this many connections, and reads the replies, without end; neither waits for the
    other."""
    octets = line * (65_536 // len(line))
    with contextlib.ExitStack() as stack:
        selector = stack.enter_context(selectors.DefaultSelector())
        for _ in range(count):
            client = stack.enter_context(Client(relay, "127.0.0.2"))
            client.begin()
            client.link.setblocking(False)
            selector.register(client.link, selectors.EVENT_READ | selectors.EVENT_WRITE)
        while True:
            for key, events in selector.select():
                with contextlib.suppress(BlockingIOError):
                    if events & selectors.EVENT_READ:
                        key.fileobj.recv(1 << 18)
                    if events & selectors.EVENT_WRITE:
                        # What goes begins with a whole line and may end in one: each line is a command all the same.
                        key.fileobj.send(octets)


def clients_that_pipeline_commands_delay_no_reply(field):
    """Whatever they send and however many they are, another client's 250 comes within a few hundredths of a second."""
    relay = field.relay(sessions_per_client=64)
    with relay.running("--quiet") as process, clients_of(relay, 1) as [client]:
        alone = slowest(client, 20)
        field.arrived(20)
        for count, line in ((16, b"\r\n"), (60, b"NOOP\r\n"), (60, b"UNKNOWN\r\n"), (60, b"\r\n")):
            with in_a_process(pipeline, relay, count, line):
                time.sleep(0.5)
                no_later(client, alone, 20, f"{count} clients that pipeline {line}")
            field.arrived(20)
        comes_to_rest(process, "after clients that pipeline")


def memory_and_descriptors_stay_as_mail_goes_through(field):
    relay = field.relay(sessions_per_client=64)
    with relay.running("--quiet") as process:
        seen = []
        for part in range(4):
            for _ in range(max(1, THROUGH // 4 // WAVE)):
                pour_through(field, relay, min(WAVE, THROUGH // 4))
            until("an empty list", lambda: relay.held() == [])
            comes_to_rest(process, "after much mail")
            until("descriptors of none but itself", lambda: part == 0 or descriptors(process) == seen[0][1])
            seen.append((resident(process), descriptors(process)))
        # The first part takes what the relay takes for itself.
        grown = seen[-1][0] - seen[1][0]
        if grown > MOST_GROWN:
            raise Difference(f"{THROUGH // 2} messages that have left cost {grown} octets")


def sixty_four_texts_at_once_cost_what_they_have(field):
    """And a block for each of them, and 8 MiB; then each gets a 250."""
    limits = {"sessions_per_client": 64, "client_timeout": 3600, "max_content": CONTENT, "spool_limit": 1 << 31}
    relay = field.relay(more={"example.net": ("away.example", free_port())}, **limits)
    content = b"x" * (CONTENT - 2)
    with relay.running() as process:
        with clients_of(relay, 1):
            before = resident(process)
        with clients_of(relay, 64) as clients:
            for client in clients:
                # All are written one after another.
                client.link.settimeout(PATIENCE + CONTENT / 50000)
                client.ask_for_text("c@example.net")
                client.link.sendall(content)
            comes_to_rest(process, "with texts that have no end yet")
            grown = resident(process) - before
            for client in clients:
                client.link.sendall(b"\r\n.\r\n")
            numbers = {number_of(client.reply()) for client in clients}
        same("messages that wait", {row[0] for row in relay.held()}, numbers)
        if grown > 64 * (CONTENT + (64 << 10)) + (8 << 20):
            raise Difference(f"64 texts of {CONTENT} octets cost {grown} octets")


def at_rest_it_sleeps(field):
    relay = field.relay()
    with relay.running() as process, clients_of(relay, 3):
        hand_in(relay)
        field.arrived(1)
        until("an empty list", lambda: relay.held() == [])
        comes_to_rest(process, "with clients that are idle")
        before = switches(process)
        time.sleep(5)
        # One wake-up a minute, and the timers of three clients, which are later.
        if switches(process) > before + 1:
            raise Difference(f"it wakes up {switches(process) - before} times in five seconds")


ROWS = [
    mail_for_63_hops_that_are_away_holds_up_no_other,
    what_is_due_is_listed_beside_prompt_replies,
    what_is_listed_in_parts_is_tried_once,
    clients_that_pipeline_commands_delay_no_reply,
    list_takes_no_longer_beside_a_flood,
    list_ends_beside_compactions,
    memory_and_descriptors_stay_as_mail_goes_through,
    sixty_four_texts_at_once_cost_what_they_have,
    at_rest_it_sleeps,
]


if __name__ == "__main__":
    play_rows("run_load", ROWS)
