#!/usr/bin/env python3
"""Runs `relayd run` over 127.0.0.1 with many clients at once, some of which are slow, silent or flood it, with kills,
and with few file descriptors. Ends at the first difference.

    tests/run.py build/relayd [ROW..]

Runs the named rows, or all. Time limits are multiplied by the environment variable TIMES (2); KILLS and SESSIONS (8)
say how often it is killed, and with how many sessions.
"""
import contextlib
import os
import random
import re
import resource
import select
import shutil
import socket
import subprocess
import sys
import threading
import time

sys.dont_write_bytecode = True

from mail_checks import CONTENT, CONTENTS, behind_mark, hand_in, one_message
from relay_program import Difference, LOCKED, PATIENCE, Slow, same, until
from running_relay import NO_SERVICE, TEXT, TIMEOUT, TIMES, TOO_MANY, Client, Feeder, beside, clients_of, comes_to_rest
from running_relay import greeted, lines_of, no_later, number_of, play_rows, repeats_at, resident, shim, slowest
from running_relay import tokens_at

ACCEPTED = re.compile(r"relayd: accepted message=1 client=127\.0\.0\.1:\d+ helo=client\.example protocol=ESMTP "
                      r"recipients=1 size=\d+ from=<a@example\.org> to=<b@example\.org>")
CLIENT_END = re.compile(r"relayd: client-end client=127\.0\.0\.1:\d+ messages=1 rejected=0 octets=\d+ duration=\d+s "
                        r"reason=quit")
LISTENING = re.compile(r"relayd: listening addr=127\.0\.0\.1:\d+")
SENT = re.compile(r"relayd: sent message=1 hop=next\.example addr=127\.0\.0\.1:\d+ delay=\d+s to=<b@example\.org> "
                  r'status=sent reply="250 [ -~]*"')
MOMENT = re.compile(rb"\d{4}-\d\d-\d\dT\d\d:\d\d:\d\d(\.\d+)?Z [ -~]+")
# At how many moments a relay is killed, and under how many sessions.
KILLS = int(os.environ.get("KILLS", 8))
SESSIONS = int(os.environ.get("SESSIONS", 8))


# The rows. Each says in its name what holds.


def a_message_comes_in_and_goes_on(field):
    relay = field.relay()
    with relay.running() as process:
        for number, content in enumerate(CONTENTS, 1):
            same("refused", hand_in(relay, content), {})
            field.sink.wait_for(1, PATIENCE)
            stored = one_message(field.sink).content
            # Each message is a change, and what came of it is the next. smtplib puts a period before a lone LF's line
            # too, and nothing takes it off.
            wanted = re.sub(rb"(?<!\r)\n\.", b"\n..", content)
            same("the content", behind_mark(stored, "relay.example", 2 * number - 1), wanted)
            until("an empty list", lambda: relay.held() == [])
        comes_to_rest(process, "without mail and clients")


def its_log_says_when_and_quiet_says_nothing(field):
    relay = field.relay(more={"relay.example": ("next.example", field.sink.port)})
    for words in ([], ["--quiet"]):
        relay.log.unlink(missing_ok=True)
        with relay.running(*words):
            hand_in(relay)
            field.arrived(1)
            until("an empty list", lambda: relay.held() == [])
            # A line is written at the end of the turn in which its change was made.
            if not words:
                until("four lines of its log", lambda: relay.log.read_bytes().count(b"\n") == 4)
        lines = relay.log.read_bytes().splitlines()
        same("lines without a time", [line for line in lines if not MOMENT.fullmatch(line)], [])
        same(f"run {words} has a log", len(lines), 0 if words else 4)
        if lines:
            said = sorted(line.split(b" ", 1)[1].decode() for line in lines)
            same("the line of what was accepted", bool(ACCEPTED.fullmatch(said[0])), True)
            same("the line of its client", bool(CLIENT_END.fullmatch(said[1])), True)
            same("the line of its address", bool(LISTENING.fullmatch(said[2])), True)
            same("the line of what was sent", bool(SENT.fullmatch(said[3])), True)


def what_a_client_says_is_no_line_of_the_log(field):
    """A value with a space or a quote in it is quoted."""
    relay = field.relay()
    path = '"x relayd: accepted message=9"@example.org'
    with relay.running(), Client(relay) as client:
        same("the greeting", client.reply()[:4], "220 ")
        same("the reply to EHLO", client.say(b"EHLO [192.0.2.1]\r\n")[:4], "250 ")
        same("the reply to MAIL", client.say(f"MAIL FROM:<{path}>\r\n".encode())[:4], "250 ")
        same("the reply to RCPT", client.say(b"RCPT TO:<b@example.org>\r\n")[:4], "250 ")
        same("the reply to RCPT", client.say(b"RCPT TO:<c@example.org>\r\n")[:4], "250 ")
        same("the reply to DATA", client.say(b"DATA\r\n")[:4], "354 ")
        number_of(client.say(TEXT))
        field.arrived(1)
        until("its line", lambda: lines_of(relay, " relayd: accepted message=1 "))
    [line] = lines_of(relay, " relayd: accepted message=1 ")
    quoted = path.replace('"', '\\"')
    same("the client's word", " helo=[192.0.2.1] " in line, True)
    same("the line's end", line.split(" from=", 1)[1], f'"<{quoted}>" to="<b@example.org> <c@example.org>"')


def sixty_four_sessions_stand_side_by_side(field):
    relay = field.relay(sessions_per_client=64)
    with relay.running() as process:
        # What the first client costs is the relay's own.
        with clients_of(relay, 1):
            before = resident(process)
        with clients_of(relay, 64) as clients:
            grown = resident(process) - before
            if grown > 8 << 20:
                raise Difference(f"64 idle sessions cost {grown} octets")
            for client in clients:
                client.ask_for_text()
            # The last first: none waits for another.
            numbers = [number_of(client.say(TEXT)) for client in reversed(clients)]
            same("numbers that were given twice", len(numbers) - len(set(numbers)), 0)
            field.arrived(64)
            until("an empty list", lambda: relay.held() == [])


def the_next_of_one_address_is_sent_away(field):
    """By default 32 connections of one address are accepted; other addresses are served all the same."""
    relay = field.relay()
    with relay.running(), clients_of(relay, 32) as clients:
        with Client(relay) as client:
            same("the 33rd", client.rest(), TOO_MANY)
        with clients_of(relay, 16, "127.0.0.2") as others:
            others[0].hand_in()
        same("QUIT", clients[3].say(b"QUIT\r\n")[:4], "221 ")
        same("after QUIT", clients[3].rest(), b"")
        clients[3].__exit__()
        until("room for one more", lambda: greeted(relay))
        clients[0].hand_in()
        field.arrived(2)


def the_65th_is_sent_away(field):
    relay = field.relay(sessions_per_client=64)
    with relay.running(), clients_of(relay, 32), clients_of(relay, 32, "127.0.0.2") as others:
        for address in ("127.0.0.1", "127.0.0.3"):
            with Client(relay, address) as client:
                same("the 65th", client.rest(), TOO_MANY)
        others[31].hand_in()
        field.arrived(1)


def only_clients_of_the_networks_may_connect(field):
    for number, (networks, inside, outside) in enumerate([
            ('["127.0.0.1"]', "127.0.0.1", "127.0.0.2"), ('["192.0.2.0/24", "127.0.0.2/31"]', "127.0.0.2", "127.0.0.1"),
            ('["127.0.0.0/30"]', "127.0.0.3", "127.0.0.4")]):
        relay = field.relay(f"relay{number}", clients=networks)
        with relay.running(), Client(relay, inside) as client:
            for _ in range(2):
                with Client(relay, outside) as stranger:
                    # What it sends at once is not read.
                    stranger.link.sendall(b"EHLO client.example\r\nQUIT\r\n")
                    same(f"what {outside} is told", stranger.rest(), NO_SERVICE)
            client.begin()
            client.hand_in()
            field.arrived(1)
    relay = field.relay("nobody", clients="[]")
    with relay.running(), Client(relay) as client:
        same("where nobody may connect", client.rest(), NO_SERVICE)


def strangers_take_no_room_from_clients(field):
    """Of 100 that stay 64 are waited for at most, and they have no session: 64 clients are served beside them."""
    relay = field.relay(clients='["127.0.0.1", "127.0.0.2"]', sessions_per_client=64)
    with relay.running(), contextlib.ExitStack() as stack:
        strangers = [stack.enter_context(Client(relay, "127.0.0.3")) for _ in range(100)]
        for _ in range(32):
            for address in ("127.0.0.1", "127.0.0.2"):
                stack.enter_context(Client(relay, address)).begin()
        with Client(relay) as client:
            same("the 65th client", client.rest(), TOO_MANY)
        with Client(relay, "127.0.0.3") as client:
            same("a stranger where all sessions are taken", client.rest(), NO_SERVICE)
        for stranger in strangers:
            same("what each is told", stranger.rest(), NO_SERVICE)


def commands_and_chunks_come_in_one_piece(field):
    relay = field.relay()
    group = b"MAIL FROM:<a@example.org>\r\nRCPT TO:<b@example.org>\r\n"
    with relay.running(), clients_of(relay, 1) as [client]:
        first = group + b"BDAT 7\r\nchunk\r\nBDAT 8 LAST\r\nthe 2nd\n" + group + b"DATA\r\n"
        client.link.sendall(first)
        codes = [client.reply()[:4] for _ in range(7)]
        same("the replies", codes, ["250 "] * 6 + ["354 "])
        client.link.sendall(TEXT + group + b"DATA\r\n")
        # All of them are one write, so that they wake the client once.
        queued, *others = client.link.recv(4096).decode().splitlines(keepends=True)
        same("the reply to the text", number_of(queued) > 1, True)
        same("the replies", [line[:4] for line in others], ["250 ", "250 ", "354 "])
        # Octet by octet.
        client.link.setsockopt(socket.IPPROTO_TCP, socket.TCP_NODELAY, 1)
        for octet in TEXT + b"QUIT\r\n":
            client.link.sendall(bytes([octet]))
        number_of(client.reply())
        same("the end", client.rest(), b"221 relay.example closing\r\n")
        contents = sorted(message.content.split(b"\r\n", 3)[3] for message in field.arrived(3))
    text = TEXT[:-len(b".\r\n")]
    # A next hop that takes chunks is given the first as it came.
    same("the contents", contents, sorted([b"chunk\r\nthe 2nd\n", text, text]))


def a_bare_line_end_is_refused_where_that_is_asked(field):
    """In mail data by DATA and in a last chunk; the session goes on."""
    relay, bare = field.relay(bare_newlines='"refuse"'), b"Subject: bare\r\n\r\nx\n.\r\n"
    with relay.running(), Client(relay) as client:
        client.begin()
        client.ask_for_text()
        same("the reply to the text", client.say(bare + b".\r\n"), "554 bare line end in content")
        same("the reply to MAIL", client.say(b"MAIL FROM:<a@example.org>\r\n")[:4], "250 ")
        same("the reply to RCPT", client.say(b"RCPT TO:<b@example.org>\r\n")[:4], "250 ")
        chunk = b"BDAT %d LAST\r\n%b" % (len(bare), bare)
        same("the reply to the chunk", client.say(chunk), "554 bare line end in content")
        client.hand_in()
        field.arrived(1)


def a_routed_address_is_refused_where_that_is_asked(field):
    """But not from a client in a network that is named."""
    refusal = "553 routed address refused"
    for name, trusted, answer in (("bound", {}, refusal), ("other", {"trusted_clients": '["192.0.2.0/24"]'}, refusal),
                                  ("exempt", {"trusted_clients": '["127.0.0.0/8"]'}, "250 recipient OK")):
        relay = field.relay(name, routed_paths='"refuse"', **trusted)
        with relay.running(), Client(relay) as client:
            client.begin()
            same("the reply to MAIL", client.say(b"MAIL FROM:<a@example.org>\r\n")[:4], "250 ")
            for local in (b"victim%evil.example", b"evil.example!victim", b'"victim@evil.example"',
                          b"@evil.example:victim"):
                same("the reply to a routed RCPT", client.say(b"RCPT TO:<" + local + b"@example.org>\r\n"), answer)
            same("the reply to RCPT", client.say(b"RCPT TO:<b@example.org>\r\n"), "250 recipient OK")


def slow_clients_hold_up_nobody(field):
    relay = field.relay()

    def drip(done):
        with Client(relay) as client:
            client.begin()
            for octet in b"MAIL FROM:<a@example.org>\r\n" * 100:
                client.link.sendall(bytes([octet]))
                if done.wait(1):
                    return

    with relay.running(), clients_of(relay, 5) as [client, *silent]:
        alone = slowest(client, 20)
        silent[0].link.sendall(b"NO")
        silent[1].ask_for_text()
        silent[1].link.sendall(b"x" * 100000)
        # A line that has no end.
        silent[2].link.sendall(b"x" * 10_000_000)
        with beside(drip):
            no_later(client, alone, 60, "slow and silent clients")
        field.arrived(80)


def a_silent_client_is_told_and_left(field):
    relay = field.relay(client_timeout=1)
    with relay.running(), clients_of(relay, 3) as clients:
        clients[1].link.sendall(b"NOO")
        clients[2].ask_for_text()
        clients[2].link.sendall(TEXT[:-3])
        begun = time.monotonic()
        same("what they got", [client.rest() for client in clients], [TIMEOUT] * 3)
        waited = time.monotonic() - begun
        if not 0.5 < waited < 2 + TIMES:
            raise Slow(f"they are waited for {waited:.1f} s")
        same("list", relay.held(), [])
        hand_in(relay)
        field.arrived(1)


def a_client_that_drips_is_told_and_left(field):
    """A command line must be complete within that time, and so must 64 KiB of mail data: an octet now and then doesn't
    help."""
    relay = field.relay(client_timeout=1)
    with relay.running(), clients_of(relay, 2) as clients:
        clients[1].ask_for_text()
        begun, waiting = time.monotonic(), [client.link for client in clients]
        while waiting:
            for link in waiting:
                link.sendall(b"N")
            told = select.select(waiting, [], [], 0.2)[0]
            waiting = [link for link in waiting if link not in told]
            if time.monotonic() > begun + 1 + 2 * TIMES:
                raise Slow(f"{len(waiting)} are still waited for")
        same("what they got", [client.rest() for client in clients], [TIMEOUT] * 2)


def a_line_without_an_end_is_cut_off(field):
    """However fast its octets come; mail data that comes as fast is accepted, though it takes longer than that time."""
    relay = field.relay(client_timeout=1)
    with relay.running(), clients_of(relay, 2) as [line, text]:
        text.ask_for_text()
        rounds = 0
        for _ in range(10):
            if not select.select([line.link], [], [], 0)[0]:
                line.link.sendall(b"N" * 70_000)
                rounds += 1
            text.link.sendall((b"x" * 68 + b"\r\n") * 1000)
            time.sleep(0.3)
        if rounds == 10:
            raise Slow("it isn't cut off")
        same("what it got", line.rest(), TIMEOUT)
        number_of(text.say(b".\r\n"))
        field.arrived(1)


def a_client_that_reads_nothing_is_cut_off(field):
    relay = field.relay(client_timeout=1)
    with relay.running(), Client(relay) as client:
        client.link.setsockopt(socket.SOL_SOCKET, socket.SO_RCVBUF, 1 << 16)
        client.link.setblocking(False)

        def is_gone():
            try:
                client.link.send(b"EHLO x\r\n" * 1000)
            except BlockingIOError:
                pass
            except ConnectionError:
                return True
            return False

        # The system takes some megabytes of replies for it, by and by; the time counts from the last of them.
        until("its connection is closed", is_gone, 3 * PATIENCE)
        hand_in(relay)
        field.arrived(1)


def replies_that_wait_stay_whole_and_in_order(field):
    """A client that reads late, after the relay has stopped reading from it, gets each reply; also those to messages,
    which are held back for what follows them in a block."""
    relay, units = field.relay(), 100
    group, taken = b"MAIL FROM:<a@example.org>\r\nRCPT TO:<b@example.org>\r\n", b"250 sender OK\r\n250 recipient OK\r\n"
    offers = b"250-relay.example\r\n250-PIPELINING\r\n250-CHUNKING\r\n250 DSN\r\n"
    unit = b"EHLO x\r\n" * 5000 + group + b"BDAT 6 LAST\r\nmail\r\n" + group + b"RSET\r\n"
    told = offers * 5000 + taken + b"250 queued as #\r\n" + taken + b"250 OK\r\n"
    with relay.running("--quiet"), Client(relay) as client:
        same("the greeting", client.reply()[:4], "220 ")
        for option in (socket.SO_RCVBUF, socket.SO_SNDBUF):
            client.link.setsockopt(socket.SOL_SOCKET, option, 1 << 16)
        # For all that is sent, which takes a while on a busy machine.
        client.link.settimeout(6 * PATIENCE)
        sender = threading.Thread(target=client.link.sendall, args=(unit * units + b"QUIT\r\n",))
        sender.start()
        # It is held up, since more waits for the client than the system takes.
        sender.join(0.5)
        same("the sender waits", sender.is_alive(), True)
        replies = client.rest()
        sender.join()
        numbers = [int(number) for number in re.findall(rb"queued as (\d+)\r\n", replies)]
        same("the numbers", numbers, sorted(set(numbers)))
        # Not by `same`, which would print all of them.
        if re.sub(rb"queued as \d+", b"queued as #", replies) != told * units + b"221 relay.example closing\r\n":
            raise Difference("the replies aren't those to what was sent, in order")
        field.arrived(units)


def a_flood_that_nobody_reads_costs_nothing(field):
    """The client of the flood reads none of its replies, so the relay stops reading its octets."""
    relay = field.relay()

    def flood(done):
        with Client(relay) as client:
            # So the system takes few replies for it.
            client.link.setsockopt(socket.SOL_SOCKET, socket.SO_RCVBUF, 1 << 16)
            client.link.setblocking(False)
            while not done.wait(0.001):
                with contextlib.suppress(BlockingIOError):
                    client.link.send(b"NOOP\r\n" * 10000)

    with relay.running() as process, clients_of(relay, 1) as [client]:
        alone = slowest(client, 20)
        before = resident(process)
        with beside(flood), beside(flood):
            no_later(client, alone, 60, "two floods")
            # The system holds some megabytes of octets, which are answered first.
            comes_to_rest(process, "beside floods that are held up")
            grown = resident(process) - before
        if grown > 4 << 20:
            raise Difference(f"two floods cost {grown} octets")
        field.arrived(80)


def the_reply_to_quit_arrives_whole(field):
    """What follows QUIT is never looked at, and yet no reset destroys the reply."""
    relay = field.relay()
    with relay.running():
        for size in [0, 6, 60000] * 10:
            with Client(relay) as client:
                client.begin()
                client.link.sendall(b"QUIT\r\n" + b"NOOP\r\n" * (size // 6))
                same(f"QUIT with {size} octets after", client.rest(), b"221 relay.example closing\r\n")


def the_end_of_the_input_leaves_what_was_answered(field):
    relay = field.relay()
    with relay.running(), clients_of(relay, 1) as [client]:
        client.link.sendall(b"NOOP\r\n" * 5000)
        client.link.shutdown(socket.SHUT_WR)
        same("the replies", client.rest().count(b"\r\n"), 5000)


def two_runs_send_to_each_other(field):
    first, second = field.relay("first", "first.example"), field.relay("second", "second.example")
    sink = ("next.example", field.sink.port)
    first.route({"first.example": sink, "second.example": ("second.example", second.port)})
    second.route({"second.example": sink, "first.example": ("first.example", first.port)})
    with first.running(), second.running(), clients_of(first, 1) as [to_first], clients_of(second, 1) as [to_second]:
        for _ in range(20):
            to_first.hand_in("b@second.example")
            to_second.hand_in("b@first.example")
        field.arrived(40)
        until("two empty lists", lambda: first.held() == [] and second.held() == [])


def room_is_made_without_a_restart(field):
    """Four times as much as the spool may hold, as mail is relayed at once."""
    relay = field.relay(spool_limit=100000)

    def is_taken():
        return client.say(b"x" * 9000 + b"\r\n.\r\n").startswith("250 ")

    with relay.running(), clients_of(relay, 1) as [client]:
        for number in range(1, 41):
            client.ask_for_text()
            while not is_taken():
                time.sleep(0.05)
                client.ask_for_text()
            field.sink.wait_for(number, PATIENCE)
        field.arrived(40)
        until("an empty list", lambda: relay.held() == [])


def a_kill_loses_nothing(field):
    """With SESSIONS sessions, with relaying and, because of the spool's limit and a clock twenty times as fast, with up
    to twenty compactions per second. No message is relayed again whose reply was read. It is killed more often, and
    lives longer each time, where it is too slow for enough mail and compactions."""
    relay = field.relay(spool_limit=200000, sessions_per_client=64, client_timeout=3600)
    shim(field, "run_clocks", relay, FASTER="20")
    chance, answered, kill, ends = random.Random(43), {}, 0, time.monotonic() + 6 * PATIENCE

    def compactions():
        return len(lines_of(relay, "relayd: compacted"))

    def is_enough():
        return len(answered) >= 2 * KILLS and compactions() >= KILLS // 4

    while kill < KILLS or not is_enough() and time.monotonic() < ends:
        process = relay.begin()
        feeders = [Feeder(relay, (kill * SESSIONS + at) * 10000) for at in range(SESSIONS)]
        for feeder in feeders:
            feeder.start()
        time.sleep(chance.uniform(0.05, 0.6) * max(1, kill / KILLS))
        process.kill()
        process.communicate()
        for feeder in feeders:
            feeder.join()
            answered.update(feeder.answered)
        held, gone = {row[0] for row in relay.held()}, tokens_at(field.sink)
        lost = [token for token, number in answered.items() if number not in held and token not in gone]
        same(f"messages lost after kill {kill}", lost, [])
        kill += 1
    same("numbers given twice", len(answered) - len(set(answered.values())), 0)
    if not is_enough():
        raise Slow(f"only {len(answered)} messages were answered 250, and {compactions()} compactions")
    with relay.running():
        until("an empty list", lambda: relay.held() == [])
    same("messages that never came", set(answered) - tokens_at(field.sink), set())
    repeats, unasked = repeats_at(field.sink)
    same("messages that came again though their reply was heard", unasked, [])
    # Of those whose reply was cut there are at most as many at a kill as the hop has attempts.
    if repeats > 4 * kill:
        raise Difference(f"{repeats} messages came again")


def few_descriptors_keep_clients_waiting_alone(field):
    """200 connections, 40 at a time, with 32 file descriptors in all."""
    relay, firsts = field.relay(sessions_per_client=64), []

    def visit():
        for _ in range(5):
            with Client(relay) as client:
                firsts.append(client.reply()[:4])
                time.sleep(0.02)

    def few():
        resource.setrlimit(resource.RLIMIT_NOFILE, (32, 32))

    with relay.running(preexec_fn=few) as process:
        threads = [threading.Thread(target=visit) for _ in range(40)]
        for thread in threads:
            thread.start()
        for thread in threads:
            thread.join()
        same("connections that heard something", len(firsts), 200)
        same("what they heard", set(firsts) <= {"220 ", "421 "}, True)
        with contextlib.ExitStack() as stack:
            for _ in range(40):
                stack.enter_context(Client(relay))
            comes_to_rest(process, "without descriptors")
        until("room for one more", lambda: greeted(relay))
        comes_to_rest(process, "after 240 connections")
        hand_in(relay)
        field.arrived(1)


def its_faults_end_it_before_it_is_ready(field):
    relay = field.relay()
    for key, value in [("client_timeout", 0), ("client_timeout", 3601), ("client_timeout", '"300"'),
                       ("sessions_per_client", 65), ("sessions_per_client", 0), ("attempts_per_hop", 65),
                       ("recipients_per_attempt", 101), ("recipients_per_attempt", 0),
                       ("log", '"JSON"'), ("log", 1)]:
        bad = field.relay(f"{key}-{value}".replace('"', ""), client_timeout=300)
        bad.limits = {"client_timeout": 300, key: value}
        bad.route({"example.org": ("next.example", field.sink.port)})
        same(f"{key} = {value}", bad.refused("run"), (1, f"relayd: config BadValue {key}"))
        # The other subcommands don't look at it.
        same("list", bad.held(), [])
    for value in ('"127.0.0.1"', '["127.0.0.256"]', '[5]', '["192.0.2.9/24"]'):
        bad = field.relay("clients", clients=value)
        same(f"clients = {value}", bad.refused("run"), (1, "relayd: config BadValue clients"))
        shutil.rmtree(bad.folder)
    with socket.create_server(("127.0.0.1", relay.port)):
        same("a port that is taken", relay.refused("run"), (1, "relayd: socket"))
    ended = subprocess.run(relay.words("run", "--quiet"), stderr=subprocess.PIPE, timeout=PATIENCE,
                           preexec_fn=lambda: os.close(1))
    same("without standard output", (ended.returncode, ended.stderr), (1, b"relayd: output\n"))
    with relay.running():
        for words in (["run"], ["compact"], ["push"]):
            same(f"{words[0]} beside run", relay.refused(*words), LOCKED)
    relay.forget()
    same("no spool", relay.refused("run"),
         (1, 'relayd: spool NotASpool\nrelayd: run "relayd init --config {}" once'.format(relay.file)))


def what_is_risky_is_told_first(field):
    """With the lines of `check`, where parts that `run` ignores are warnings. Errors follow the fault's line."""
    relay = field.relay(tls="true")
    findings = ["4:1: warning: unknown key tls = true: it has no effect; remove it",
                '5:1: warning: no route for the relay\'s own name, host = "relay.example": mail to its postmaster is '
                "refused (RFC 5321, 4.5.1); add a route for host"]
    with relay.running():
        until("the line after them", lambda: lines_of(relay, "relayd: listening "))
        *told, last = relay.log.read_text().splitlines()
        same("findings", told, [f"{relay.file}:{it}" for it in findings])
        same("the line after them", bool(LISTENING.fullmatch(last.partition(" ")[2])), True)
    bad = field.relay("bad")
    bad.limits = {"client_timeout": 0}
    bad.route({"example.org": ("next.example", field.sink.port)})
    told = bad.ended(PATIENCE, "run").stderr.decode().splitlines()
    same("a fault", told[:2], ["relayd: config BadValue client_timeout",
                               f"{bad.file}:4:1: error: client_timeout = 0: write a number of seconds from 1 to 3600, "
                               "such as client_timeout = 300"])


def an_address_that_comes_later_is_waited_for(field):
    """As while a machine boots: it is tried each second, for a minute; one line of the log says so."""
    relay = field.relay()
    shim(field, "later_address", relay, TRIES="59")
    with relay.running():
        hand_in(relay)
        field.arrived(1)
        until("a line of it", lambda: lines_of(relay, " relayd: address-awaited addr="))
    same("lines of it", len(lines_of(relay, " relayd: address-awaited addr=")), 1)
    relay.environment.update(TRIES="60")
    same("one that doesn't come", relay.refused("run")[0], 1)
    told = relay.refused("run", "--quiet")
    same("one that doesn't come, told quietly", told, (1, "relayd: socket"))


def a_closed_standard_error_stops_nothing(field):
    def close_two():
        os.close(0)
        os.close(2)

    relay = field.relay()
    with relay.running(preexec_fn=close_two):
        hand_in(relay)
        same("the content", behind_mark(field.arrived(1)[0].content, "relay.example", 1), CONTENT)
        until("an empty list", lambda: relay.held() == [])
    reader, writer = os.pipe()
    try:
        with relay.running(stderr=writer):
            os.close(reader)
            hand_in(relay)
            hand_in(relay)
            field.arrived(2)
    finally:
        os.close(writer)


ROWS = [
    a_message_comes_in_and_goes_on,
    its_log_says_when_and_quiet_says_nothing,
    what_is_risky_is_told_first,
    what_a_client_says_is_no_line_of_the_log,
    sixty_four_sessions_stand_side_by_side,
    the_next_of_one_address_is_sent_away,
    the_65th_is_sent_away,
    only_clients_of_the_networks_may_connect,
    strangers_take_no_room_from_clients,
    commands_and_chunks_come_in_one_piece,
    a_bare_line_end_is_refused_where_that_is_asked,
    a_routed_address_is_refused_where_that_is_asked,
    slow_clients_hold_up_nobody,
    a_silent_client_is_told_and_left,
    a_client_that_drips_is_told_and_left,
    a_line_without_an_end_is_cut_off,
    a_client_that_reads_nothing_is_cut_off,
    replies_that_wait_stay_whole_and_in_order,
    a_flood_that_nobody_reads_costs_nothing,
    the_reply_to_quit_arrives_whole,
    the_end_of_the_input_leaves_what_was_answered,
    two_runs_send_to_each_other,
    room_is_made_without_a_restart,
    a_kill_loses_nothing,
    few_descriptors_keep_clients_waiting_alone,
    its_faults_end_it_before_it_is_ready,
    an_address_that_comes_later_is_waited_for,
    a_closed_standard_error_stops_nothing,
]


play_rows("run", ROWS)
