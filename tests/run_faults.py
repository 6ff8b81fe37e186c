#!/usr/bin/env python3
"""Runs `relayd run` over 127.0.0.1 with failing devices, clocks that are set, or few file descriptors, and checks what
it drops, when it goes on, and what it logs. Ends at the first difference.

    tests/run_faults.py build/relayd [ROW..]

Runs the named rows, or all. Time limits are multiplied by the environment variable TIMES (2).
"""
import contextlib
import errno
import os
import re
import resource
import signal
import subprocess
import sys
import threading
import time

sys.dont_write_bytecode = True

from mail_checks import hand_in
from relay_program import Difference, PATIENCE, Slow, free_port, same, until
from running_relay import SOON, TEXT, TIMEOUT, Client, clients_of, comes_to_rest, greeted
from running_relay import hop_that_falls_silent, in_a_process, lines_of, number_of, play_rows, shim, switches

DAY = 86400
NO_ROOM = b"421 relay.example insufficient system storage, closing\r\n"
# So the spool is longer than the log, which may not grow either then.
LONG = b"Subject: long\r\n\r\n" + b"x" * 70 * 300 + b"\r\n.\r\n"


def refused_or_lost(client):
    """Submits a message. Returns whether it didn't get a 250."""
    try:
        client.ask_for_text()
        return not client.say(TEXT).startswith("250 ")
    except (Difference, ConnectionError):
        return True


def without_signals():
    """A file that may not grow is an error of the write, and no signal."""
    signal.signal(signal.SIGXFSZ, signal.SIG_IGN)


def fill(process, relay):
    """Lets no file of the process grow."""
    size = max(relay.spool.stat().st_size, relay.second.stat().st_size)
    resource.prlimit(process.pid, resource.RLIMIT_FSIZE, (size, resource.RLIM_INFINITY))


def empty(process):
    resource.prlimit(process.pid, resource.RLIMIT_FSIZE, (resource.RLIM_INFINITY, resource.RLIM_INFINITY))


# The rows. Each says in its name what holds.


def a_full_device_closes_all_and_goes_on_with_room(field):
    relay = field.relay()
    with relay.running(preexec_fn=without_signals) as process, clients_of(relay, 3) as clients:
        clients[0].hand_in(text=LONG)
        field.arrived(1)
        until("an empty list", lambda: relay.held() == [])
        fill(process, relay)
        same("a message without room", refused_or_lost(clients[0]), True)
        same("what the others hear", [client.rest() for client in clients[1:]], [b"", b""])
        until("a line of it", lambda: len(lines_of(relay, "device-failed")) == 1)
        # Who comes meanwhile is told so.
        with Client(relay) as client:
            same("what a client hears", client.rest(), NO_ROOM)
        empty(process)
        until("a greeting", lambda: greeted(relay))
        until("a line that it is open", lambda: len(lines_of(relay, "relayd: reopened")) == 1)
        with Client(relay) as client:
            client.begin()
            client.hand_in()
        field.arrived(1)
        until("an empty list", lambda: relay.held() == [])
        comes_to_rest(process, "after a device that had failed")


def the_spool_stays_closed_while_there_is_no_room(field):
    """The room is tested after 1, 2 and 4 seconds, and nothing begins until there is some."""
    relay = field.relay()
    with relay.running(preexec_fn=without_signals) as process:
        hand_in(relay, LONG)
        field.arrived(1)
        until("an empty list", lambda: relay.held() == [])
        fill(process, relay)
        with Client(relay) as client:
            client.begin()
            same("a message without room", refused_or_lost(client), True)
        begun = time.monotonic()
        while time.monotonic() < begun + 4:
            with Client(relay) as client:
                same("what a client hears", client.rest(), NO_ROOM)
            time.sleep(0.5)
        comes_to_rest(process, "without room")
        same("lines of it", len(lines_of(relay, "device-failed")), 1)
        empty(process)
        until("a greeting", lambda: greeted(relay))
        hand_in(relay)
        field.arrived(1)
        until("an empty list", lambda: relay.held() == [])


@contextlib.contextmanager
def small_disk(field, kilobytes, name="small"):
    """Makes a relay with its spool on a disk of its own, of this size, and the file that uses up its room; None if this
    user may not mount one."""
    folder = field.folder / name
    folder.mkdir()
    mounted = subprocess.run(["mount", "-t", "tmpfs", "-o", f"size={kilobytes}k", "none", folder], capture_output=True)
    if mounted.returncode != 0:
        print("run_faults: a disk of its own can't be mounted here: the row is skipped")
        yield None, None
        return
    try:
        relay = field.relay(name)
        relay.log = field.folder / f"{name}.log"
        yield relay, folder / "others"
    finally:
        subprocess.run(["umount", "-l", folder], check=True)


def take_room(others, left):
    """Fills a disk with a foreign file, except for so many octets."""
    with others.open("ab", buffering=0) as file, contextlib.suppress(OSError):
        while True:
            file.write(bytes(4096))
    os.truncate(others, max(others.stat().st_size - left, 0))


def copies_at(sink):
    """Returns how often the sink has got each number."""
    numbers = [int(re.search(rb" id (\d+);", message.content)[1]) for message in list(sink.messages)]
    return {number: numbers.count(number) for number in numbers}


def came_thrice(field):
    return [number for number, count in copies_at(field.sink).items() if count > 2]


def feed_beside(relay, seconds, big):
    """Submits small messages for so long, one after another on a connection, and on request beside a client that offers
    what doesn't fit. Returns the numbers of those that got a 250."""
    numbers = []
    with in_a_process(offer_what_does_not_fit, relay) if big else contextlib.nullcontext():
        ends = time.monotonic() + seconds
        while time.monotonic() < ends:
            with contextlib.suppress(Difference, OSError), Client(relay) as client:
                client.begin()
                while time.monotonic() < ends:
                    client.ask_for_text()
                    numbers.append(number_of(client.say(TEXT)))
                    time.sleep(0.05)
    return numbers


def offer_what_does_not_fit(relay):
    """Offers messages of 308,000 octets without end, on a new connection after each fault."""
    text = b"Subject: big\r\n\r\n" + b"x" * 70 * 4400 + b"\r\n.\r\n"
    while True:
        with contextlib.suppress(Difference, OSError), Client(relay) as client:
            client.begin()
            while True:
                client.ask_for_text()
                client.say(text)


def feed_while_others_offer(relay):
    """Submits small messages alone and then beside a client that offers what doesn't fit, and requires that at least
    half as many get through; returns the numbers of all. Other programs on a busy machine take their share at times, so
    there are up to three rounds."""
    numbers, rounds = [], []
    for _ in range(3):
        alone = feed_beside(relay, 5, big=False)
        crowded = feed_beside(relay, 15, big=True)
        numbers += alone + crowded
        rounds.append((len(crowded), len(alone)))
        if len(crowded) / 15 >= len(alone) / 5 / 2:
            return numbers
    raise Slow(f"messages in 15 s beside it, and in 5 s alone: {rounds}")


def what_doesnt_fit_costs_others_nothing(field):
    """On a disk of 300 KB with 190 KB free, of which a client offers more: no message is copied again and again, and
    the others go on."""
    with small_disk(field, 300) as (relay, others):
        if relay is None:
            return
        others.write_bytes(bytes(110 * 1024))
        with relay.running() as process:
            numbers = feed_while_others_offer(relay)
            until("an empty list", lambda: relay.held() == [], 60)
            copies = copies_at(field.sink)
            same("messages that were lost", set(numbers) - set(copies), set())
            same("messages that came thrice", came_thrice(field), [])
            comes_to_rest(process, "after what didn't fit")
            # With room the state ends, and what didn't fit does.
            others.unlink()
            subprocess.run(["mount", "-o", "remount,size=32m", others.parent], check=True)
            until("mail of any size", lambda: takes(relay, 300), 60)
        field.sink.take_all()


def takes(relay, kilobytes):
    """Returns whether a message of this size is accepted."""
    with contextlib.suppress(Difference, OSError), Client(relay) as client:
        client.begin()
        client.ask_for_text()
        text = b"Subject: big\r\n\r\n" + (b"x" * 70 + b"\r\n") * (kilobytes * 14) + b".\r\n"
        return client.say(text).startswith("250 ")
    return False


def a_disk_that_stays_full_for_ten_minutes_copies_nothing_twice_over(field):
    """With a clock sixty times as fast: the reserved room lets queued mail leave; when that is used up by others,
    nothing begins; mail flows again when there is room."""
    with small_disk(field, 16 * 1024) as (relay, others):
        if relay is None:
            return
        shim(field, "run_clocks", relay, FASTER="60")
        with relay.running() as process:
            numbers = feed_beside(relay, 1, big=False)
            take_room(others, 8 * 1024)
            same("a message without room", takes(relay, 300), False)
            until("an empty list", lambda: relay.held() == [], 60)
            copies = copies_at(field.sink)
            same("messages that were lost", set(numbers) - set(copies), set())
            # What was given up serves what comes meanwhile, until the others take that too.
            until("a greeting", lambda: greeted(relay), 60)
            hand_in(relay)
            until("an empty list", lambda: relay.held() == [], 60)
            take_room(others, 0)
            ends = time.monotonic() + 10
            while time.monotonic() < ends:
                takes(relay, 1)
                time.sleep(0.2)
            comes_to_rest(process, "on a full disk")
            same("messages that came thrice", came_thrice(field), [])
            failures = len(lines_of(relay, "device-failed"))
            if failures > 3:
                raise Difference(f"the device fails {failures} times")
            others.unlink()
            until("mail of any size", lambda: takes(relay, 300), 120)
            until("an empty list", lambda: relay.held() == [], 60)
            same("messages that came thrice", came_thrice(field), [])
        field.sink.take_all()


def while_no_attempt_may_begin_it_sleeps(field):
    """With a clock twenty times as fast: queued mail wakes nobody while attempts wait for room, but the test of the
    room every 5 seconds does."""
    with small_disk(field, 16 * 1024) as (relay, others):
        if relay is None:
            return
        port = free_port()
        relay.route({"example.org": ("next.example", field.sink.port), "example.net": ("away.example", port)})
        shim(field, "run_clocks", relay, FASTER="20")
        with relay.running() as process:
            hand_in(relay, recipients=("c@example.net",))
            until("a next hop that is left alone", lambda: told(relay, "retry_in=60s"))
            take_room(others, 8 * 1024)
            same("a message without room", takes(relay, 300), False)
            until("a greeting", lambda: greeted(relay), 60)
            take_room(others, 0)
            # It isn't left alone any more, and the minute is over in which what is due was listed last.
            time.sleep(4)
            before = switches(process)
            time.sleep(4)
            # 16 tests of the room.
            if switches(process) > before + 100:
                raise Difference(f"it wakes up {switches(process) - before} times in 80 seconds of its clock")
            same("attempts while there is no room", len(told(relay, "deferred message")), 1)
            others.unlink()
            until("room", lambda: told(relay, "shortage-ended"))


def what_was_answered_stays_behind_a_full_device(field):
    """Four clients submit messages while the device fills up and has room again, many times."""
    relay, answered, done = field.relay(), [], threading.Event()

    def feed():
        while not done.is_set():
            with contextlib.suppress(Difference, OSError), Client(relay) as client:
                client.begin()
                while not done.is_set():
                    client.ask_for_text()
                    answered.append(number_of(client.say(LONG)))
                    # No more than the sink takes meanwhile.
                    time.sleep(0.01)

    with relay.running(preexec_fn=without_signals) as process:
        threads = [threading.Thread(target=feed) for _ in range(4)]
        for thread in threads:
            thread.start()
        for _ in range(3):
            time.sleep(0.3)
            fill(process, relay)
            time.sleep(0.3)
            empty(process)
            time.sleep(1)
        done.set()
        for thread in threads:
            thread.join()
        until("an empty list", lambda: relay.held() == [])
        same("numbers that were given twice", len(answered) - len(set(answered)), 0)
        gone = {int(re.search(rb" id (\d+);", message.content)[1]) for message in field.sink.take_all()}
        same("messages that were lost", set(answered) - gone, set())
        if not lines_of(relay, "device-failed"):
            raise Difference("the device hasn't failed")


def told(relay, text):
    """Returns the lines of the log that contain a text, without their times."""
    return [line.split(" relayd: ", 1)[1] for line in lines_of(relay, text)]


def a_failure_has_one_line_with_its_reason_and_file(field):
    """The reason is the system's error of a test write beside the spool; one line says when there is room."""
    with small_disk(field, 16 * 1024) as (relay, others):
        if relay is None:
            return
        with relay.running():
            take_room(others, 0)
            same("a message without room", takes(relay, 300), False)
            until("a line of it", lambda: told(relay, "device-failed"))
            reason, seconds = os.strerror(errno.ENOSPC), 1
            same("it", told(relay, "device-failed"),
                 [f'device-failed reason="{reason}" file={relay.spool} retry_in={seconds}s'])
            until("a greeting", lambda: greeted(relay), 60)
            same("lines of its end, without room", told(relay, "shortage-ended"), [])
            others.unlink()
            until("a line of its end", lambda: told(relay, "shortage-ended"), 60)
            until("mail of any size", lambda: takes(relay, 300), 60)
            same("lines of its end", told(relay, "shortage-ended"), ["shortage-ended"])
            same("lines of failures", len(told(relay, "device-failed")), 1)
        field.sink.take_all()


def a_reason_that_was_not_seen_is_left_out(field):
    """One write of the spool fails, and none beside it."""
    relay = field.relay()
    shim(field, "device_calls", relay, CALLS=str(field.folder / "calls"), FULL_WRITE="1")
    with relay.running():
        with Client(relay) as client:
            client.begin()
            same("a message", refused_or_lost(client), True)
        until("a line of it", lambda: told(relay, "device-failed"))
        same("it", told(relay, "device-failed"), [f"device-failed file={relay.spool} retry_in=1s"])
        until("a greeting", lambda: greeted(relay))
        lines = [f"device-failed file={relay.spool} retry_in=1s", "reopened", "shortage-ended"]
        until("the lines then", lambda: [line for line in told(relay, "relayd")
                                         if "client" not in line and "listening" not in line] == lines)
        hand_in(relay)
        field.arrived(1)


def a_file_that_keeps_room_and_fails_ends_nothing(field):
    """It counts as no room, for which the relay waits."""
    relay, failing = field.relay(), field.folder / "failing"
    shim(field, "device_calls", relay, CALLS=str(field.folder / "calls"), FULL_WRITE="1", FAILED_ROOM=str(failing))
    with relay.running():
        failing.touch()
        with Client(relay) as client:
            client.begin()
            same("a message", refused_or_lost(client), True)
        until("a line of it", lambda: told(relay, "device-failed"))
        same("it", told(relay, "device-failed"),
             [f'device-failed reason="{os.strerror(errno.EIO)}" file={relay.spool} retry_in=1s'])
        # Its first two tests fail.
        time.sleep(4)
        with Client(relay) as client:
            same("what a client hears", client.rest(), NO_ROOM)
        failing.unlink()
        until("a greeting", lambda: greeted(relay))
        hand_in(relay)
        field.arrived(1)


def a_compaction_whose_last_write_is_said_to_have_failed_ends_nothing(field):
    """The write was done or it wasn't; either way the spool opens again and holds what it did."""
    for write in ("done", "lost"):
        relay = field.relay(write, spool_limit=10000, more={"example.net": ("away.example", free_port())})
        shim(field, "device_calls", relay, CALLS=str(field.folder / f"{write}-calls"), HEAD_WRITE=write)
        with relay.running():
            with clients_of(relay, 1) as [client]:
                kept = client.hand_in("c@example.net")
                client.hand_in(text=b"Subject: long\r\n\r\n" + b"x" * 6000 + b"\r\n.\r\n")
                field.arrived(1)
                until("a line of it", lambda: told(relay, "device-failed"))
            same(f"{write}: it", told(relay, "device-failed"), [f"device-failed file={relay.second} retry_in=1s"])
            until("a greeting", lambda: greeted(relay))
            same(f"{write}: what is queued", [row[0] for row in relay.held()], [kept])
            hand_in(relay)
            field.arrived(1)


def a_sync_that_fails_ends_it(field):
    # The first two syncs are those of the opening, the third that of the other file, which is cut; an accept has two.
    for failed in [{"FAILED_SYNC": "3"}, {"FAILED_SYNC": "4"}, {"FAILED_SYNC": "5"},
                   {"FULL_WRITE": "1", "FAILED_SYNC": "4"}, {"FULL_WRITE": "1", "FAILED_SYNC": "5"},
                   {"FULL_WRITE": "1", "FAILED_SYNC": "7"}]:
        name = "-".join(f"{key}{value}" for key, value in failed.items())
        relay = field.relay(name)
        shim(field, "device_calls", relay, CALLS=str(field.folder / f"{name}-calls"), **failed)
        process = relay.begin()
        try:
            # The third fails before a client is heard.
            if failed.get("FAILED_SYNC") != "3":
                with Client(relay) as client:
                    client.begin()
                    same(f"{name}: a message", refused_or_lost(client), True)
            same(f"{name}: its end", process.wait(PATIENCE), 1)
            lines = relay.log.read_text().splitlines()
            same(f"{name}: its last lines", [lines[-2].partition("Z ")[2], lines[-1]],
                 ["relayd: stopping reason=device", "relayd: device"])
        finally:
            process.kill()
            process.communicate()


def a_clock_that_is_set_holds_up_nothing_else(field):
    """Deferred mail is tried when the clock has passed its time, in whatever way, and new mail at once."""
    relay, shift = field.relay(), field.folder / "shift"
    shim(field, "run_clocks", relay, SHIFT=str(shift), FASTER="60")
    busy = {"<b@example.org>": "450 mailbox busy"}
    for days in (1, -1):
        shift.write_text("0")
        with relay.running() as process:
            field.sink.manners.refusals = busy
            hand_in(relay)
            until("a message that is put off", lambda: [row[3] > time.time() for row in relay.held()] == [True])
            field.sink.manners.refusals = {}
            if days < 0:
                shift.write_text(str(-DAY))
                # A minute of its clock, and more.
                time.sleep(2)
                hand_in(relay, recipients=("c@example.org",))
                field.arrived(1, SOON)
                # The next hop has the message before its relay is recorded.
                until("the other one waits", lambda: [row[2] for row in relay.held()] == ["<b@example.org>"])
                comes_to_rest(process, "with a clock that is set back")
            shift.write_text(str(DAY))
            field.arrived(1)
            until("an empty list", lambda: relay.held() == [])


def what_was_put_off_is_tried_at_its_moment(field):
    """And not up to a minute late: the clocks go on, and the node says when."""
    relay, shift = field.relay(), field.folder / "shift"
    shim(field, "run_clocks", relay, SHIFT=str(shift))
    shift.write_text("0")
    with relay.running() as process:
        field.sink.manners.refusals = {"<b@example.org>": "450 mailbox busy"}
        hand_in(relay)
        until("a message that is put off", lambda: [row[3] > time.time() for row in relay.held()] == [True])
        field.sink.manners.refusals = {}
        [due] = [row[3] for row in relay.held()]
        # Three seconds before its moment. Another client's mail lets the relay look at the clock.
        shift.write_text(str(int(due - time.time()) - 3))
        hand_in(relay, recipients=("c@example.org",))
        if not field.sink.wait_for(1, SOON):
            raise Slow("the other client's mail isn't relayed")
        # Both have come by then, in whatever order on a busy machine.
        field.arrived(2, 3 + 2 * SOON)
        same("early", time.time() + float(shift.read_text()) >= due, True)
        until("an empty list", lambda: relay.held() == [])
        comes_to_rest(process, "after what was put off")


def a_next_hop_is_waited_for_by_what_it_was_told(field):
    """Five minutes for the greeting and the reply to MAIL, two for the reply to DATA, three if it takes no mail data,
    and ten for the reply to that (RFC 5321, section 4.5.3.2), with clocks a hundred times as fast. One of them replies
    to MAIL and RCPT too early, and so gets these with DATA."""
    greeted, agreed = [b"220 hop.example", b"250 hop.example"], [b"250 ok"] * 2
    asked = greeted + agreed + [b"354 go on"]
    # The long one first, so that the others don't wait for it.
    silent = {"text": (180, asked), "reply": (600, asked), "greeting": (300, []), "mail": (300, greeted),
              "data": (120, greeted + agreed), "early": (120, [greeted[0], b"\r\n".join([greeted[1], *agreed])])}
    with contextlib.ExitStack() as stack:
        ports = {name: stack.enter_context(hop_that_falls_silent(*replies)) for name, (_, replies) in silent.items()}
        more = {f"{name}.example": (f"{name}.hop", port) for name, port in ports.items()}
        relay = field.relay(more=more, max_content=1 << 24, spool_limit=1 << 30, client_timeout=3600)
        shim(field, "run_clocks", relay, FASTER="100")
        with relay.running(), clients_of(relay, 1) as [client]:
            begun, waited = {}, {}
            for name in silent:
                begun[name] = time.monotonic()
                # More than the system takes on the way.
                client.hand_in(f"b@{name}.example", b"x" * 70 * 200000 + b"\r\n.\r\n" if name == "text" else TEXT)
            while len(waited) < len(silent):
                for name in silent:
                    if name not in waited and lines_of(relay, f" hop={name}.hop addr="):
                        waited[name] = time.monotonic() - begun[name]
                time.sleep(0.02)
                if time.monotonic() > begun["data"] + 6 + PATIENCE:
                    raise Slow(f"of the silent ones only {sorted(waited)} are lost")
            same("losses", len(lines_of(relay, " status=deferred reason=timeout")), len(silent))
            early = {name: seconds for name, seconds in waited.items() if seconds < silent[name][0] / 100 - 0.05}
            same("next hops that are lost early", early, {})
            late = {name: seconds for name, seconds in waited.items() if seconds > silent[name][0] / 100 + 5 * SOON}
            same("next hops that are lost late", late, {})
            del waited["text"]
            order = sorted(waited, key=waited.get)
            same("the first of the others' losses", {*order[:2]}, {"data", "early"})
            same("the last of them", order[-1], "reply")
            same("what waits", len(relay.held()), len(silent))


def a_thousand_connections_find_few_descriptors(field):
    """In ten seconds, with 32 file descriptors in all: each is greeted or refused, and mail goes on meanwhile."""
    relay, firsts = field.relay(sessions_per_client=64), []

    def visit():
        for _ in range(50):
            with Client(relay) as client:
                firsts.append(client.reply()[:4])
                time.sleep(0.01)

    def few():
        resource.setrlimit(resource.RLIMIT_NOFILE, (32, 32))

    with relay.running(preexec_fn=few) as process, clients_of(relay, 1) as [client]:
        threads = [threading.Thread(target=visit) for _ in range(20)]
        begun = time.monotonic()
        for thread in threads:
            thread.start()
        client.hand_in()
        field.arrived(1)
        for thread in threads:
            thread.join()
        took = time.monotonic() - begun
        same("connections that heard something", len(firsts), 1000)
        same("what they heard", set(firsts) <= {"220 ", "421 "}, True)
        if took > 5 * SOON:
            raise Slow(f"a thousand connections take {took:.1f} s")
        comes_to_rest(process, "after a thousand connections")


def clients_leave_four_descriptors_for_attempts(field):
    def few():
        resource.setrlimit(resource.RLIMIT_NOFILE, (32, 32))

    relay = field.relay(sessions_per_client=64)
    with relay.running(preexec_fn=few) as process, contextlib.ExitStack() as stack:
        clients = [stack.enter_context(Client(relay)) for _ in range(40)]
        clients[0].begin()
        comes_to_rest(process, "with more clients than descriptors")
        # They all stay, and each message leaves even so.
        for _ in range(10):
            clients[0].hand_in()
            field.arrived(1, SOON)
        until("an empty list", lambda: relay.held() == [])


def idle_clients_leave_places_to_others(field):
    """With a clock twenty times as fast: 48 clients that are idle for 20 seconds stay; with one more they are cut off,
    except the one whose mail was accepted."""
    relay = field.relay(sessions_per_client=64)
    shim(field, "run_clocks", relay, FASTER="20")
    with relay.running(), clients_of(relay, 48) as clients:
        clients[0].hand_in()
        time.sleep(1)
        same("the reply of one that was idle", clients[1].say(b"NOOP\r\n"), "250 OK")
        with clients_of(relay, 1):
            same("what idle ones hear", [client.rest() for client in clients[2:]], [TIMEOUT] * 46)
            clients[0].hand_in()
        field.arrived(2)


ROWS = [
    a_full_device_closes_all_and_goes_on_with_room,
    the_spool_stays_closed_while_there_is_no_room,
    what_doesnt_fit_costs_others_nothing,
    a_disk_that_stays_full_for_ten_minutes_copies_nothing_twice_over,
    while_no_attempt_may_begin_it_sleeps,
    what_was_answered_stays_behind_a_full_device,
    a_failure_has_one_line_with_its_reason_and_file,
    a_reason_that_was_not_seen_is_left_out,
    a_file_that_keeps_room_and_fails_ends_nothing,
    a_compaction_whose_last_write_is_said_to_have_failed_ends_nothing,
    a_sync_that_fails_ends_it,
    a_clock_that_is_set_holds_up_nothing_else,
    what_was_put_off_is_tried_at_its_moment,
    a_next_hop_is_waited_for_by_what_it_was_told,
    a_thousand_connections_find_few_descriptors,
    clients_leave_four_descriptors_for_attempts,
    idle_clients_leave_places_to_others,
]


if __name__ == "__main__":
    play_rows("run_faults", ROWS)
