#!/usr/bin/env python3
"""Steers `relayd run` by its control socket, with subcommands and with octets of its own, and checks the mail.
Withdraws mail from a spool on which no relay runs. Ends at the first difference.

    tests/run_control.py build/relayd [ROW..]

With names of rows, runs these only. TIMES in the environment multiplies the time limits (default 2).
"""
import contextlib
import os
import random
import socket
import stat
import subprocess
import sys
import threading
import time
from concurrent.futures import ThreadPoolExecutor
from email.utils import parsedate_to_datetime

sys.dont_write_bytecode = True

from relay_program import PATIENCE, free_port, same, until
from running_relay import SOON, TEXT, TIMES, Client, Clocks, clients_of, hop_that, hop_that_hangs, lines_of, play_rows

# Five of these after its acceptance mail expires; and how long before that a test looks, in seconds.
DAY, EARLY = 86400, 15

# Octets that a caller sends, and their answers.
REFUSED = [
    (b"\n", b"error unknown request: send flush, hold, release, return, discard, reload or drain\n"),
    (b"FLUSH\n", b"error unknown request: send flush, hold, release, return, discard, reload or drain\n"),
    (b" flush\n", b"error unknown request: send flush, hold, release, return, discard, reload or drain\n"),
    (b"flush all\n", b"error usage: flush, flush hop NAME or flush message NUMBER\n"),
    (b"flush \n", b"error usage: flush, flush hop NAME or flush message NUMBER\n"),
    (b"flush\r\n", b"error unknown request: send flush, hold, release, return, discard, reload or drain\n"),
    (b"hold\n", b"error usage: hold hop NAME or hold message NUMBER\n"),
    (b"hold message 007\n", b"error usage: hold hop NAME or hold message NUMBER\n"),
    (b"hold message +7\n", b"error usage: hold hop NAME or hold message NUMBER\n"),
    (b"hold message 18446744073709551616\n", b"error usage: hold hop NAME or hold message NUMBER\n"),
    (b"hold hop a b\n", b"error usage: hold hop NAME or hold message NUMBER\n"),
    (b"release message -1\n", b"error usage: release hop NAME or release message NUMBER\n"),
    (b"return\n", b"error usage: return NUMBER:PLACE,.. ..\n"),
    (b"return 15\n", b"error usage: return NUMBER:PLACE,.. ..\n"),
    (b"return 15:\n", b"error usage: return NUMBER:PLACE,.. ..\n"),
    (b"return 15:0,100\n", b"error usage: return NUMBER:PLACE,.. ..\n"),
    (b"return 15:3,0\n", b"error usage: return NUMBER:PLACE,.. ..\n"),
    (b"return 18446744073709551616:0\n", b"error usage: return NUMBER:PLACE,.. ..\n"),
    (b"discard 15:0  16:1\n", b"error usage: discard NUMBER:PLACE,.. ..\n"),
    (b"discard" + b" 15:0" * 65 + b"\n", b"error usage: discard NUMBER:PLACE,.. ..\n"),
    (b"reload now\n", b"error usage: reload\n"),
    (b"drain\n", b"error usage: drain SECONDS, from 0 to 65535\n"),
    (b"drain 65536\n", b"error usage: drain SECONDS, from 0 to 65535\n"),
    (b"x" * 4096, b"error request too long: no line ends within 4096 octets\n"),
]


# The faults of subcommands that find no relay, and that find one which they can't reach.
UNREACHED = (1, "relayd: control: no relay listens, or this user may not connect")
# The answer to a reload, and the last reply to a client whose session it ends.
RELOADED = b" reloaded; attempts cut=0\nok\n"
STOPPING = "421 relay.example service stopping, closing"
LOCKED_ANYHOW = (
    1, "relayd: locked\nrelayd: another relayd holds the spool: stop it, or set control and restart it")


def with_control(field, name="relay", **options):
    """Returns a relay with a control socket, and the path of the socket."""
    path = field.folder / f"{name}.control"
    return field.relay(name, control=f'"{path}"', **options), path


def asked(path, octets):
    """Returns what the relay answers to these octets."""
    with socket.socket(socket.AF_UNIX) as link:
        link.settimeout(PATIENCE)
        link.connect(str(path))
        link.sendall(octets)
        with link.makefile("rb") as answer:
            return answer.read()


def found_away(relay):
    """Waits until the relay has found that a next hop is away, and has put off the message that it tried. One message
    is tried at a time before a next hop has answered, and none while it is on hold."""
    until("the next hop is found away", lambda: lines_of(relay, "hop-held") and lines_of(relay, "status=deferred"))


def not_all(relay, *words):
    """Returns the lines of a subcommand that withdraws only a part of the selected mail."""
    ended = relay.ended(PATIENCE, *words)
    same(f"relayd {' '.join(words)}", (ended.returncode, ended.stderr),
         (1, b"relayd: not all of the mail was withdrawn; try again\n"))
    return ended.stdout.decode().splitlines()


def deferred_mail(relay, count=1, path="c@example.net"):
    """Submits messages to a next hop that isn't there. Returns their numbers when none of them is being tried."""
    with clients_of(relay, 1) as [client]:
        numbers = [client.hand_in(path) for _ in range(count)]
        found_away(relay)
    return numbers


def returned_report(field):
    """Checks that one report arrives, which says that the postmaster has returned the mail."""
    [report] = field.arrived(1, SOON)
    same("its envelope", (report.mail[:2], report.recipients), (b"<>", [b"<a@example.org>"]))
    same("its reason", b"\r\nDiagnostic-Code: X-Postmaster; returned by the postmaster\r\n" in report.content, True)


def expired_report(field, within):
    """Checks that one report arrives in this time and a short one more, which says that the mail has expired."""
    [report] = field.arrived(1, within + SOON)
    same("its envelope", (report.mail[:2], report.recipients), (b"<>", [b"<a@example.org>"]))
    same("its action", b"\r\nAction: failed\r\n" in report.content, True)


def takes_mail(arrived, wait=lambda: None):
    """Returns a function for a next hop that takes mail, calls `wait` before it replies to a content, and adds each
    content to a list."""

    def serve(link):
        with link.makefile("rb") as lines:
            link.sendall(b"220 hop.example\r\n")
            for line in lines:
                if line == b"DATA\r\n":
                    link.sendall(b"354 go on\r\n")
                    content = b""
                    while (text := lines.readline()) not in (b".\r\n", b""):
                        content += text
                    wait()
                    arrived.append(content)
                link.sendall(b"250 ok\r\n")
                if line == b"QUIT\r\n":
                    return

    return serve


def a_second():
    time.sleep(1)


def asks(relay, path, request):
    """Asks for something in a thread of its own, and waits for the line of the log that says so: the relay has begun
    with it then. Returns the thread, and the list that gets the answer."""
    before, answers = lines_of(relay, " relayd: control "), []
    thread = threading.Thread(target=lambda: answers.append(asked(path, request)))
    thread.start()
    until(f"the line of {request}", lambda: len(lines_of(relay, " relayd: control ")) > len(before))
    return thread, answers


def reloads(relay, path):
    """Asks for a reload, which isn't over at once. Returns what `asks` does."""
    thread, answers = asks(relay, path, b"reload\n")
    time.sleep(0.5)
    same("answers before its end", answers, [])
    return thread, answers


# The rows. Each says in its name what holds.


def a_flush_tries_what_was_put_off(field):
    port, arrived = free_port(), []
    relay, _ = with_control(field, more={"example.net": ("away.example", port)})
    with relay.running(), clients_of(relay, 1) as [client]:
        client.hand_in("c@example.net")
        until("it is put off", lambda: lines_of(relay, "status=deferred"))
        with hop_that(takes_mail(arrived), port):
            time.sleep(1.5)
            same("it comes before its time", len(arrived), 0)
            same("flush", relay.run("flush", "--hop", "away.example"), ["flushed recipients=1"])
            until("it comes", lambda: len(arrived) == 1, SOON)
            until("it leaves the queue", lambda: relay.held() == [])


def a_held_hop_gets_nothing_up_to_its_release(field):
    relay, _ = with_control(field)
    with relay.running():
        same("hold", relay.run("hold", "--hop", "next.example"),
             ["held; mail still expires 5 days after it was accepted"])
        with clients_of(relay, 1) as [client]:
            client.hand_in()
            time.sleep(1)
            same("messages at the sink", len(field.sink.take_all()), 0)
    same("the file of held mail", (relay.folder / "relay.spool.held").read_text(),
         'hops = ["next.example"]\nmessages = []\n')
    with relay.running():
        time.sleep(1)
        same("messages at the sink after a restart", len(field.sink.take_all()), 0)
        same("flush", relay.run("flush"), ["flushed recipients=0"])
        same("release", relay.run("release", "--hop", "next.example"), ["released"])
        field.arrived(1, SOON)


def a_held_message_stays_and_others_leave(field):
    port, arrived = free_port(), []
    relay, _ = with_control(field, more={"example.net": ("away.example", port)})
    with relay.running(), clients_of(relay, 1) as [client]:
        held, other = client.hand_in("c@example.net"), client.hand_in("d@example.net")
        found_away(relay)
        [line] = relay.run("hold", "--message", str(held))
        expiry = parsedate_to_datetime(line.removeprefix("held; it still expires, on ")).timestamp()
        same("it expires in five days", abs(expiry - time.time() - 5 * 86400) < 60, True)
        [line] = relay.run("hold", "--message", str(held))
        same("held once more", line.startswith("held before; it still expires, on "), True)
        with hop_that(takes_mail(arrived), port):
            relay.run("flush")
            until("the other leaves", lambda: [row[0] for row in relay.held()] == [held])
            relay.run("release", "--message", str(held))
            relay.run("flush", "--message", str(held))
            until("it leaves too", lambda: relay.held() == [])
            same("messages", len(arrived), 2)
        same("hold of one that isn't queued", relay.refused("hold", "--message", str(other)),
             (1, f"relayd: control: message {other} isn't queued"))


def held_mail_expires_while_it_is_held(field):
    """Five days after it was accepted, to the second, without an attempt. So does what is held when a relay starts."""
    relay, _ = with_control(field, more={"example.net": ("away.example", free_port())})
    clocks = Clocks(field, relay)
    with relay.running():
        relay.run("hold", "--hop", "away.example")
        with clients_of(relay, 1) as [client]:
            client.hand_in("c@example.net")
        clocks.advance(5 * DAY - EARLY)
        time.sleep(1)
        same("the queue before its time", [row[2] for row in relay.held()], ["<c@example.net>"])
        expired_report(field, EARLY)
        until("an empty queue", lambda: relay.held() == [])
        until("the line of that", lambda: len(lines_of(relay, " relayd: expired ")) == 1)
        with clients_of(relay, 1) as [client]:
            client.hand_in("d@example.net")
    clocks.advance(5 * DAY)
    with relay.running():
        expired_report(field, SOON)
        until("an empty queue again", lambda: relay.held() == [])
        until("the line of that, too", lambda: len(lines_of(relay, " relayd: expired ")) == 2)
    events = {line.partition("Z relayd: ")[2].split()[0] for line in lines_of(relay, " hop=away.example")}
    same("events of the next hop", events, {"expired"})


def what_is_no_request_is_refused(field):
    relay, path = with_control(field)
    with relay.running():
        for octets, answer in REFUSED:
            same(f"the answer to {octets[:40]}", asked(path, octets), answer)
        same("a flush after them", asked(path, b"flush\nand more"), b" flushed recipients=0\nok\n")


def silent_callers_hold_up_nobody(field):
    relay, path = with_control(field)
    with relay.running(), contextlib.ExitStack() as stack:
        for _ in range(8):
            link = stack.enter_context(socket.socket(socket.AF_UNIX))
            link.connect(str(path))
        with clients_of(relay, 1) as [client]:
            client.hand_in()
            field.arrived(1, SOON)
        # The relay closes their connections after five seconds.
        same("a flush then", asked(path, b"flush\n"), b" flushed recipients=0\nok\n")


def the_socket_is_its_users_own(field):
    relay, path = with_control(field)
    with relay.running():
        same("its mode", stat.S_IMODE(path.stat().st_mode), 0o600)
        same("it is a socket", stat.S_ISSOCK(path.stat().st_mode), True)
    same("it stays after a kill", path.exists(), True)
    same("nobody listens", relay.refused("flush"), UNREACHED)
    with relay.running():
        same("flush of the next run", relay.run("flush"), ["flushed recipients=0"])


def a_drain_cuts_no_attempt(field):
    """16 attempts run when the relay is drained; nothing is delivered twice."""
    port, arrived = free_port(), []
    relay, _ = with_control(field, more={"example.net": ("slow.example", port)}, attempts_per_hop=16)
    with hop_that(takes_mail(arrived, a_second), port):
        process = relay.begin()
        with clients_of(relay, 1) as [client]:
            for number in range(40):
                client.hand_in("c@example.net", b"Subject: %d\r\n\r\ntext\r\n.\r\n" % number)
        until("attempts run", lambda: len(arrived) >= 1)
        same("drain", relay.run("drain", "--seconds", "30"), ["stopping; attempts cut=0"])
        same("its status", process.wait(PATIENCE), 0)
        process.stdout.close()
        with relay.running():
            until("all leave", lambda: relay.held() == [], 60)
        same("each came once", len(arrived), 40)
        same("none came twice", len({content.split(b"\r\n\r\n")[0] for content in arrived if content}), len(arrived))


def a_draining_relay_takes_no_client(field):
    port, arrived, has_text, may_reply = free_port(), [], threading.Event(), threading.Event()

    def wait():
        has_text.set()
        may_reply.wait(PATIENCE)

    relay, path = with_control(field, more={"example.net": ("slow.example", port)})
    with hop_that(takes_mail(arrived, wait), port):
        process = relay.begin()
        with clients_of(relay, 1) as [client]:
            client.hand_in("c@example.net")
            same("whether the next hop has the text", has_text.wait(PATIENCE), True)
            drain, _ = asks(relay, path, b"drain 30\n")
            with Client(relay) as other:
                same("the greeting", other.reply(), "421 relay.example service stopping, closing")
            may_reply.set()
        same("its status", process.wait(PATIENCE), 0)
        drain.join()
        process.stdout.close()
        same("what was on its way", len(arrived), 1)
        same("the log's end", lines_of(relay, "")[-1].partition(" ")[2], "relayd: stopping reason=drained")


def a_reload_adds_a_route_and_takes_one(field):
    """A client in a mail transaction is not cut, and its mail goes by the table that it began with."""
    port, arrived = free_port(), []
    relay, path = with_control(field, more={"example.net": ("away.example", free_port())})
    with relay.running(), hop_that(takes_mail(arrived), port):
        with Client(relay) as client, Client(relay) as idle:
            client.begin()
            idle.begin()
            client.ask_for_text("c@example.net")
            relay.route({"example.org": ("next.example", field.sink.port), "example.com": ("new.example", port)})
            reload, answers = reloads(relay, path)
            same("an idle client", idle.reply(), STOPPING)
            with Client(relay) as late:
                same("the reply to the mail", client.say(TEXT)[:4], "250 ")
                same("the client after it", client.reply(), STOPPING)
                reload.join(PATIENCE)
                same("the answer", answers, [RELOADED])
                # It has waited to be accepted, and is served by the new table.
                late.begin()
                same("a route that was added", late.offer("d@example.com")[:4], "250 ")
                same("MAIL", late.say(b"MAIL FROM:<a@example.org>\r\n")[:4], "250 ")
                same("a route that was taken", late.say(b"RCPT TO:<c@example.net>\r\n")[:4], "550 ")
        until("the log says why their sessions ended",
              lambda: [line.rsplit(" reason=", 1)[1] for line in lines_of(relay, "client-end")][:2] == ["stopping"] * 2)
        until("mail comes by the new route", lambda: len(arrived) == 1, SOON)
        # Mail whose route has gone ends by the new table.
        [report] = field.arrived(1, SOON)
        same("who gets the report", report.recipients, [b"<a@example.org>"])
        until("the queue is empty", lambda: relay.held() == [])


def a_configuration_with_a_fault_is_not_taken(field):
    relay, path = with_control(field)
    with relay.running(), clients_of(relay, 1) as [client]:
        good = relay.file.read_text()
        for text, answer in [
            (good.replace('host = "relay.example"', 'host = "relay example"'), b"error config BadValue host\n"),
            ("max_content = 0\n" + good, b"error config BadValue max_content\n"),
            ("[routes\n", b"error config NotToml\n"),
        ]:
            relay.file.write_text(text)
            same("the answer", asked(path, b"reload\n"), answer)
        relay.file.unlink()
        same("the answer without a file", asked(path, b"reload\n"), b"error input\n")
        relay.file.write_text(good)
        client.hand_in()
        field.arrived(1, SOON)


def what_needs_a_restart_is_named(field):
    relay, path = with_control(field)
    with relay.running(), clients_of(relay, 1) as [client]:
        good = relay.file.read_text()
        changed = [
            ('host = "relay.example"', 'host = "other.example"', b"host"),
            (f'listen = "127.0.0.1:{relay.port}"', f'listen = "127.0.0.1:{free_port()}"', b"listen"),
            (f'spool = "{relay.spool}"', f'spool = "{relay.spool}.other"', b"spool"),
            (f'control = "{path}"', f'control = "{path}.other"', b"control"),
            (f'control = "{path}"', f'control = "{path}"\nstatus_listen = "127.0.0.1:{free_port()}"', b"status_listen"),
            (f'control = "{path}"\n', "", b"control"),
            (f'control = "{path}"\n', f'control = "{path}"\ncontrol_group = 0\n', b"control_group"),
        ]
        for old, new, key in changed:
            relay.file.write_text(good.replace(old, new))
            same(f"the answer for {key}", asked(path, b"reload\n"), b"error restart the relay to change " + key + b"\n")
        client.hand_in()
        field.arrived(1, SOON)


def a_reload_cuts_no_attempt(field):
    """16 attempts run when the configuration is read again; nothing is delivered twice."""
    port, arrived = free_port(), []
    relay, path = with_control(field, more={"example.net": ("slow.example", port)}, attempts_per_hop=16)
    with hop_that(takes_mail(arrived, a_second), port), relay.running():
        with clients_of(relay, 1) as [client]:
            for number in range(40):
                client.hand_in("c@example.net", b"Subject: %d\r\n\r\ntext\r\n.\r\n" % number)
        until("attempts run", lambda: len(arrived) >= 1)
        same("reload", asked(path, b"reload\n"), RELOADED)
        until("all leave", lambda: relay.held() == [], 60)
        same("each came once", len(arrived), 40)
        same("none came twice", len({content.split(b"\r\n\r\n")[0] for content in arrived if content}), len(arrived))


def one_reload_at_a_time(field):
    relay, path = with_control(field)
    with relay.running(), Client(relay) as client:
        client.begin()
        client.ask_for_text()
        reload, answers = reloads(relay, path)
        same("another one", asked(path, b"reload\n"), b"error another reload waits\n")
        same("the reply to the mail", client.say(TEXT)[:4], "250 ")
        reload.join(PATIENCE)
        same("the first", answers, [RELOADED])
        field.arrived(1, SOON)


def wrong_words_are_refused(field):
    relay, _ = with_control(field)
    for words in [("hold",), ("release",), ("hold", "--hop", "next.example", "--message", "1"), ("return", "--yes"),
                  ("discard",), ("hold", "--message", "0"), ("drain", "--seconds", "65536"), ("reload", "now"),
                  ("save", "1")]:
        same(f"the status of {words}", relay.refused(*words)[0], 2)
    other = field.relay("other")
    same("no control", other.refused("flush"),
         (1, 'relayd: control: not configured; set control = "/run/relayd/control"'))


def other_users_steer_nothing(field):
    relay, path = with_control(field)
    with relay.running():
        options = {}
        if os.geteuid() == 0:
            # Another user may read the configuration, but not connect.
            options = {"user": 65534, "group": 65534, "extra_groups": []}
            for place, mode in [(field.folder, 0o711), (relay.folder, 0o711), (relay.file, 0o644)]:
                place.chmod(mode)
        else:
            path.chmod(0)
        ended = subprocess.run(relay.words("flush"), capture_output=True, timeout=PATIENCE, env=relay.environment,
                               **options)
        same("flush", (ended.returncode, ended.stderr.decode().rstrip("\n")), UNREACHED)


def a_group_may_steer(field):
    group = 65534 if os.geteuid() == 0 else os.getegid()
    relay, path = with_control(field, control_group=group)
    with relay.running():
        found = path.stat()
        same("its mode and group", (stat.S_IMODE(found.st_mode), found.st_gid), (0o660, group))
        same("flush", relay.run("flush"), ["flushed recipients=0"])
        if os.geteuid() != 0:
            return
        for place, mode in [(field.folder, 0o711), (relay.folder, 0o711), (relay.file, 0o644)]:
            place.chmod(mode)
        for other, answer in [(group, (0, "flushed recipients=0\n", "")), (65533, (1, "", UNREACHED[1] + "\n"))]:
            ended = subprocess.run(relay.words("flush"), capture_output=True, timeout=PATIENCE, text=True,
                                   env=relay.environment, user=65533, group=other, extra_groups=[])
            same(f"flush by group {other}", (ended.returncode, ended.stdout, ended.stderr), answer)


def returned_mail_is_reported(field):
    relay, _ = with_control(field, more={"example.net": ("away.example", free_port())})
    with relay.running():
        [number] = deferred_mail(relay)
        same("without --yes", relay.run("return", "--message", str(number)),
             [f"{number} <a@example.org> <c@example.net>", "1 message, 1 recipient",
              "nothing was returned; add --yes to return this mail"])
        same("it is queued", [row[0] for row in relay.held()], [number])
        same("return", relay.run("return", "--message", str(number), "--yes"), ["returned recipients=1"])
        returned_report(field)
        until("the queue is empty", lambda: relay.held() == [])
        same("return again", relay.refused("return", "--message", str(number), "--yes"),
             (1, "relayd: no queued mail matches"))


def discarded_mail_is_gone(field):
    relay, _ = with_control(field, more={"example.net": ("away.example", free_port())})
    with relay.running():
        first, second = deferred_mail(relay, 2)
        same("discard of one", relay.run("discard", "--message", f"{first},{second + 7}", "--yes"),
             ["discarded recipients=1"])
        same("the other is queued", [row[0] for row in relay.held()], [second])
        same("another reverse path", relay.refused("discard", "--from", "x@example.org", "--yes"),
             (1, "relayd: no queued mail matches"))
        same("discard of a path", relay.run("discard", "--to", "C@EXAMPLE.NET", "--from", "<a@example.org>", "--yes"),
             ["discarded recipients=1"])
        same("the queue", relay.held(), [])
        time.sleep(1)
        same("messages at the sink", len(field.sink.take_all()), 0)


def many_messages_take_several_requests(field):
    """A request names 64 messages at most."""
    relay, _ = with_control(field, more={"example.net": ("away.example", free_port())})
    with relay.running():
        numbers = deferred_mail(relay, 130)
        lines = relay.run("discard", "--hop", "away.example")
        same("lines", lines[:10], [f"{number} <a@example.org> <c@example.net>" for number in numbers[:10]])
        same("sums", lines[10:12], ["..", "130 messages, 130 recipients"])
        same("discard", relay.run("discard", "--hop", "away.example", "--yes"), ["discarded recipients=130"])
        same("the queue", relay.held(), [])


def thousands_of_messages_are_discarded_at_once(field):
    """5,000 messages end within 5 seconds, since the changes of a request share one pair of syncs."""
    relay, _ = with_control(field)
    with relay.running():
        relay.run("hold", "--hop", "next.example")
        with clients_of(relay, 25) as clients, ThreadPoolExecutor(len(clients)) as pool:
            numbers = sum(pool.map(lambda client: [client.hand_in() for _ in range(200)], clients), [])
        same("messages", len(set(numbers)), 5000)
        begun = time.monotonic()
        same("discard", relay.run("discard", "--hop", "next.example", "--yes"), ["discarded recipients=5000"])
        same("they end in time", time.monotonic() - begun < 5 * TIMES, True)
        same("the queue", relay.held(), [])
        relay.run("release", "--hop", "next.example")
    with relay.running():
        same("the queue after a restart", relay.held(), [])
        time.sleep(1)
        same("messages at the sink", len(field.sink.take_all()), 0)


def a_kill_ends_no_other_mail_than_was_named(field):
    """A relay is killed while it discards every second message, a few in each request. What was answered is gone, what
    wasn't named stays, and in the end exactly that arrives."""
    relay, path = with_control(field)
    with relay.running():
        relay.run("hold", "--hop", "next.example")
        with clients_of(relay, 8) as clients, ThreadPoolExecutor(len(clients)) as pool:
            numbers = sorted(sum(pool.map(lambda client: [client.hand_in() for _ in range(100)], clients), []))
    kept, named = set(numbers[1::2]), numbers[::2]
    chance = random.Random(71)

    def discard(ended):
        with contextlib.suppress(OSError):
            while named:
                answer = asked(path, b"discard" + b"".join(b" %d:0" % number for number in named[:3]) + b"\n")
                if not answer.endswith(b"\nok\n"):
                    return
                ended.update(named[:3])
                del named[:3]

    for kill in range(6):
        process, ended = relay.begin(), set()
        steers = threading.Thread(target=discard, args=(ended,))
        steers.start()
        time.sleep(chance.uniform(0.01, 0.1))
        process.kill()
        process.communicate()
        steers.join()
        queued = {row[0] for row in relay.held()}
        same(f"mail that wasn't named and is gone after kill {kill}", kept - queued, set())
        same(f"discarded mail that is queued after kill {kill}", ended & queued, set())
    with relay.running():
        discard(set())
        same("mail that is still to be discarded", named, [])
        same("the queue", {row[0] for row in relay.held()}, kept)
        same("release", relay.run("release", "--hop", "next.example"), ["released"])
        field.arrived(len(kept), 3 * PATIENCE)
        until("the queue is empty", lambda: relay.held() == [])


def steering_under_load_loses_no_mail(field):
    """Eight clients send mail while it is held, released, flushed and discarded. Each message arrives once, or was
    discarded."""
    relay, path = with_control(field, sessions_per_client=64)
    taken, discarded, ends = [], 0, threading.Event()

    def send(client):
        while not ends.is_set():
            taken.append(client.hand_in())

    with relay.running(), clients_of(relay, 8) as clients:
        senders = [threading.Thread(target=send, args=(client,)) for client in clients]
        for sender in senders:
            sender.start()
        for _ in range(10):
            same("hold", asked(path, b"hold hop next.example\n")[-3:], b"ok\n")
            time.sleep(0.1)
            for number in taken[-20:]:
                discarded += asked(path, b"discard %d:0\n" % number) == b" discarded recipients=1\nok\n"
            same("release", asked(path, b"release hop next.example\n")[-3:], b"ok\n")
            same("flush", asked(path, b"flush\n")[-3:], b"ok\n")
        ends.set()
        for sender in senders:
            sender.join()
        until("the queue is empty", lambda: relay.held() == [], 60)
        same("messages were discarded", discarded > 0, True)
        field.arrived(len(taken) - discarded)


def mail_in_an_attempt_is_busy(field):
    with hop_that_hangs(b"220 slow.example\r\n") as (port, taken):
        relay, _ = with_control(field, more={"example.net": ("slow.example", port)})
        with relay.running(), clients_of(relay, 1) as [client]:
            number = client.hand_in("c@example.net")
            until("an attempt runs", lambda: len(taken) == 1)
            same("return", not_all(relay, "return", "--hop", "slow.example", "--yes"),
                 [f"{number} busy", "returned recipients=0"])
            same("it is queued", [row[0] for row in relay.held()], [number])


def mail_is_withdrawn_without_a_relay(field):
    relay, _ = with_control(field, more={"example.net": ("away.example", free_port())})
    with relay.running():
        first, second, third = deferred_mail(relay, 3)
    same("return", relay.run("return", "--message", str(first), "--yes"), ["returned recipients=1"])
    same("discard", relay.run("discard", "--message", str(second), "--yes"), ["discarded recipients=1"])
    same("nobody else is withdrawn", [row[0] for row in relay.held() if row[2] != "<a@example.org>"], [third])
    with relay.running():
        returned_report(field)
        time.sleep(1)
        same("more messages at the sink", len(field.sink.take_all()), 0)


def a_relay_without_a_socket_keeps_its_mail(field):
    relay = field.relay("relay", more={"example.net": ("away.example", free_port())})
    with relay.running():
        [number] = deferred_mail(relay)
        same("return", relay.refused("return", "--message", str(number), "--yes"), LOCKED_ANYHOW)
        same("it is queued", [row[0] for row in relay.held()], [number])


def a_saved_message_is_its_text(field):
    relay, _ = with_control(field, more={"example.net": ("away.example", free_port())})
    with relay.running():
        [number] = deferred_mail(relay)
        file = field.folder / "saved.eml"
        same("save", relay.run("save", str(number), str(file)), [])
        same("the file", file.read_bytes(), relay.ended(PATIENCE, "show", "--raw", str(number)).stdout)
        same("save again", relay.refused("save", str(number), str(file))[0], 1)
        same("a message that isn't there", relay.refused("save", str(number + 1), str(file.with_suffix(".other"))),
             (1, f"relayd: message {number + 1} is not queued"))


def not_saved(relay, *words):
    """Returns the output of a subcommand that saves, and so withdraws, only a part of the selected mail; and its lines
    on standard error before the last."""
    ended = relay.ended(PATIENCE, *words)
    lines = ended.stderr.decode().splitlines()
    same(f"relayd {' '.join(words)}", (ended.returncode, lines[-1:]),
         (1, ["relayd: mail that was not saved is still queued"]))
    return ended.stdout.decode().splitlines(), lines[:-1]


def mail_is_saved_before_it_is_withdrawn(field):
    relay, _ = with_control(field, more={"example.net": ("away.example", free_port())})
    folder = field.folder / "saved"
    folder.mkdir()
    with relay.running():
        first, second, third = deferred_mail(relay, 3)
        texts = [relay.ended(PATIENCE, "show", "--raw", str(number)).stdout for number in (first, second)]
        words = ("discard", "--message", f"{first},{second}", "--save", str(folder))
        relay.run(*words)
        same("files of a preview", list(folder.iterdir()), [])
        (folder / f"{second}.eml").write_bytes(b"other mail")
        same("a file that exists", not_saved(relay, *words, "--yes"),
             (["discarded recipients=1"], [f"relayd: {folder}/{second}.eml: File exists (os error 17)"]))
        same("the file of the first", (folder / f"{first}.eml").read_bytes(), texts[0])
        same("the other file", (folder / f"{second}.eml").read_bytes(), b"other mail")
        same("the queue", [row[0] for row in relay.held()], [second, third])
        nowhere = field.folder / "nowhere"
        printed, faults = not_saved(relay, "discard", "--hop", "away.example", "--save", str(nowhere), "--yes")
        same("a folder that isn't there", printed, ["discarded recipients=0"])
        same("its faults", faults, [f"relayd: {nowhere}/{number}.eml: No such file or directory (os error 2)"
                                    for number in (second, third)]
             + [f"relayd: {nowhere}: No such file or directory (os error 2)"])
        same("the queue then", [row[0] for row in relay.held()], [second, third])
    (folder / f"{second}.eml").unlink()
    same("return without a relay",
         relay.run("return", "--message", str(second), "--save", str(folder), "--yes"), ["returned recipients=1"])
    same("the file of the second", (folder / f"{second}.eml").read_bytes(), texts[1])
    same("the queue at the end", [row[0] for row in relay.held() if row[2] != "<a@example.org>"], [third])


ROWS = [
    a_flush_tries_what_was_put_off,
    a_held_hop_gets_nothing_up_to_its_release,
    a_held_message_stays_and_others_leave,
    held_mail_expires_while_it_is_held,
    what_is_no_request_is_refused,
    silent_callers_hold_up_nobody,
    the_socket_is_its_users_own,
    a_drain_cuts_no_attempt,
    a_draining_relay_takes_no_client,
    a_reload_adds_a_route_and_takes_one,
    a_configuration_with_a_fault_is_not_taken,
    what_needs_a_restart_is_named,
    a_reload_cuts_no_attempt,
    one_reload_at_a_time,
    wrong_words_are_refused,
    other_users_steer_nothing,
    a_group_may_steer,
    returned_mail_is_reported,
    discarded_mail_is_gone,
    many_messages_take_several_requests,
    thousands_of_messages_are_discarded_at_once,
    a_kill_ends_no_other_mail_than_was_named,
    steering_under_load_loses_no_mail,
    mail_in_an_attempt_is_busy,
    mail_is_withdrawn_without_a_relay,
    a_relay_without_a_socket_keeps_its_mail,
    a_saved_message_is_its_text,
    mail_is_saved_before_it_is_withdrawn,
]


if __name__ == "__main__":
    play_rows("run_control", ROWS)
