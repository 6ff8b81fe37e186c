#!/usr/bin/env python3
"""Runs `relayd run` over 127.0.0.1 and reads its log: the lines for next hops that are down, for clients that are cut
off or refused, for a spool that is full or compacted, and for the outcome of each recipient; also with a log that
nobody reads. Ends at the first difference.

    tests/run_log.py build/relayd [ROW..]

Runs the named rows, or all. Time limits are multiplied by the environment variable TIMES (2).
"""
import contextlib
import json
import os
import re
import sys
import threading
import time

sys.dont_write_bytecode = True

from mail_checks import hand_in, read_report
from relay_program import Difference, PATIENCE, Slow, free_port, same, until
from running_relay import NO_SERVICE, SOON, TIMEOUT, TOO_MANY, Client, Clocks, clients_of, hop_that
from running_relay import hop_that_falls_silent, lines_of, no_later, play_rows, shim, slowest
from spool_files import bodies_of

MOMENT = re.compile(r"\d{4}-\d\d-\d\dT\d\d:\d\d:\d\dZ ")
FULL = "relayd: spool-full"
# How many times as fast as this machine's the relay's clock goes in some rows: so its minute is a second.
FASTER = 60


def told(relay, text):
    """Returns the lines of the log that contain a text, without their times and without the ages of messages and
    connections."""
    lines = lines_of(relay, text)
    same("lines without a time", [line for line in lines if not MOMENT.match(line)], [])
    return [re.sub(r" (delay|duration)=\d+s", "", MOMENT.sub("", line)) for line in lines]


def own_route(field):
    """A route for the relay's own name, without which `run` begins with a warning."""
    return {"relay.example": ("next.example", field.sink.port)}


def text_of(size):
    """Returns mail data of somewhat more than so many octets."""
    return b"Subject: long\r\n\r\n" + b"x" * size + b"\r\n.\r\n"


# The rows. Each says in its name what holds.


def its_log_begins_with_the_address_at_which_it_listens(field):
    """A thread writes the log, so the line may come after `ready`."""
    relay = field.relay(more=own_route(field))
    with relay.running():
        until("a line", lambda: told(relay, ""))
        same("the log", told(relay, ""), [f"relayd: listening addr=127.0.0.1:{relay.port}"])


def a_next_hop_that_is_away_is_left_alone_for_longer_each_time(field):
    """A minute, two and four of its clock. One message is tried after each, and the others stay as they are."""
    away = free_port()
    relay = field.relay(more={"example.net": ("away.example", away)}, client_timeout=3600)
    shim(field, "run_clocks", relay, FASTER=str(FASTER))
    with relay.running(), clients_of(relay, 1) as [client]:
        begun = time.monotonic()
        numbers = [client.hand_in("c@example.net") for _ in range(5)]
        until("three lines of each", lambda: [len(told(relay, it)) for it in ("hop-held", "deferred")] == [3, 3])
        minutes = (time.monotonic() - begun) * FASTER / 60
        later = [row[0] for row in relay.held() if row[3] > time.time() + 60]
    at = f"127.0.0.1:{away}"
    same("how long", told(relay, "hop-held"),
         [f'relayd: hop-held hop=away.example addr={at} retry_in={it}s reason="connection refused"'
          for it in (60, 120, 240)])
    same("what was tried", told(relay, "deferred"),
         [f"relayd: deferred message={number} hop=away.example addr={at} to=<c@example.net> status=deferred "
          'reason="connection refused"' for number in numbers[:3]])
    same("what was put off", later, numbers[:3])
    if minutes < 2.9:
        raise Difference(f"it was tried three times within {minutes:.2f} minutes")


def a_next_hop_that_is_back_has_a_line(field):
    """At its first octet, whatever that is: how long ago it was first put on hold, and how many failures there were."""
    away = free_port()
    relay = field.relay(more={"example.net": ("away.example", away)}, client_timeout=3600)
    shim(field, "run_clocks", relay, FASTER=str(FASTER))
    with relay.running(), clients_of(relay, 1) as [client]:
        for _ in range(5):
            client.hand_in("c@example.net")
        until("two lines", lambda: len(told(relay, "hop-held")) == 2)
        same("a line before it is back", told(relay, "hop-back"), [])
        with hop_that(lambda link: link.sendall(b"554 no\r\n"), away):
            until("the attempts", lambda: len(told(relay, 'reply="554 no"')) == 3)
    [line] = told(relay, "hop-back")
    held = re.fullmatch(rf"relayd: hop-back hop=away\.example addr=127\.0\.0\.1:{away} held=(\d+)s failures=2", line)
    if not held or not 180 <= int(held.group(1)) <= 180 + FASTER * SOON:
        raise Difference(f"its line is {line}")


def client_of(client):
    """Returns how a line names a client."""
    return "client={}:{}".format(*client.link.getsockname())


def a_client_that_is_cut_off_has_a_line(field):
    relay = field.relay(client_timeout=1)
    with relay.running(), clients_of(relay, 1) as [client]:
        same("what it got", client.rest(), TIMEOUT)
        octets = len(b"EHLO client.example\r\n")
        line = f"relayd: client-end {client_of(client)} messages=0 rejected=0 octets={octets} reason=timeout"
        until("its line", lambda: told(relay, "client-end") == [line])


def a_client_that_is_sent_away_has_a_line(field):
    relay = field.relay(sessions_per_client=1)
    with relay.running(), clients_of(relay, 1), Client(relay) as client:
        same("what it got", client.rest(), TOO_MANY)
        line = f"relayd: client-end {client_of(client)} reason=too-many count=1"
        until("its line", lambda: told(relay, "client-end") == [line])


def a_client_that_may_not_connect_has_a_line_a_minute(field):
    relay = field.relay(clients='["127.0.0.1"]', sessions_per_client=1, client_timeout=3600)
    shim(field, "run_clocks", relay, FASTER="15")
    with relay.running(), clients_of(relay, 1):
        text, many = "relayd: client-end client={} reason={} count={}", 4
        strangers = [sent_away(relay, "127.0.0.2", NO_SERVICE) for _ in range(5)]
        lines = [text.format(strangers[0], "no-service", 1)]
        until("the line at once", lambda: told(relay, "client-end") == lines, SOON)
        # Those for which there is no room have a line of their own.
        lines.append(text.format(sent_away(relay), "too-many", 1))
        until("the line of another", lambda: told(relay, "client-end") == lines, SOON)
        lines.append(text.format(strangers[4], "no-service", many))
        until("the line of the others", lambda: told(relay, "client-end") == lines, 4 + SOON)


def sent_away(relay, address="127.0.0.1", line=TOO_MANY):
    """A client that isn't served: its place."""
    with Client(relay, address) as client:
        same("what it is told", client.rest(), line)
        return "{}:{}".format(*client.link.getsockname())


def refused_clients_have_a_line_a_minute(field):
    """Each address has its own line, with the number of refusals if there are several."""
    relay = field.relay(sessions_per_client=1, client_timeout=3600)
    shim(field, "run_clocks", relay, FASTER="15")
    with relay.running(), clients_of(relay, 1), clients_of(relay, 1, "127.0.0.2"):
        text, many = "relayd: client-end client={} reason=too-many count={}", 4
        peers = [sent_away(relay) for _ in range(5)]
        other = sent_away(relay, "127.0.0.2")
        lines = [text.format(peers[0], 1), text.format(other, 1)]
        until("the lines at once", lambda: told(relay, "too-many") == lines, SOON)
        lines.append(text.format(peers[4], many))
        until("the line of the others", lambda: told(relay, "too-many") == lines, 4 + SOON)
        # A minute begins with each line.
        last = sent_away(relay)
        same("the lines then", told(relay, "too-many"), lines)
        lines.append(text.format(last, 1))
        until("the line of one more", lambda: told(relay, "too-many") == lines, 4 + SOON)
        # After two minutes without one it's told at once again.
        time.sleep(2 * 4 + 1)
        lines.append(text.format(sent_away(relay), 1))
        until("the last line, at once", lambda: told(relay, "too-many") == lines, SOON)


def each_refusal_is_told_of_where_many_addresses_are_refused(field):
    """By a line of its own, or in the number of another, once; up to 64 addresses are counted at a time."""
    relay = field.relay(sessions_per_client=64, client_timeout=3600)
    addresses = [f"127.0.1.{last}" for last in range(1, 81)]
    clocks = Clocks(field, relay)
    counts = {address: 0 for address in addresses}
    with relay.running(), clients_of(relay, 64):
        for address in [*addresses, *addresses[:40], *addresses[:40]]:
            sent_away(relay, address)
            counts[address] += 1

        def counted():
            found = {address: 0 for address in addresses}
            for line in told(relay, "too-many"):
                address, times = re.fullmatch(
                    r"relayd: client-end client=([0-9.]+):\d+ reason=too-many count=(\d+)", line).groups()
                found[address] += int(times)
            return found

        clocks.advance(61)
        until("all of them", lambda: counted() == counts, SOON)


def what_came_of_each_recipient_has_a_line(field):
    """With the reply that settles it: the one to its RCPT if that isn't 2yz, else the one to the mail data. The report
    has a line with its number."""
    relay = field.relay()
    field.sink.manners.refusals = {"<r@example.org>": "550 no such user", "<l@example.org>": "450 mailbox busy"}
    field.sink.manners.content_reply = "250 queued as 77"
    hop = f"hop=next.example addr=127.0.0.1:{field.sink.port}"
    lines = [f'relayd: sent message=1 {hop} to=<b@example.org> status=sent reply="250 queued as 77"',
             f'relayd: failed message=1 {hop} to=<r@example.org> status=failed reply="550 no such user"',
             f'relayd: deferred message=1 {hop} to=<l@example.org> status=deferred reply="450 mailbox busy"',
             "relayd: report message=2 of=1 to=<a@example.org> kind=failed",
             f'relayd: sent message=2 {hop} to=<a@example.org> status=sent reply="250 queued as 77"']
    with relay.running():
        same("refused", hand_in(relay, recipients=("b@example.org", "r@example.org", "l@example.org")), {})
        read_report(field.arrived(2)[1], 2, 1)
        until("their lines", lambda: [line for line in told(relay, "message=") if "accepted" not in line] == lines)


def each_recipient_has_the_reply_that_settles_it(field):
    """If a next hop greets, or replies to EHLO, MAIL, a RCPT, DATA or the mail data, with something else than it
    should, each recipient gets that reply, except for a RCPT's own (RFC 5321, sections 3.1 to 3.3)."""
    good = [b"220 hop.example", b"250 hop.example", b"250 ok", b"250 ok", b"250 ok", b"354 go on"]
    for count, last in enumerate([b"421 busy", b"450 not now", b"451 later", None, None, b"452 no room", b"471 full"]):
        if last is None:
            continue
        reply = last.decode()
        with hop_that_falls_silent(*good[:count], last) as port:
            relay = field.relay(f"relay-{count}", more={"example.net": ("odd.example", port)})
            with relay.running():
                hand_in(relay, recipients=("c@example.net", "d@example.net"))
                until("its lines", lambda: len(told(relay, "status=deferred")) == 2)
            ends = [line.split(" to=")[1] for line in told(relay, "status=deferred")]
            same(f"after {count} replies", ends,
                 [f'<{name}@example.net> status=deferred reply="{reply}"' for name in "cd"])


def a_next_hop_that_closes_by_421_is_quoted(field):
    """It may answer any command so (RFC 5321, section 3.8), and answers no further one. If that leaves the attempt
    unfinished, no reply has settled a recipient: each has the 421, or without one the lost connection."""
    greeting, last = [b"220 hop.example", b"250 hop.example"], b"421 hop.example shutting down"
    shut, closed = f'reply="{last.decode()}"', 'reason="connection closed"'
    for number, (replies, ends) in enumerate([
        ([last], [shut, shut]),
        ([b"250 ok", last], [shut, shut]),
        ([b"250 ok", b"450 busy", last], ['reply="450 busy"', shut]),
        ([b"250 ok", b"250 ok", last], [shut, shut]),
        ([b"250 ok", b"250 ok", b"250 ok", b"354 go on", last], [shut, shut]),
        ([b"250 ok", b"450 busy"], [closed, closed]),
        ([b"250 ok", b"450 busy", b"250 ok"], [closed, closed]),
        ([b"250 ok", b"250 ok", b"250 ok", b"354 go on"], [closed, closed]),
    ]):

        def answer(link):
            for count, reply in enumerate([*greeting, *replies]):
                if count > 0:
                    link.recv(1 << 16)
                link.sendall(reply + b"\r\n")

        with hop_that(answer) as port:
            relay = field.relay(f"relay-{number}", more={"example.net": ("odd.example", port)})
            with relay.running():
                hand_in(relay, recipients=("c@example.net", "d@example.net"))
                until("its lines", lambda: len(told(relay, "status=deferred")) == 2)
        same(f"after {replies}", [line.split(" to=")[1] for line in told(relay, "status=deferred")],
             [f"<{name}@example.net> status=deferred {end}" for name, end in zip("cd", ends)])


def lines_of_json_have_the_same_fields(field):
    """A time, the event, and the fields in their order; numbers have no unit, and an octet that isn't printable is the
    character of its number."""
    relay = field.relay(more=own_route(field), log='"json"')
    field.sink.manners.refusals = {"<r@example.org>": '550 no "user" \\', "<l@example.org>": "450 mailbox busy"}
    field.sink.manners.content_reply = "250 queued\tas 77"
    with relay.running(), Client(relay) as client:
        client.begin()
        same("a reply", client.say(b"NONSENSE\r\n"), "500 unknown command")
        same("the last reply", client.say(b"QUIT\r\n")[:4], "221 ")
        peer = "{}:{}".format(*client.link.getsockname())
        until("its end", lambda: lines_of(relay, "client-end"))
        same("refused", hand_in(relay, recipients=("b@example.org", "r@example.org", "l@example.org")), {})
        read_report(field.arrived(2)[1], 2, 1)
        until("the last lines", lambda: [len(lines_of(relay, it)) for it in ("client-end", '"sent"')] == [2, 2])
    lines = [json.loads(line, object_pairs_hook=list) for line in lines_of(relay, "")]
    same("lines without a time", [it for it in lines if it[0][0] != "time" or not MOMENT.match(it[0][1] + " ")], [])
    ages = [value for line in lines for key, value in line if key in ("delay", "duration")]
    same("how old things are", (len(ages), {type(age) for age in ages}), (6, {int}))
    lines = [[it for it in line if it[0] not in ("time", "delay", "duration")] for line in lines]

    def result(event, number, path, reply):
        return [("event", event), ("message", number), ("hop", "next.example"),
                ("addr", f"127.0.0.1:{field.sink.port}"), ("to", path), ("status", event), ("reply", reply)]

    octets = len(b"EHLO client.example\r\nNONSENSE\r\nQUIT\r\n")
    same("the first lines", lines[:3],
         [[("event", "listening"), ("addr", f"127.0.0.1:{relay.port}")],
          [("event", "rejected"), ("client", peer), ("command", "unknown"), ("reply", "500 unknown command")],
          [("event", "client-end"), ("client", peer), ("messages", 0), ("rejected", 1), ("octets", octets),
           ("reason", "quit")]])
    others = [line for line in lines[3:] if line[0][1] not in ("accepted", "client-end")]
    same("the others", others,
         [result("sent", 1, "<b@example.org>", "250 queued\tas 77"),
          result("failed", 1, "<r@example.org>", '550 no "user" \\'),
          result("deferred", 1, "<l@example.org>", "450 mailbox busy"),
          [("event", "report"), ("message", 2), ("of", 1), ("to", "<a@example.org>"), ("kind", "failed")],
          result("sent", 2, "<a@example.org>", "250 queued\tas 77")])


def a_report_is_named_by_what_it_tells(field):
    """Of a recipient that asks for no report it tells nothing, whatever becomes of that (RFC 3461, 4.1)."""
    relay, manners = field.relay(), field.sink.manners
    manners.offers = ("PIPELINING",)
    clocks = Clocks(field, relay)

    def submit(client, *recipients):
        same("the reply to MAIL", client.say(b"MAIL FROM:<a@example.org>\r\n")[:4], "250 ")
        for recipient in recipients:
            same("the reply to RCPT", client.say(f"RCPT TO:{recipient}\r\n".encode())[:4], "250 ")
        same("the reply to DATA", client.say(b"DATA\r\n")[:4], "354 ")
        same("the reply", client.say(text_of(10))[:4], "250 ")

    def kinds():
        return [line.split()[-1] for line in told(relay, "report message")]

    with relay.running(), clients_of(relay, 1) as [client]:
        manners.refusals = {"<r@example.org>": "550 no such user"}
        wanted = []
        for notify, kind in (("NEVER", "relayed"), ("FAILURE", "failed"), ("SUCCESS", "relayed")):
            submit(client, f"<r@example.org> NOTIFY={notify}", "<b@example.org> NOTIFY=SUCCESS")
            wanted.append(f"kind={kind}")
            until("a report", lambda: kinds() == wanted)
        manners.refusals = {"<r@example.org>": "450 busy", "<l@example.org>": "450 busy"}
        submit(client, "<r@example.org> NOTIFY=NEVER", "<l@example.org> NOTIFY=DELAY")
        until("both deferred", lambda: len(told(relay, "status=deferred")) == 2)
        manners.refusals = {"<r@example.org>": "550 no such user", "<l@example.org>": "450 busy"}
        clocks.advance(4 * 3600 + 60)
        until("the report of the delay", lambda: kinds() == [*wanted, "kind=delayed"])
        until("those that failed", lambda: len(told(relay, "status=failed")) == 4)
    field.sink.take_all()


def refused(relay, address="127.0.0.1", times=1):
    """A client that is refused a command so often, and leaves: how a line names it."""
    with Client(relay, address) as client:
        client.begin()
        for _ in range(times):
            same("a reply", client.say(b"NONSENSE\r\n"), "500 unknown command")
        same("the last reply", client.say(b"QUIT\r\n")[:4], "221 ")
        return client_of(client)


UNKNOWN = 'relayd: rejected {} command=unknown reply="500 unknown command"'


def what_clients_are_refused_has_ten_lines_a_minute(field):
    """After the minute a line says how many more; the line for the client's end has the number of all."""
    relay = field.relay()
    clocks = Clocks(field, relay)
    with relay.running():
        name = refused(relay, times=25)
        until("its end", lambda: told(relay, "client-end"))
        lines = [UNKNOWN.format(name)] * 10
        same("its lines", told(relay, "rejected client"), lines)
        clocks.advance(61)
        lines.append(f"relayd: rejected {name} count=15")
        until("the line of the others", lambda: told(relay, "rejected client") == lines, SOON)
    same("its end", [line.split()[3:5] + line.split()[6:] for line in told(relay, "client-end")],
         [["messages=0", "rejected=25", "reason=quit"]])


def a_client_that_reconnects_has_ten_lines_a_minute(field):
    """They are those of its address; another one has its own. The line with the number of the others comes when the
    minute is over, though nobody connects then."""
    relay = field.relay(client_timeout=3600)
    shim(field, "run_clocks", relay, FASTER="6")
    with relay.running():
        names = [refused(relay) for _ in range(12)]
        lines = [UNKNOWN.format(name) for name in [*names[:10], refused(relay, "127.0.0.2")]]
        until("the lines at once", lambda: told(relay, "rejected client") == lines, SOON)
        lines.append(f"relayd: rejected {names[11]} count=2")
        until("the line of the others", lambda: told(relay, "rejected client") == lines, 10 + SOON)
        lines.append(UNKNOWN.format(refused(relay)))
        until("a line of the next minute", lambda: told(relay, "rejected client") == lines, SOON)


def each_refused_command_is_told_of_where_many_addresses_send_such(field):
    """By a line of its own, or in the number of another, once; up to 64 addresses are counted at a time."""
    relay = field.relay()
    clocks = Clocks(field, relay)
    with relay.running():
        for last in range(1, 81):
            refused(relay, f"127.0.1.{last}", 12)

        def lines():
            refusals = [line for line in told(relay, "rejected client") if "reply" in line]
            return [line.split("client=")[1].split(":")[0] for line in refusals]

        wanted = [f"127.0.1.{last}" for last in range(1, 81) for _ in range(10)]
        until("the lines at once", lambda: lines() == wanted, SOON)
        clocks.advance(61)
        until("all lines", lambda: len(told(relay, " count=2")) == 80, SOON)
    counts = [re.fullmatch(r"relayd: rejected client=127\.0\.1\.(\d+):\d+ count=2", line)[1]
              for line in told(relay, " count=")]
    # The first ones gave their places to others.
    same("who was counted", [int(last) for last in counts], [*range(1, 17), *range(65, 81), *range(17, 65)])


def a_refusal_names_its_command_where_the_reply_is_that_of_one_alone(field):
    """Others may answer several commands, and name none."""
    relay = field.relay(routed_paths='"refuse"')
    with relay.running(), Client(relay) as client:
        client.begin()
        client.say(b"MAIL FROM:<a@example.org>\r\n")
        for octets, reply in ((b"NONSENSE\r\n", "500 unknown command"), (b"RCPT TO:b\r\n", "501 bad path"),
                              (b"RCPT TO:<b@nowhere.example>\r\n", "550 no route"),
                              (b"RCPT TO:<b%nowhere.example@example.org>\r\n", "553 routed address refused"),
                              (b"DATA\r\n", "554 no valid recipients"),
                              (b"BDAT x\r\n", "421 relay.example bad chunk size, closing")):
            same("a reply", client.say(octets), reply)
        name = client_of(client)
        until("its end", lambda: told(relay, "client-end"))
    same("its lines", told(relay, "rejected client"), [f"relayd: rejected {name} {it}" for it in (
        'command=unknown reply="500 unknown command"', 'reply="501 bad path"', 'command=rcpt reply="550 no route"',
        'command=rcpt reply="553 routed address refused"', 'reply="554 no valid recipients"',
        'command=bdat reply="421 relay.example bad chunk size, closing"')])


def a_full_spool_has_a_line_once_a_minute(field):
    """However many messages are refused for it."""
    away = {"example.net": ("away.example", free_port())}
    relay, refused = field.relay(more=away, spool_limit=10000, client_timeout=3600), 0
    shim(field, "run_clocks", relay, FASTER=str(FASTER))
    with relay.running(), clients_of(relay, 1) as [client]:
        client.hand_in("c@example.net", text_of(8000))
        begun = time.monotonic()
        while len(told(relay, FULL)) < 3 and time.monotonic() < begun + PATIENCE:
            client.ask_for_text()
            same("the reply", client.say(text_of(4000)), "452 spool full")
            refused += 1
        minutes = (time.monotonic() - begun) * FASTER / 60
    same("its lines", told(relay, FULL), [FULL] * 3)
    if minutes < 1.9 or refused < 10:
        raise Difference(f"three lines within {minutes:.2f} minutes, for {refused} messages")


def of_spool(relay):
    """Returns the lines about the spool."""
    return [line for line in told(relay, "relayd: ") if line.split()[1] in ("spool-full", "compacted")]


def a_full_spool_is_noted_where_quit_stands_after_the_mail(field):
    """The 452 is among the last replies of its session: it is logged, and room is made from what has left."""
    relay = field.relay(spool_limit=20000)
    field.sink.manners.refusals = {"<l@example.org>": "450 later"}
    with relay.running(), clients_of(relay, 1) as [client]:
        # More than half of it stays, so the spool isn't written anew by itself.
        client.hand_in("l@example.org", text_of(11000))
        client.hand_in(text=text_of(7000))
        field.arrived(1)
        until("what stays alone", lambda: [row[2] for row in relay.held()] == ["<l@example.org>"])
        with Client(relay) as other:
            other.begin()
            other.ask_for_text()
            same("lines of the spool", of_spool(relay), [])
            other.link.sendall(text_of(4000) + b"QUIT\r\n")
            same("the last replies", other.rest(), b"452 spool full\r\n221 relay.example closing\r\n")
        until("two lines of the spool", lambda: len(of_spool(relay)) == 2, 1 + SOON)
        same("the first", of_spool(relay)[0], FULL)
        client.hand_in(text=text_of(4000))
        field.arrived(1)


def a_spool_that_is_written_anew_has_a_line(field):
    """With its sizes before and after, in octets."""
    relay = field.relay(spool_limit=10000)
    field.sink.hold_greetings()
    with relay.running(), clients_of(relay, 1) as [client]:
        client.hand_in(text=text_of(6000))
        accepted = bodies_of(relay.spool.read_bytes())[1]
        field.sink.greet()
        field.arrived(1)
        until("a line", lambda: len(told(relay, "compacted")) == 1)
        until("a file that is cut", lambda: relay.spool.read_bytes() == b"RELAYQ01\0")
    # Of the outcome: a gate, its length, its kind, message and moment, the hop's name, the number of places, a place
    # and its verdict, and the length of no report.
    before = accepted + 1 + 4 + 1 + 8 + 8 + 2 + len("next.example") + 1 + 2 + 4
    now = bodies_of(relay.second.read_bytes())[1]
    same("it", told(relay, "compacted"), [f"relayd: compacted before={before} after={now}"])
    if not now < 100 < 6000 < before:
        raise Difference(f"{before} octets, and then {now}")


@contextlib.contextmanager
def unread_log(relay):
    """A relay whose log goes to a pipe that nobody reads, and the pipe's end for a later reader."""
    end, log = os.pipe()
    try:
        process = relay.begin(stderr=log)
    finally:
        os.close(log)
    with open(end, "rb") as lines:
        try:
            yield process, lines
        finally:
            process.kill()
            process.communicate()


def flood(client, messages):
    """Submits so many messages for a hundred recipients each, which makes their lines long."""
    paths = [f"{'x' * 60}{number}@example.org" for number in range(100)]
    asks = b"".join(f"RCPT TO:<{path}>\r\n".encode() for path in paths)
    for _ in range(messages):
        client.link.sendall(b"MAIL FROM:<a@example.org>\r\n" + asks + b"DATA\r\n")
        same("the replies", [client.reply()[:4] for _ in range(102)], ["250 "] * 101 + ["354 "])
        same("the reply", client.say(text_of(10))[:4], "250 ")


def lines_of_paths(paths):
    """Returns how many lines an accepted message of these recipients has: the first has 320 octets for the client's
    name, the reverse path and recipients, and each further one as many for recipients."""
    count, size = 1, len("client.example") + len("<a@example.org>")
    for path in paths:
        if size + len(path) >= 320:
            count, size = count + 1, 0
        size += len(path) + 1
    return count


def a_log_that_nobody_reads_stops_no_mail(field):
    """More than a pipe and 1 MiB hold: lines are dropped, mail goes on as fast, and a line says how many they are as
    soon as somebody reads."""
    relay, messages = field.relay(more=own_route(field), spool_limit=1 << 30, recipients_per_attempt=100), 200
    with unread_log(relay) as (process, lines), clients_of(relay, 1) as [client]:
        alone = slowest(client, 10)
        flood(client, messages)
        field.sink.wait_for(messages + 10, 60)
        no_later(client, alone, 10, "a log that nobody reads")
        until("an empty list", lambda: relay.held() == [], 3 * PATIENCE)
        read = []
        reader = threading.Thread(target=lambda: [read.append(line.decode().rstrip("\n")) for line in lines])
        reader.start()
        until("a line of those that were dropped", lambda: [line for line in list(read) if "log-dropped" in line])
        last = client.hand_in()
        until("what came of the last", lambda: f"sent message={last} " in read[-1])
        process.kill()
        reader.join()
    same("lines without a time", [line for line in read if not MOMENT.match(line)], [])
    [place] = [place for place, line in enumerate(read) if "log-dropped" in line]
    dropped = int(re.fullmatch(r"relayd: log-dropped lines=(\d+)", MOMENT.sub("", read[place]))[1])
    # Of each of the flood 100 recipients in lines of 320 octets, and a line for each; of each of the others two lines;
    # and the line of the address.
    paths = [f"<{'x' * 60}{number}@example.org>" for number in range(100)]
    same("lines, and dropped ones", len(read) - 1 + dropped, messages * (100 + lines_of_paths(paths)) + 2 * 21 + 1)
    same("the lines after them", [line.split()[2:4] for line in read[place + 1:]],
         [["accepted", f"message={last}"], ["sent", f"message={last}"]])
    field.sink.take_all()


def dropped_lines_of_json_have_a_line_of_json(field):
    relay, messages = field.relay(more=own_route(field), spool_limit=1 << 30, log='"json"'), 150
    with unread_log(relay) as (process, lines), clients_of(relay, 1) as [client]:
        flood(client, messages)
        field.sink.wait_for(messages, 60)
        until("an empty list", lambda: relay.held() == [], 3 * PATIENCE)
        read = []
        reader = threading.Thread(target=lambda: [read.append(json.loads(line)) for line in lines])
        reader.start()
        until("a line of those that were dropped", lambda: read and read[-1]["event"] == "log-dropped")
        process.kill()
        reader.join()
    same("its fields", list(read[-1]), ["time", "event", "lines"])
    paths = [f"<{'x' * 60}{number}@example.org>" for number in range(100)]
    # Those of the messages, as above, and the line of the address.
    same("lines, and dropped ones", len(read) - 1 + read[-1]["lines"], messages * (100 + lines_of_paths(paths)) + 1)
    field.sink.take_all()


def who_reads_the_log_misses_no_line(field):
    """With thousands of messages from eight clients at once."""
    relay, each = field.relay(more=own_route(field), spool_limit=1 << 30), 400
    with relay.running(), clients_of(relay, 8) as clients:
        numbers = []
        threads = [threading.Thread(target=lambda client=client: numbers.extend(client.hand_in() for _ in range(each)))
                   for client in clients]
        for thread in threads:
            thread.start()
        for thread in threads:
            thread.join()
        field.sink.wait_for(8 * each, 120)
        until("all lines", lambda: len(told(relay, "sent message")) == 8 * each)
    for text in ("accepted message", "sent message"):
        found = [int(re.search(r" message=(\d+)", line)[1]) for line in told(relay, text)]
        same(f"messages with a line of {text}", sorted(found), sorted(numbers))
    same("messages", len(numbers), 8 * each)
    same("dropped ones", told(relay, "dropped"), [])
    field.sink.take_all()


def a_log_that_nobody_reads_stops_no_end(field):
    """A relay whose device has failed to sync ends, a little later, though nobody reads its last line."""
    relay = field.relay(spool_limit=1 << 30)
    shim(field, "device_calls", relay, CALLS=str(field.folder / "calls"), FAILED_SYNC="25")
    with unread_log(relay) as (process, _), clients_of(relay, 1) as [client]:
        with contextlib.suppress(Difference, OSError):
            flood(client, 20)
        begun = time.monotonic()
        same("its end", process.wait(PATIENCE), 1)
        if time.monotonic() > begun + 1 + SOON:
            raise Slow(f"it ends after {time.monotonic() - begun:.1f} s")
    field.sink.take_all()


ROWS = [
    its_log_begins_with_the_address_at_which_it_listens,
    a_next_hop_that_is_away_is_left_alone_for_longer_each_time,
    a_next_hop_that_is_back_has_a_line,
    a_client_that_is_cut_off_has_a_line,
    a_client_that_is_sent_away_has_a_line,
    a_client_that_may_not_connect_has_a_line_a_minute,
    refused_clients_have_a_line_a_minute,
    each_refusal_is_told_of_where_many_addresses_are_refused,
    what_came_of_each_recipient_has_a_line,
    each_recipient_has_the_reply_that_settles_it,
    a_next_hop_that_closes_by_421_is_quoted,
    lines_of_json_have_the_same_fields,
    a_report_is_named_by_what_it_tells,
    what_clients_are_refused_has_ten_lines_a_minute,
    a_client_that_reconnects_has_ten_lines_a_minute,
    each_refused_command_is_told_of_where_many_addresses_send_such,
    a_refusal_names_its_command_where_the_reply_is_that_of_one_alone,
    a_full_spool_has_a_line_once_a_minute,
    a_full_spool_is_noted_where_quit_stands_after_the_mail,
    a_spool_that_is_written_anew_has_a_line,
    a_log_that_nobody_reads_stops_no_mail,
    dropped_lines_of_json_have_a_line_of_json,
    who_reads_the_log_misses_no_line,
    a_log_that_nobody_reads_stops_no_end,
]


if __name__ == "__main__":
    play_rows("run_log", ROWS)
