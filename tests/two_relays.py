#!/usr/bin/env python3
"""Runs `relayd serve` and `relayd push` over 127.0.0.1 between Python's smtplib and a sink, and between two relays, and
checks what arrives, what is reported, what waits for another attempt, and which faults come. Ends at the first
difference.

    tests/two_relays.py build/relayd
"""
import contextlib
import email.utils
import fcntl
import os
import pathlib
import re
import smtplib
import socket
import struct
import subprocess
import sys
import tempfile
import time

sys.dont_write_bytecode = True

from mail_checks import CONTENT, CONTENTS, FAILED, behind_mark, connected, converse, fields, hand_in, one_message
from mail_checks import read_report, talk
from relay_program import Difference, LOCKED, Relay, free_port, preload, same
from smtp_sink import Manners, Sink

HERE = pathlib.Path(__file__).resolve().parent


class Field:
    """What each row gets: a folder, a sink, and a relay whose mail for example.org goes to the sink."""

    def __init__(self, program, folder):
        self.program, self.folder = program, folder
        self.sink = Sink()
        self.relay = self.new_relay("first", {"example.org": ("next.example", self.sink.port)})
        self.relay.run("init")

    def new_relay(self, name, routes, **more):
        return Relay(self.program, self.folder / name, routes, **more)

    def later(self, relay, seconds):
        """Sets the relay's clock forward; not for `list`, which reads no clock."""
        preload(relay, self.folder, "later_clock", LATER=str(seconds))

    def close(self):
        self.sink.close()
        same("breaches at the sink", self.sink.breaches, [])


# The rows. Each says in its name what holds.


def a_content_arrives_octet_for_octet(field):
    number = 1
    for offers in [(), ("PIPELINING",), ("CHUNKING",), ("DSN",), ("PIPELINING", "CHUNKING", "DSN")]:
        for content in CONTENTS:
            field.sink.manners = Manners(offers)
            with field.relay.serving() as lines:
                same("refused", hand_in(field.relay, content), {})
            same("the lines of serve", lines, [f"{number} next.example ended"])
            message = one_message(field.sink)
            # smtplib puts a period before a lone LF's line too, and nothing takes it off.
            wanted = re.sub(rb"(?<!\r)\n\.", b"\n..", content)
            same("the content", behind_mark(message.content, "relay.example", number), wanted)
            same("MAIL", message.mail, b"<a@example.org>")
            same("RCPT", message.recipients, [b"<b@example.org>"])
            same("by chunks", message.by_chunks, False)
            same("list", field.relay.held(), [])
            number += 2


def a_content_by_chunks_goes_on_by_a_chunk_where_it_must(field):
    parts = [b"EHLO x\r\n", b"MAIL FROM:<a@example.org>\r\n", b"RCPT TO:<b@example.org>\r\n"]
    parts += [b"BDAT 5\r\n.\r\n\r\n", b"BDAT 6 LAST\r\n.\r\nend", b"QUIT\r\n"]
    with field.relay.serving() as lines:
        same("the last reply", converse(field.relay, *parts), "221 relay.example closing")
    same("the lines of serve", lines, ["1 next.example ended"])
    message = one_message(field.sink)
    same("the content", behind_mark(message.content, "relay.example", 1, "x"), b".\r\n\r\n.\r\nend")
    same("by chunks", message.by_chunks, True)
    # A next hop without chunks can't be sent this content: the sender is told.
    field.sink.manners = Manners(("PIPELINING", "DSN"))
    with field.relay.serving() as lines:
        converse(field.relay, *parts)
    same("the lines of serve", lines, ["3 next.example ended"])
    same("list", [row[:3] for row in field.relay.held()], [(4, 0, "<a@example.org>")])
    same("push", field.relay.run("push"), ["4 next.example ended"])
    report = read_report(one_message(field.sink), 4, 3)
    same("the recipient", fields(report, 1), {**FAILED, "Status": "5.6.3"})


def a_refused_recipient_is_reported_and_another_waits(field):
    refusals = {"<r@example.org>": "550-no\r\n550 no such user", "<l@example.org>": "450 later"}
    field.sink.manners = Manners(refusals=refusals)
    with field.relay.serving() as lines:
        before = int(time.time())
        recipients = ["b@example.org", "r@example.org", "l@example.org"]
        rcpt = ["ORCPT=rfc822;B+2Bx@old.example"]
        hand_in(field.relay, recipients=recipients, mail=["RET=HDRS", "ENVID=q+2B1"], rcpt=rcpt)
    same("the lines of serve", lines, ["1 next.example ended"])
    message = one_message(field.sink)
    same("RCPT", message.recipients, [b"<b@example.org> ORCPT=rfc822;B+2Bx@old.example"])
    held = field.relay.held()
    same("list", [row[:3] for row in held], [(1, 2, "<l@example.org>"), (2, 0, "<a@example.org>")])
    if not before + 1800 <= held[0][3] <= int(time.time()) + 1800:
        raise Difference(f"the place is due at {held[0][3]}, and it was {before} before the attempt")
    same("push", field.relay.run("push"), ["2 next.example ended"])
    report = read_report(one_message(field.sink), 2, 1)
    of_message = {"Original-Envelope-Id": "q+1", "Reporting-MTA": "dns; relay.example"}
    same("of the message", fields(report, 0), of_message)
    same("of the recipient", fields(report, 1), {
        "Original-Recipient": "rfc822; B+x@old.example", "Final-Recipient": "rfc822; r@example.org",
        "Action": "failed", "Status": "5.0.0", "Remote-MTA": "dns; next.example",
        "Diagnostic-Code": "smtp; 550 no such user"})
    same("reported places", len(report[1].get_payload()), 2)
    same("the third part", (report[2].get_content_type(), "periods" in report[2].get_payload()),
         ("text/rfc822-headers", True))
    same("list", field.relay.held(), held[:1])


def parameters_go_on_to_a_hop_that_knows_them(field):
    mail, rcpt = ["ret=full", "ENVID=a+3Db"], ["NOTIFY=delay,SUCCESS", "ORCPT=rfc822;b@x.example"]
    with field.relay.serving():
        hand_in(field.relay, mail=mail, rcpt=rcpt)
    message = one_message(field.sink)
    same("MAIL", sorted(message.mail.split(b" ")), sorted([b"<a@example.org>", b"RET=FULL", b"ENVID=a+3Db"]))
    same("RCPT", sorted(message.recipients[0].split(b" ")),
         sorted([b"<b@example.org>", b"NOTIFY=SUCCESS,DELAY", b"ORCPT=rfc822;b@x.example"]))
    # Another hop is sent none, and the sender, who asked for it, is told that the message was relayed there.
    field.sink.manners = Manners(("PIPELINING",))
    with field.relay.serving() as lines:
        hand_in(field.relay, mail=mail, rcpt=rcpt)
    same("the lines of serve", lines, ["3 next.example ended"])
    message = one_message(field.sink)
    same("MAIL and RCPT", (message.mail, message.recipients), (b"<a@example.org>", [b"<b@example.org>"]))
    same("push", field.relay.run("push"), ["4 next.example ended"])
    report = read_report(one_message(field.sink), 4, 3)
    same("of the recipient", fields(report, 1), {
        "Original-Recipient": "rfc822; b@x.example", "Final-Recipient": "rfc822; b@example.org",
        "Action": "relayed", "Status": "2.0.0", "Remote-MTA": "dns; next.example"})


def a_hundred_recipients_are_taken_and_no_more(field):
    recipients = [f"b{number}@example.org" for number in range(101)]
    for offers in [("PIPELINING",), ()]:
        field.sink.manners = Manners(offers)
        with field.relay.serving():
            refused = hand_in(field.relay, recipients=recipients)
        same("refused", refused, {"b100@example.org": (452, b"too many recipients")})
        same("RCPT", one_message(field.sink).recipients, [f"<{path}>".encode() for path in recipients[:100]])
        same("list", field.relay.held(), [])


def an_attempt_that_is_cut_off_is_made_again(field):
    points = ["connection", "EHLO", "MAIL", "RCPT", "DATA", "some content", "content"]
    numbers = range(1, 14, 2)
    for number, point in zip(numbers, points, strict=True):
        field.sink.manners = Manners(hangs_up_at=point)
        with field.relay.serving() as lines:
            hand_in(field.relay)
        same(f"the lines of serve after {point}", lines, [f"{number} next.example lost"])
    # Of the last the sink has the content, and the relay doesn't know that.
    behind_mark(one_message(field.sink).content, "relay.example", 13)
    waiting = [(number, 0, "<b@example.org>") for number in numbers]
    same("list", [row[:3] for row in field.relay.held()], waiting)
    field.sink.manners = Manners()
    same("push before it is due", field.relay.run("push"), [])
    field.later(field.relay, 1900)
    ended = [f"{number} next.example ended" for number in numbers]
    same("push when it is due", field.relay.run("push"), ended)
    contents = [message.content for message in field.sink.take_all()]
    for number, content in zip(numbers, contents, strict=True):
        same("the content", behind_mark(content, "relay.example", number), CONTENT)
    same("list", field.relay.held(), [])


def a_refused_content_is_reported_and_one_that_is_to_come_later_waits(field):
    field.sink.manners = Manners(content_reply="451 not now")
    with field.relay.serving() as lines:
        hand_in(field.relay)
    same("the lines of serve", lines, ["1 next.example ended"])
    same("list", [row[:3] for row in field.relay.held()], [(1, 0, "<b@example.org>")])
    field.sink.manners = Manners(content_reply="554 no")
    field.later(field.relay, 1900)
    same("push", field.relay.run("push"), ["1 next.example ended"])
    same("list", [row[:3] for row in field.relay.held()], [(3, 0, "<a@example.org>")])
    # A report that is refused is dropped: its reverse path is null.
    same("push", field.relay.run("push"), ["3 next.example ended"])
    same("list", field.relay.held(), [])


def is_due(relay, begun, seconds):
    """Checks that one place waits, until so long after a time between the beginning and now."""
    held = relay.held()
    same("list", [row[:3] for row in held], [(1, 0, "<b@example.org>")])
    if not int(begun) <= held[0][3] - seconds <= time.time():
        raise Difference(f"due at {held[0][3]}, and the attempt was between {begun} and {time.time()}")


def a_hop_that_is_down_and_comes_back(field):
    same("push of a new spool", field.relay.run("push"), [])
    port, begun = field.sink.port, time.time()
    field.sink.close()
    with field.relay.serving() as lines:
        hand_in(field.relay)
    same("the lines of serve", lines, ["1 next.example lost"])
    is_due(field.relay, begun, 1800)
    field.later(field.relay, 1900)
    same("push", field.relay.run("push"), ["1 next.example lost"])
    # The second attempt was 1,900 seconds further on, and the next comes an hour after it.
    is_due(field.relay, begun, 1900 + 3600)
    field.sink = Sink(port)
    same("push before it is due", field.relay.run("push"), [])
    field.later(field.relay, 1900 + 3700)
    same("push", field.relay.run("push"), ["1 next.example ended"])
    same("the content", behind_mark(one_message(field.sink).content, "relay.example", 1), CONTENT)
    same("list", field.relay.held(), [])


def mail_without_a_route_any_more_is_given_up(field):
    field.relay.route({"example.org": ("next.example", free_port())})
    with field.relay.serving() as lines:
        hand_in(field.relay, recipients=["b@example.org"])
    same("the lines of serve", lines, ["1 next.example lost"])
    field.relay.route({"example.com": ("next.example", field.sink.port)})
    same("push", field.relay.run("push"), ["1 noroute"])
    same("list", [row[:3] for row in field.relay.held()], [(3, 0, "<a@example.org>")])
    field.relay.route({"example.org": ("next.example", field.sink.port)})
    same("push", field.relay.run("push"), ["3 next.example ended"])
    report = read_report(one_message(field.sink), 3, 1)
    same("the recipient", fields(report, 1), {**FAILED, "Status": "5.1.2"})


def a_message_goes_over_two_relays(field):
    routes = {"example.org": ("last.example", field.sink.port)}
    second = field.new_relay("second", routes, host="second.example")
    second.run("init")
    field.relay.route({"example.org": ("second.example", second.port)})
    with second.serving() as at_second:
        with field.relay.serving() as at_first:
            hand_in(field.relay, mail=["ENVID=7"], rcpt=["NOTIFY=NEVER"])
    same("the lines of the first", at_first, ["1 second.example ended"])
    same("the lines of the second", at_second, ["1 last.example ended"])
    message = one_message(field.sink)
    same("MAIL", message.mail, b"<a@example.org> ENVID=7")
    same("RCPT", message.recipients, [b"<b@example.org> NOTIFY=NEVER"])
    passed = behind_mark(message.content, "second.example", 1, "relay.example")
    same("the content", behind_mark(passed, "relay.example", 1), CONTENT)
    same("list of both", field.relay.held() + second.held(), [])
    # While the second is away, the mail waits in the first, and its client has a reply all the same.
    with field.relay.serving() as lines:
        same("refused", hand_in(field.relay), {})
    same("the lines of the first", lines, ["3 second.example lost"])
    field.later(field.relay, 1900)
    with second.serving() as at_second:
        same("push", field.relay.run("push"), ["3 second.example ended"])
    same("the lines of the second", at_second, ["3 last.example ended"])
    same("list of both", field.relay.held() + second.held(), [])


def a_dialogue_is_answered_over_a_socket(field):
    stored = HERE.parent / "crates" / "relayd"
    with field.relay.serving(), connected(field.relay) as link:
        link.sendall((stored / "stdin").read_bytes())
        with link.makefile("rb") as replies:
            same("the replies", replies.read(), (stored / "stdout").read_bytes())


def serve_takes_so_many_connections(field):
    with field.relay.serving("--rounds", "4") as lines:
        hand_in(field.relay)
        # A client that goes away in the midst of its content, and one that says nothing, leave nothing.
        cut = b"EHLO x\r\nMAIL FROM:<a@example.org>\r\nRCPT TO:<b@example.org>\r\nDATA\r\nhalf a line"
        same("the last reply", converse(field.relay, cut)[:4], "250 ")
        converse(field.relay)
        hand_in(field.relay)
    same("the lines of serve", lines, ["1 next.example ended", "3 next.example ended"])
    same("messages at the sink", len(field.sink.take_all()), 2)
    # A recipient without a route is refused, and a spool that is full says so.
    with field.relay.serving():
        parts = [b"EHLO x\r\n", b"MAIL FROM:<>\r\n", b"RCPT TO:<b@example.com>\r\n"]
        same("no route", converse(field.relay, *parts), "550 no route")
    field.relay.limits["spool_limit"] = field.relay.spool.stat().st_size + 40
    field.relay.route({"example.org": ("next.example", field.sink.port)})
    with field.relay.serving() as lines:
        try:
            hand_in(field.relay)
            raise Difference("a message was accepted into a full spool")
        except smtplib.SMTPDataError as refused:
            same("the reply", (refused.smtp_code, refused.smtp_error), (452, b"spool full"))
    same("the lines of serve", lines, [])


def recipient(field, message, name, status, why, port=None):
    """Returns the line of a recipient at example.org."""
    addr = f"127.0.0.1:{port or field.sink.port}"
    attempt = f"message={message} hop=next.example addr={addr}"
    return f"relayd: {status} {attempt} to=<{name}@example.org> status={status} {why}"


def a_log_says_what_was_done_and_nothing_of_a_content(field):
    refusals = {"<r@example.org>": "550 \x1b[1mno \x07such user", "<l@example.org>": "450 later"}
    field.sink.manners, log = Manners(refusals=refusals), []
    with field.relay.serving(log=log) as lines, connected(field.relay) as link:
        peer = link.getsockname()[1]
        # 8, 27, three times 25, 6, 18, 2, 9, 3 and 6 octets: 154.
        link.sendall(b"EHLO x\r\nMAIL FROM:<a@example.org>\r\nRCPT TO:<b@example.org>\r\n"
                     b"RCPT TO:<r@example.org>\r\nRCPT TO:<l@example.org>\r\nDATA\r\n"
                     b"Subject: private\r\n\r\nprivate\r\n.\r\nQUIT\r\n")
        while link.recv(1000):
            pass
    same("the lines of serve", lines, ["1 next.example ended"])
    same("the log", log, [
        f"relayd: listening addr=127.0.0.1:{field.relay.port}",
        f"relayd: client-end client=127.0.0.1:{peer} messages=1 rejected=0 octets=154 reason=closed",
        recipient(field, 1, "b", "sent", 'reply="250 taken"'),
        # A refusal is kept with `?` in place of what isn't printable, as the report has it.
        recipient(field, 1, "r", "failed", 'reply="550 ?[1mno ?such user"'),
        recipient(field, 1, "l", "deferred", 'reply="450 later"'),
        "relayd: report message=2 of=1 to=<a@example.org> kind=failed"])
    # A report that is refused is dropped, and none is made of it.
    field.sink.manners = Manners(content_reply="554 no")
    same("push", field.relay.logged("push"),
         (["2 next.example ended"], [recipient(field, 2, "a", "failed", 'reply="554 no"')]))
    same("push with nothing due", field.relay.logged("push"), ([], []))


def visit(relay, *lines):
    """Sends each line after the reply to the one before has come. Returns the client's port."""
    with connected(relay) as link:
        talk(link, *[line + b"\r\n" for line in lines])
        return link.getsockname()[1]


def a_log_has_a_line_for_each_connection(field):
    to_b, to_c = b"RCPT TO:<b@example.org>", b"RCPT TO:<c@example.org>"
    two = [b"MAIL FROM:<a@example.org>", to_b, to_c, b"DATA", b"."]
    one = [b"MAIL FROM:<>", to_b, b"DATA", b"."]
    hundred = [b"MAIL FROM:<>", *[b"RCPT TO:<b%d@example.org>" % number for number in range(100)], b"DATA", b"."]
    # The lines of each connection, and its end. A line has two octets more than are written here.
    visits = [
        ([], "messages=0 rejected=0 octets=0 reason=closed"),
        # 8; 27, twice 25, 6 and 3; 14, 25, 6 and 3; 6.
        ([b"EHLO x", *two, *one, b"QUIT"],
         "messages=2 rejected=0 octets=148 reason=closed"),
        ([b"EHLO x", b"MAIL FROM:<a@example.org>"], "messages=0 rejected=0 octets=35 reason=closed"),
        # 8, 8, 27, 21 and 6: an argument too many, a domain without a route, and no recipient.
        ([b"EHLO x", b"DATA 1", b"MAIL FROM:<a@example.org>", b"RCPT TO:<b@example>", b"DATA"],
         "messages=0 rejected=3 octets=70 reason=closed"),
        # 8; 14, ten times 26, ninety times 27, 6 and 3.
        ([b"EHLO x", *hundred], "messages=1 rejected=0 octets=2721 reason=closed"),
    ]
    wanted, log = [], []
    with field.relay.serving("--rounds", str(len(visits) + 1), log=log):
        for lines, end in visits:
            wanted.append(f"relayd: client-end client=127.0.0.1:{visit(field.relay, *lines)} {end}")
        with connected(field.relay) as link:
            talk(link, b"NOOP\r\n")
            fault = "messages=0 rejected=0 octets=6 reason=input"
            wanted.append(f"relayd: client-end client=127.0.0.1:{link.getsockname()[1]} {fault}")
            # The connection is reset, and not ended.
            link.setsockopt(socket.SOL_SOCKET, socket.SO_LINGER, struct.pack("ii", 1, 0))
    same("the lines of connections", [line for line in log if line.startswith("relayd: client-end ")], wanted)


def a_log_says_why_a_place_has_left(field):
    field.sink.manners, log = Manners(("PIPELINING",)), []
    with field.relay.serving(log=log):
        # A next hop without chunks can't be sent a content whose last line has no end.
        parts = [b"EHLO x\r\n", b"MAIL FROM:<a@example.org>\r\n", b"RCPT TO:<b@example.org>\r\n"]
        converse(field.relay, *parts, b"BDAT 3 LAST\r\nend")
    same("the line of the attempt", log[2:],
         [recipient(field, 1, "b", "failed", 'reason="CHUNKING not offered"'),
          "relayd: report message=2 of=1 to=<a@example.org> kind=failed"])
    same("push", field.relay.run("push"), ["2 next.example ended"])
    # Where no connection can be made, and then without a route.
    port, log = free_port(), []
    field.relay.route({"example.org": ("next.example", port)})
    with field.relay.serving(log=log):
        hand_in(field.relay, recipients=["b@example.org", "c@example.org"])
    same("the lines of the attempt", log[2:],
         [recipient(field, 4, name, "deferred", 'reason="connection refused"', port) for name in "bc"])
    field.relay.route({"example.com": ("next.example", field.sink.port)})
    same("push", field.relay.logged("push"), (
        ["4 noroute"],
        [*[f'relayd: no-route message=4 to=<{name}@example.org> status=no-route reason="no route"' for name in "bc"],
         "relayd: report message=6 of=4 to=<a@example.org> kind=failed"]))


def a_log_says_which_places_have_expired(field):
    field.sink.manners = Manners(refusals={"<b@example.org>": "450 later", "<c@example.org>": "450 later"})
    log = []
    with field.relay.serving(log=log):
        hand_in(field.relay, recipients=["b@example.org", "c@example.org"])
    same("the lines of the attempt", log[2:],
         [recipient(field, 1, name, "deferred", 'reply="450 later"') for name in "bc"])
    # Five days after its acceptance a message is tried for the last time.
    field.later(field.relay, 5 * 86400 + 60)
    field.sink.manners = Manners(refusals={"<b@example.org>": "450 later"})
    same("push", field.relay.logged("push"), (
        ["1 next.example ended"],
        [recipient(field, 1, "b", "expired", 'reply="450 later"'),
         recipient(field, 1, "c", "sent", 'reply="250 taken"'),
         "relayd: report message=3 of=1 to=<a@example.org> kind=failed"]))


def a_sender_who_asked_hears_once_that_mail_is_late(field):
    field.sink.manners = Manners(refusals={"<b@example.org>": "450 later"})
    with field.relay.serving():
        hand_in(field.relay, rcpt=["NOTIFY=DELAY,FAILURE"])
    # Four hours after its acceptance a place that still waits is late.
    field.later(field.relay, 4 * 3600 + 60)
    same("push of late mail", field.relay.logged("push"), (
        ["1 next.example ended"],
        [recipient(field, 1, "b", "delayed", 'reply="450 later"'),
         "relayd: report message=3 of=1 to=<a@example.org> kind=delayed"]))
    same("list", [held[:2] for held in field.relay.held()], [(1, 0), (3, 0)])
    field.sink.take_all()
    field.later(field.relay, 8 * 3600)
    same("push after that", field.relay.logged("push"), (
        ["1 next.example ended", "3 next.example ended"],
        [recipient(field, 1, "b", "deferred", 'reply="450 later"'),
         recipient(field, 3, "a", "sent", 'reply="250 taken"')]))
    report = read_report(one_message(field.sink), 3, 1)
    arrival = email.utils.parsedate_to_datetime(report[1].get_payload()[0]["Arrival-Date"])
    status = fields(report, 1)
    until = email.utils.parsedate_to_datetime(status.pop("Will-Retry-Until"))
    same("for how long it is tried, in seconds", (until - arrival).total_seconds(), 5 * 86400.0)
    same("of the recipient", status, {**FAILED, "Action": "delayed", "Status": "4.0.0"})
    same("list", [held[:2] for held in field.relay.held()], [(1, 0)])


def a_silent_peer_is_given_up(field):
    waits = field.folder / "waits"
    preload(field.relay, field.folder, "shorter_waits", WAITS=str(waits))
    with field.relay.serving() as lines, connected(field.relay) as link:
        begun = time.monotonic()
        while link.recv(1000):
            pass
        waited = time.monotonic() - begun
    same("the lines of serve", lines, [])
    same("waits for a client", sorted(waits.read_text().splitlines()), ["read 300", "write 300"])
    if waited < 0.9:
        raise Difference(f"a silent client was given up after {waited} of a second")
    # A next hop that takes the connection and doesn't greet.
    with socket.create_server(("127.0.0.1", 0)) as silent:
        field.relay.route({"example.org": ("next.example", silent.getsockname()[1])})
        with field.relay.serving() as lines:
            hand_in(field.relay)
    same("the lines of serve", lines, ["1 next.example lost"])
    same("waits for a hop", sorted(waits.read_text().splitlines()[-2:]), ["read 600", "write 600"])


def a_hop_that_is_silent_is_tried_once_a_push(field):
    preload(field.relay, field.folder, "shorter_waits")
    port, log = field.sink.port, []
    field.sink.close()
    with field.relay.serving("--rounds", "2", log=log) as lines:
        hand_in(field.relay)
        hand_in(field.relay)
    same("the lines of serve", lines, ["1 next.example lost", "3 next.example lost"])
    same("the lines of attempts", [line for line in log if "status=" in line],
         [recipient(field, number, "b", "deferred", 'reason="connection refused"', port) for number in (1, 3)])
    # A next hop that takes connections and doesn't greet is waited for once, and the other message isn't tried.
    with socket.create_server(("127.0.0.1", port)) as silent:
        preload(field.relay, field.folder, "shorter_waits", LATER="1900")
        same("push", field.relay.logged("push"), (
            ["1 next.example lost", "3 next.example lost"],
            [recipient(field, number, "b", "deferred", "reason=timeout", port) for number in (1, 3)]))
        silent.settimeout(0)
        silent.accept()[0].close()
        try:
            silent.accept()
            raise Difference("a silent hop was connected to twice")
        except BlockingIOError:
            pass
    field.sink = Sink(port)


def a_hop_that_cuts_a_connection_is_tried_again(field):
    field.sink.manners, log = Manners(hangs_up_at="MAIL"), []
    with field.relay.serving(log=log):
        hand_in(field.relay)
    same("the line of the attempt", log[2:], [recipient(field, 1, "b", "deferred", 'reason="connection closed"')])
    # What a reply says is shown in printable octets, 200 of its own at most.
    field.sink.manners, log = Manners(content_reply="451 \x1b" + "x" * 300), []
    with field.relay.serving(log=log):
        hand_in(field.relay)
    same("the line of the attempt", log[2:],
         [recipient(field, 3, "b", "deferred", 'reply="451 \\x1b' + "x" * 199 + '"')])


def faults_come_in_their_order(field):
    relay = field.relay
    for word in ("serve", "push"):
        good = relay.file.read_text()
        relay.file.unlink()
        same(word, relay.refused(word), (1, "relayd: input"))
        relay.file.write_text(good.replace("listen", "listens"))
        same(word, relay.refused(word), (1, "relayd: config Missing listen"))
        relay.file.write_text(good)
        # The lock comes before the spool: another process has it, with a file that is no spool.
        kept = relay.spool.read_bytes()
        with relay.spool.open("r+b") as file:
            fcntl.flock(file, fcntl.LOCK_EX)
            file.write(b"no spool")
            file.flush()
            same(word, relay.refused(word), LOCKED)
        same(word, relay.refused(word), (1, "relayd: spool NotASpool"))
        relay.spool.write_bytes(kept)
        relay.route({"example.org": ("next.example", field.sink.port)})
    # The spool comes before the listener.
    with socket.create_server(("127.0.0.1", relay.port)):
        same("serve", relay.refused("serve"), (1, "relayd: socket"))
        relay.spool.write_bytes(b"no spool")
        same("serve", relay.refused("serve"), (1, "relayd: spool NotASpool"))
        relay.spool.write_bytes(kept)
    # What serves has the lock, and gives it back.
    with relay.serving():
        same("push beside serve", relay.refused("push"), LOCKED)
        same("serve beside serve", relay.refused("serve"), LOCKED)
        hand_in(relay)
    same("push after serve", relay.run("push"), [])


ROWS = [
    a_content_arrives_octet_for_octet,
    a_content_by_chunks_goes_on_by_a_chunk_where_it_must,
    a_refused_recipient_is_reported_and_another_waits,
    parameters_go_on_to_a_hop_that_knows_them,
    a_hundred_recipients_are_taken_and_no_more,
    an_attempt_that_is_cut_off_is_made_again,
    a_refused_content_is_reported_and_one_that_is_to_come_later_waits,
    a_hop_that_is_down_and_comes_back,
    mail_without_a_route_any_more_is_given_up,
    a_message_goes_over_two_relays,
    a_dialogue_is_answered_over_a_socket,
    serve_takes_so_many_connections,
    a_log_says_what_was_done_and_nothing_of_a_content,
    a_log_has_a_line_for_each_connection,
    a_log_says_why_a_place_has_left,
    a_log_says_which_places_have_expired,
    a_sender_who_asked_hears_once_that_mail_is_late,
    a_silent_peer_is_given_up,
    a_hop_that_is_silent_is_tried_once_a_push,
    a_hop_that_cuts_a_connection_is_tried_again,
    faults_come_in_their_order,
]


def run(program, row):
    with tempfile.TemporaryDirectory() as folder:
        field = Field(program, pathlib.Path(folder))
        with contextlib.closing(field):
            row(field)


def main():
    program = os.path.realpath(sys.argv[1])
    only = sys.argv[2:]
    rows = [row for row in ROWS if not only or row.__name__ in only]
    for row in rows:
        try:
            run(program, row)
        except (Difference, OSError, smtplib.SMTPException, subprocess.SubprocessError) as difference:
            sys.exit(f"two_relays: {row.__name__}: {type(difference).__name__}: {difference}")
    print(f"two_relays: {len(rows)} rows over 127.0.0.1, each as it has to be")


main()
