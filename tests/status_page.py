#!/usr/bin/env python3
"""Requests the page, the metrics and the list of `relayd run` over 127.0.0.1, as browsers do and as they don't, and
checks the responses, and the mail meanwhile. If `promtool` and `chromium` are installed, they read the responses too.
Ends at the first difference.

    tests/status_page.py build/relayd [ROW..]

Runs the named rows, or all. Time limits are multiplied by the environment variable TIMES (2). If SCREENSHOTS names a
folder, pictures of pages are saved there.
"""
import contextlib
import html
import json
import os
import pathlib
import re
import shutil
import socket
import subprocess
import sys
import time

sys.dont_write_bytecode = True

from relay_program import PATIENCE, Slow, free_port, same, until
from running_relay import PROMPT, TIMES, Client, beside, clients_of, hop_that_hangs, play_rows, slowest
from smtp_sink import Manners, Sink

SCRIPT = '"<script>alert(1)</script>"'
FIELDS = {
    "connection": "close",
    "allow": "GET, HEAD",
    "cache-control": "no-store",
    "x-content-type-options": "nosniff",
    "referrer-policy": "no-referrer",
    "cross-origin-resource-policy": "same-origin",
    "content-security-policy": "default-src 'none'; style-src 'unsafe-inline'; base-uri 'none'; form-action 'none'; "
                               "frame-ancestors 'none'",
}
# A request, and how it is answered.
REQUESTS = [
    (b"GET / HTTP/1.1\r\nHost: localhost\r\n\r\n", 200),
    (b"GET / HTTP/1.0\r\nHost: localhost\r\n\r\n", 200),
    (b"GET / HTTP/1.1\nhost:LocalHost:80\n\n", 200),
    (b"GET / HTTP/1.1\r\nHost: 127.0.0.1\r\n\r\n", 200),
    (b"GET / HTTP/1.1\r\nHost: 127.0.0.1:\r\n\r\n", 200),
    (b"GET /metrics HTTP/1.1\r\nHost: [::1]:9925\r\nAccept: */*\r\n\r\n", 200),
    (b"HEAD /queue.json HTTP/1.1\r\nHost: [::1]\r\n\r\n", 200),
    (b"GET / HTTP/1.1\r\n\r\n", 400),
    (b"GET / HTTP/1.1\r\nHost: localhost\r\nHost: localhost\r\n\r\n", 400),
    (b"GET / HTTP/2.0\r\nHost: localhost\r\n\r\n", 400),
    (b"GET  / HTTP/1.1\r\nHost: localhost\r\n\r\n", 400),
    (b"\x16\x03\x01\x02\x00\x01", 400),
    (b"GET / HTTP/1.1\r\nHost : localhost\r\n\r\n", 400),
    (b"GET / HTTP/1.1\r\nHost: relay.example\r\n\r\n", 403),
    (b"GET / HTTP/1.1\r\nHost: localhost.example\r\n\r\n", 403),
    (b"GET / HTTP/1.1\r\nHost: localhost:80.example\r\n\r\n", 403),
    (b"GET / HTTP/1.1\r\nHost: 127.0.0.1.example:80\r\n\r\n", 403),
    (b"GET / HTTP/1.1\r\nHost: 127.0.0.2\r\n\r\n", 403),
    (b"GET / HTTP/1.1\r\nHost:\r\n\r\n", 403),
    (b"POST /nowhere HTTP/1.1\r\nHost: relay.example\r\n\r\n", 403),
    (b"POST / HTTP/1.1\r\nHost: localhost\r\nContent-Length: 0\r\n\r\n", 405),
    (b"OPTIONS /nowhere HTTP/1.1\r\nHost: localhost\r\n\r\n", 405),
    (b"get / HTTP/1.1\r\nHost: localhost\r\n\r\n", 405),
    (b"GET /index.html HTTP/1.1\r\nHost: localhost\r\n\r\n", 404),
    (b"GET /? HTTP/1.1\r\nHost: localhost\r\n\r\n", 404),
    (b"HEAD /nowhere HTTP/1.1\r\nHost: localhost\r\n\r\n", 404),
    (b"GET / HTTP/1.1\r\nHost: localhost\r\n" + b"".join(b"X: %d\r\n" % n for n in range(31)) + b"\r\n", 200),
    (b"GET / HTTP/1.1\r\nHost: localhost\r\n" + b"".join(b"X: %d\r\n" % n for n in range(32)) + b"\r\n", 431),
    (b"GET / HTTP/1.1\r\nHost: localhost\r\nX: " + b"x" * 4048 + b"\r\n\r\n", 200),
    (b"GET / HTTP/1.1\r\nHost: localhost\r\nX: " + b"x" * 5000 + b"\r\n\r\n", 431),
]


class Page:
    """The page of a relay."""

    def __init__(self, field, more=None, **limits):
        self.port = free_port()
        self.relay = field.relay(more=more, status_listen=f'"127.0.0.1:{self.port}"', **limits)

    def visit(self):
        return socket.create_connection(("127.0.0.1", self.port), PATIENCE)

    def raw(self, request):
        """Returns the response to these octets, up to the end, with its status and its fields by name."""
        with self.visit() as link:
            link.sendall(request)
            answer = b"".join(iter(lambda: link.recv(1 << 16), b""))
        head, _, body = answer.partition(b"\r\n\r\n")
        first, *lines = head.decode("ascii").split("\r\n")
        fields = {}
        for line in lines:
            name, _, value = line.partition(": ")
            fields[name.lower()] = value
        return int(first.split(" ")[1]), fields, body

    def get(self, target, method="GET"):
        """Returns the body at a target, and its media type."""
        code, fields, body = self.raw(f"{method} {target} HTTP/1.1\r\nHost: localhost\r\n\r\n".encode())
        same(f"the status of {target}", code, 200)
        return fields["content-type"], body.decode("ascii")

    def values(self):
        """Returns the metrics, by name and labels."""
        lines = self.get("/metrics")[1].splitlines()
        return {line.rpartition(" ")[0]: int(line.rpartition(" ")[2]) for line in lines if not line.startswith("#")}

    def browse(self, *words):
        """Returns what a browser prints for the page; None if there is no browser."""
        browser = shutil.which("chromium")
        if browser is None:
            return None
        command = [browser, "--headless", "--no-sandbox", "--disable-gpu", "--hide-scrollbars", *words,
                   f"http://127.0.0.1:{self.port}/"]
        return subprocess.run(command, capture_output=True, timeout=60 * TIMES, check=True).stdout.decode()

    def pictures(self, name):
        """Takes pictures of the page, on a phone and on a wide screen, light and dark."""
        folder = os.environ.get("SCREENSHOTS")
        if folder is None:
            return
        for screen, size in (("phone", "390,1400"), ("wide", "1280,1300")):
            for shade, words in (("light", []), ("dark", ["--blink-settings=preferredColorScheme=0"])):
                file = pathlib.Path(folder).resolve() / f"{name}-{screen}-{shade}.png"
                self.browse(f"--screenshot={file}", f"--window-size={size}", *words)


# The rows. Each says in its name what holds.


def a_request_is_answered_as_it_should_be(field):
    page = Page(field)
    with page.relay.running():
        for request, wanted in REQUESTS:
            code, fields, body = page.raw(request)
            same(f"the answer to {request[:60]}", code, wanted)
            same("its fields", {name: fields.get(name) for name in FIELDS}, FIELDS)
            if request.startswith(b"HEAD"):
                same("a body for HEAD", body, b"")
            else:
                same("its length", int(fields["content-length"]), len(body))


def a_request_may_come_octet_by_octet(field):
    page = Page(field)
    with page.relay.running(), page.visit() as link:
        for octet in b"GET /metrics HTTP/1.1\r\nHost: localhost\r\n\r\n":
            link.sendall(bytes([octet]))
            time.sleep(0.002)
        same("the answer", link.recv(15), b"HTTP/1.1 200 OK")


def the_page_of_an_empty_queue_says_so(field):
    page = Page(field)
    with page.relay.running():
        kind, body = page.get("/")
        same("its type", kind, "text/html; charset=utf-8")
        same("its title", body.count("<title>relayd relay.example</title>"), 1)
        same("what is queued", body.count("Nothing is queued."), 1)
        seen = page.browse("--dump-dom")
        if seen is not None:
            same("a browser's title", seen.count("<title>relayd relay.example</title>"), 1)
        page.pictures("empty")


def metrics_tell_of_the_mail(field):
    page = Page(field)
    with page.relay.running(), clients_of(page.relay, 1) as [client]:
        before = page.values()
        for _ in range(3):
            client.hand_in()
        field.arrived(3)
        client.say(b"MAIL FROM:<a@example.org>\r\n")
        same("the reply without a route", client.say(b"RCPT TO:<b@nowhere.example>\r\n")[:4], "550 ")
        until("three are sent", lambda: page.values()["relayd_recipients_sent_total"] == 3)
        after = page.values()
        kind, text = page.get("/metrics")
    same("its type", kind, "text/plain; version=0.0.4; charset=utf-8")
    same("accepted", (before["relayd_messages_accepted_total"], after["relayd_messages_accepted_total"]), (0, 3))
    same("an append before", before.get("relayd_last_append_timestamp_seconds"), None)
    same("an append", abs(time.time() - after["relayd_last_append_timestamp_seconds"]) < 60, True)
    same("the spool's limit", after["relayd_spool_limit_bytes"], 67108864)
    tool = shutil.which("promtool")
    if tool is not None:
        ended = subprocess.run([tool, "check", "metrics"], input=text.encode(), capture_output=True)
        same("promtool", (ended.returncode, ended.stdout + ended.stderr), (0, b""))


def refused_connections_are_counted_by_their_reply(field):
    page = Page(field, clients='["127.0.0.1"]', sessions_per_client=1)
    with page.relay.running(), clients_of(page.relay, 1):
        for address, count in (("127.0.0.1", 2), ("127.0.0.2", 3)):
            for _ in range(count):
                with Client(page.relay, address) as client:
                    client.rest()
        # The others are told of, and counted, a minute after the first.
        until("one of each", lambda: counted(page) == (1, 1, 1))


def counted(page):
    """How many clients were served, for how many there was no room, and how many might not connect."""
    values = page.values()
    return (values["relayd_connections_total"], values["relayd_connections_turned_away_total"],
            values['relayd_rejections_total{cause="no_service"}'])


def one_of_a_kind_is_in_the_singular(field):
    page = Page(field)
    with page.relay.running(), clients_of(page.relay, 1) as [client]:
        for day in ("1 message accepted,1 recipient sent", "2 messages accepted,2 recipients sent"):
            client.hand_in()
            field.arrived(1)
            until(day, lambda: ",".join(re.findall(r'<span class="key"[^>]*>([^<]*)</span>', page.get("/")[1])) == day)


def connections_are_counted_while_they_stand(field):
    with hop_that_hangs() as (port, taken):
        page = Page(field, more={"hangs.example": ("hangs.example", port)})
        busy = ("relayd_sessions", "relayd_attempts_running")

        def counts():
            return [page.values()[name] for name in busy]

        with page.relay.running():
            same("at first", counts(), [0, 0])
            with clients_of(page.relay, 3) as clients:
                for client in clients:
                    client.hand_in("b@hangs.example")
                until("three clients and one attempt", lambda: counts() == [3, 1])
                until("a connection to the hop", lambda: len(taken) == 1)
                body = page.get("/")[1]
            same("on the page", [body.count(f"<dt>{name}</dt><dd>{count}</dd>") for name, count in (
                ("Sessions", 3), ("Running attempts", 1))], [1, 1])
            until("no client", lambda: counts() == [0, 1])


def the_list_is_that_of_list(field):
    page = Page(field, more={"away.example": ("away.example", free_port())})
    with page.relay.running(), clients_of(page.relay, 1) as [client]:
        for number in range(5):
            client.hand_in(f"b{number}@away.example")

        def rows():
            return [json.loads(line) for line in page.get("/queue.json")[1].splitlines()]

        def listed():
            return [json.loads(line) for line in page.relay.run("list", "--json")]

        def without_age(rows):
            return [{name: value for name, value in row.items() if name != "age"} for row in rows]

        until("the first is put off", lambda: listed()[0]["tries"] == 1)
        time.sleep(1)
        same("the list", without_age(rows()), without_age(listed()))


def markup_in_a_path_is_text(field):
    page = Page(field, more={"away.example": ("away.example", free_port())})
    with page.relay.running(), clients_of(page.relay, 1) as [client]:
        client.hand_in(f"{SCRIPT}@away.example")
        body = page.get("/")[1]
        same("scripts", body.lower().count("<script"), 0)
        cell = body.split('data-name="To">')[1].split("</td>")[0]
        same("the path", html.unescape(cell), f"<{SCRIPT}@away.example>")
        same("octets that have a meaning", [octet for octet in cell if octet in "<>\"'"], [])
        seen = page.browse("--dump-dom")
        if seen is not None:
            same("scripts in a browser", seen.lower().count("<script"), 0)
            same("the path in a browser", html.unescape(seen).count(f"<{SCRIPT}@away.example>"), 1)
        page.pictures("script")


def the_last_reply_of_each_next_hop_is_shown(field):
    """The next hops: one that defers and refuses recipients, one that can't be reached, and one that says nothing."""
    manners = Manners(refusals={"<later@refuses.example>": "451 4.2.1 mailbox <b>busy</b>, try again later",
                                "<no@refuses.example>": "550 5.1.1 no such user"})
    with Sink(manners=manners) as refusing, hop_that_hangs() as (port, _):
        page = Page(field, more={"refuses.example": ("refuses.example", refusing.port),
                                 "away.example": ("away.example", free_port()),
                                 "silent.example": ("silent.example", port)})
        with page.relay.running(), clients_of(page.relay, 1) as [client]:
            for path in ("later@refuses.example", "b@away.example", "b@silent.example"):
                client.hand_in(path)
            wanted = {"refuses.example": "451 4.2.1 mailbox &#60;b&#62;busy&#60;/b&#62;, try again later",
                      "away.example": "no reply: connection refused", "silent.example": "none yet"}
            until("a reply, a reason, and none", lambda: last_replies(page) == wanted)
            page.pictures("replies")
            client.hand_in("no@refuses.example")
            until("a later reply", lambda: last_replies(page)["refuses.example"] == "550 5.1.1 no such user")


def last_replies(page):
    """Returns what the page shows as the last reply of each next hop, without how long ago it came."""
    cells = re.findall(r'<th scope="row">([^<]*)</th>.* data-name="Last reply"><span>(.*)</span></td></tr>',
                       page.get("/")[1])
    return {name: re.sub(r" <small>\d+ (s|min) ago</small>$", "", reply) for name, reply in cells}


def a_long_queue_stops_no_mail(field):
    """5,000 messages for three next hops that are down: the page sums them up, the list is cut, and mail stays prompt
    while both are requested again and again."""
    hops = {f"{name}.example": (f"{name}.example", free_port()) for name in ("first", "second", "third")}
    page = Page(field, more=hops, spool_limit=1 << 30)
    with page.relay.running(), clients_of(page.relay, 1) as [client]:
        domains = list(hops)
        for number in range(5000):
            client.hand_in(f"b{number}@{domains[number % 7 % 3]}")
        time.sleep(1)
        body = page.get("/")[1]
        for name in domains:
            same(f"rows of {name}", body.count(f'<th scope="row">{name}</th>'), 1)
        same("the oldest", body.count('data-name="From"'), 20)
        values = page.values()
        same("queued", sum(values[f'relayd_queue_messages{{hop="{name}"}}'] for name in domains), 5000)
        rows = [json.loads(line) for line in page.get("/queue.json")[1].splitlines()]
        same("rows of the list", len(rows), 501)
        same("the last", rows[-1], {"cut": True, "listed": 500, "queued": 5000})
        page.pictures("long")

        def look(done):
            while not done.is_set():
                for target in ("/", "/queue.json", "/metrics"):
                    page.get(target)

        alone = slowest(client, 50)
        with beside(look):
            longest = slowest(client, 50)
        field.arrived(100)
        print(f"the slowest of 50 messages: {alone * 1000:.1f} ms alone, {longest * 1000:.1f} ms beside visitors")
        if longest > alone + PROMPT:
            raise Slow(f"a message takes {longest:.3f} s beside visitors, and {alone:.3f} s alone")


def eight_visitors_have_five_seconds_each(field):
    page = Page(field)
    with page.relay.running(), contextlib.ExitStack() as stack:
        begun = time.monotonic()
        silent = [stack.enter_context(page.visit()) for _ in range(8)]
        with clients_of(page.relay, 1) as [client]:
            client.hand_in()
        field.arrived(1)
        same("the ninth", page.get("/")[0], "text/html; charset=utf-8")
        waited = time.monotonic() - begun
        for link in silent:
            same("what a silent one got", link.recv(1), b"")
        if not 4.9 < waited < 5 + 2 * TIMES:
            raise Slow(f"the ninth waits for {waited:.1f} s")


def a_visitor_that_takes_nothing_is_sent_away(field):
    page = Page(field, more={"away.example": ("away.example", free_port())})
    with page.relay.running(), clients_of(page.relay, 1) as [client], contextlib.ExitStack() as stack:
        for number in range(600):
            client.hand_in(f"b{number}@away.example")
        for _ in range(8):
            link = stack.enter_context(socket.socket())
            link.setsockopt(socket.SOL_SOCKET, socket.SO_RCVBUF, 4096)
            link.connect(("127.0.0.1", page.port))
            link.sendall(b"GET /queue.json HTTP/1.1\r\nHost: localhost\r\n\r\n")
        time.sleep(0.5)
        longest = slowest(client, 20)
        field.arrived(20)
        if longest > PROMPT:
            raise Slow(f"a message takes {longest:.3f} s beside visitors that take nothing")
        same("the next", page.get("/")[0], "text/html; charset=utf-8")


def the_page_is_shown_to_this_machine_alone(field):
    for place in ('"0.0.0.0:9925"', '"192.0.2.1:9925"', '"127.0.0.1"', '"127.0.0.1:0"', '"127.0.0.1:65536"',
                  '"localhost:9925"', '"[::1]:9925"', "9925", '"127.0.0.1:+925"'):
        relay = field.relay(name=f"relay{free_port()}", status_listen=place)
        same(f"run with {place}", relay.refused("run"), (1, "relayd: config BadValue status_listen"))


def without_the_key_there_is_no_page(field):
    relay = field.relay()
    with relay.running(), clients_of(relay, 1) as [client]:
        client.hand_in()
        field.arrived(1)


ROWS = [
    a_request_is_answered_as_it_should_be,
    a_request_may_come_octet_by_octet,
    the_page_of_an_empty_queue_says_so,
    metrics_tell_of_the_mail,
    refused_connections_are_counted_by_their_reply,
    one_of_a_kind_is_in_the_singular,
    connections_are_counted_while_they_stand,
    the_list_is_that_of_list,
    markup_in_a_path_is_text,
    the_last_reply_of_each_next_hop_is_shown,
    a_long_queue_stops_no_mail,
    eight_visitors_have_five_seconds_each,
    a_visitor_that_takes_nothing_is_sent_away,
    the_page_is_shown_to_this_machine_alone,
    without_the_key_there_is_no_page,
]


if __name__ == "__main__":
    play_rows("status_page", ROWS)
