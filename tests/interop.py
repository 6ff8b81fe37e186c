#!/usr/bin/env python3
"""The rows of tests/interop.sh, which unpacks the packages: relayd with other mail programs as its clients and as its
next hops, by `serve` and by `run`. A sink in Python is the last hop of each.

    tests/interop.py build/relayd build/interop postfix exim4-daemon-light opensmtpd swaks haproxy
"""
import contextlib
import email
import email.policy
import itertools
import os
import pathlib
import re
import smtplib
import socket
import subprocess
import sys
import tempfile
import time

sys.dont_write_bytecode = True

from mail_servers import Exim, HaProxy, OpenSmtpd, Postfix, can_make_rooms
from relay_program import Difference, Relay, free_port, same, until
from smtp_sink import Sink

# How long a message may take through another server, in seconds.
PATIENCE = 60
HEAD = (b"From: <a@out.example>\r\nTo: <b@in.example>\r\nDate: Mon, 23 Nov 2026 12:00:00 +0000\r\n"
        b"Message-ID: <1@client.example>\r\nSubject: periods\r\n\r\n")
SMALL = HEAD + b".\r\n..\r\n.a line\r\nend .\r\n...\r\n"
LINE = b".".ljust(74, b"x") + b"\r\n.\r\n..y\r\nz\r\n"
LARGE = HEAD + LINE * ((1048576 - len(HEAD)) // len(LINE))
LARGE += b"." * (1048576 - len(LARGE) - 2) + b"\r\n"


def recipients_of(domain, count):
    return [f"b{number}@{domain}" for number in range(count)]


def ends_of(lines):
    """Returns the lines of a push without their numbers."""
    return [line.split(" ", 1)[1] for line in lines]


def recipients_alone(message):
    """Returns the paths of a message's recipients, without parameters."""
    return [told.split(b" ")[0] for told in message.recipients]


def body_of(content):
    return content.split(b"\r\n\r\n", 1)[1]


def all_taken(sink, recipients, content):
    """Waits until each of the recipients has got a message with this body; returns the messages."""
    wanted = sorted(f"<{path}>".encode() for path in recipients)
    ends, messages = time.monotonic() + PATIENCE, []
    while True:
        messages += sink.take_all()
        found = sorted(told.split(b" ")[0] for message in messages for told in message.recipients)
        if len(found) >= len(wanted) or time.monotonic() > ends:
            break
        sink.wait_for(1, 1)
    same("recipients at the sink", found, wanted)
    for message in messages:
        body = body_of(message.content)
        if body != body_of(content):
            raise Difference(f"another body, of {len(body)} octets: {message.content[:400]!r}")
    return messages


class Field:
    """A sink, and a relay that sends mail for out.example there, by `run` or by `serve`."""

    def __init__(self, program, packages, folder, runs, **limits):
        self.packages, self.runs, self.sink = packages, runs, Sink()
        routes = {"out.example": ("sink.example", self.sink.port)}
        self.relay = Relay(program, folder, routes, max_content=2000000, **limits)
        self.relay.run("init")

    def close(self):
        self.sink.close()
        same("breaches at the sink", self.sink.breaches, [])

    @contextlib.contextmanager
    def serving(self, logs=False):
        """Runs the relay for as many connections as a client makes, until everything is relayed. Stopping it between
        the sink's reply and its own record of it would send a message twice. If `run` is to log, it does so in the
        relay's file."""
        if logs:
            process = self.relay.begin()
        elif self.runs:
            process = self.relay.begin("--quiet", stderr=subprocess.PIPE)
        else:
            process = self.relay.start("--rounds", "1000")
        try:
            yield
            ends = time.monotonic() + PATIENCE
            while not self.is_empty() and time.monotonic() < ends:
                time.sleep(0.1)
        finally:
            process.terminate()
            out, errors = process.communicate(timeout=PATIENCE)
        same("relayd says", errors or b"", b"")
        same("list", self.relay.held(), [])

    @contextlib.contextmanager
    def serving_one(self, end):
        """Runs the relay for one connection, and relays its mail afterwards: `serve` ends then."""
        if self.runs:
            with self.serving():
                yield
        else:
            with self.relay.serving() as lines:
                yield
            same("the lines of serve", ends_of(lines), [end])

    def hand_on(self, end):
        """Relays what is due after that; `run` does so by itself."""
        if not self.runs:
            same("push", ends_of(self.relay.run("push")), [end])

    def is_empty(self):
        """Returns whether the spool is empty. A `list` beside `serve` may take a record that is just being added for
        damage (docs/relayd.8)."""
        ended = self.relay.ended(PATIENCE, "list")
        return ended.returncode == 0 and not ended.stdout


def told_to_sender(message, sender, recipient):
    """Checks that a message is the report to a sender of a recipient that a next hop has refused by 550."""
    same("from and to", (message.mail.split(b" ")[0], recipients_alone(message)), (b"<>", [b"<%b>" % sender]))
    report = list(email.message_from_bytes(message.content, policy=email.policy.default).iter_parts())
    told = dict(report[1].get_payload()[1].items())
    same("the recipient", told["Final-Recipient"], f"rfc822; {recipient}")
    same("the action", told["Action"], "failed")
    if not told["Diagnostic-Code"].startswith("smtp; 550 "):
        raise Difference(f"the report says: {told}")


def hand_in(port, recipients, content, mail=(), rcpt=()):
    with smtplib.SMTP("127.0.0.1", port, local_hostname="client.example", timeout=PATIENCE) as client:
        same("refused", client.sendmail("a@out.example", recipients, content, mail, rcpt), {})


SIZES = [("one recipient", 1, SMALL), ("100 recipients", 100, SMALL), ("1 MiB", 1, LARGE)]


def through_a_client(field, server):
    """A server relays to relayd what was submitted to it."""
    # One relay for all: a server may keep its connection to it for the next message.
    with field.serving():
        for what, count, content in SIZES:
            hand_in(server.port, recipients_of("out.example", count), content)
            messages = all_taken(field.sink, recipients_of("out.example", count), content)
            word = f"{server.name.lower()}.example"
            mark = f"Received: from {word} ([127.0.0.1])\r\n by relay.example with ESMTP".encode()
            for message in messages:
                same(f"{what}: the first line", message.content[: len(mark)], mark)


def through_a_hop(field, server):
    """relayd relays to a server what was submitted to it."""
    to_sink = ("sink.example", field.sink.port)
    field.relay.route({"in.example": ("next.example", server.port), "out.example": to_sink})
    for what, count, content in SIZES:
        with field.serving_one("next.example ended"):
            hand_in(field.relay.port, recipients_of("in.example", count), content)
        messages = all_taken(field.sink, recipients_of("in.example", count), content)
        for message in messages:
            if b"\r\n by relay.example with ESMTP id " not in message.content:
                raise Difference(f"{what}: no time stamp line of the relay in {message.content[:400]!r}")
        same(f"{what}: list", field.relay.held(), [])


@contextlib.contextmanager
def trusting_nobody(field, server):
    """Within the block the relay trusts no client of this machine, and mail for domains without a line of their own
    goes to the sink. Neither key is set in the configuration of later rows."""
    rules = {"trusted_clients": '["192.0.2.0/24"]', "routed_paths": '"refuse"'}
    field.relay.limits.update(rules)
    field.relay.route({"in.example": ("next.example", server.port), "*": ("sink.example", field.sink.port)})
    yield
    for key in rules:
        del field.relay.limits[key]


def refused_to_a_stranger(field, recipients):
    """Returns the codes by which a client that isn't trusted is refused recipients. The next hop answers for the others
    in one attempt."""
    with field.serving_one("next.example ended"):
        with smtplib.SMTP("127.0.0.1", field.relay.port, local_hostname="client.example", timeout=PATIENCE) as client:
            refused = client.sendmail("a@stranger.example", recipients, SMALL)
    return {path: code for path, (code, _text) in refused.items()}


def a_stranger(field, server):
    """A client that isn't trusted may send to a domain with a line of its own, but not by a routed address, nor by the
    route of all other domains."""
    wanted = {"b@elsewhere.example": 550, "b%elsewhere.example@in.example": 553, "elsewhere.example!b@in.example": 553,
              '"b@elsewhere.example"@in.example': 553}
    with trusting_nobody(field, server):
        same("refused", refused_to_a_stranger(field, ["b@in.example", *wanted]), wanted)
    all_taken(field.sink, ["b@in.example"], SMALL)


def a_report_to_a_stranger(field, server):
    """A report leaves by the route of all other domains, by which the client itself may not send."""
    with trusting_nobody(field, server):
        same("refused", refused_to_a_stranger(field, ["refused@in.example", "b@stranger.example"]),
             {"b@stranger.example": 550})
        field.hand_on("sink.example ended")
    field.sink.wait_for(1, PATIENCE)
    reports = field.sink.take_all()
    same("messages at the sink", len(reports), 1)
    told_to_sender(reports[0], b"a@stranger.example", "refused@in.example")
    same("list", field.relay.held(), [])


def in_the_log_of_a_hop(field, server):
    """A message is found in the relay's log by its number there, and then in Postfix's by the one in its reply."""
    with field.serving(logs=True):
        hand_in(field.relay.port, ["b@in.example"], SMALL)
    all_taken(field.sink, ["b@in.example"], SMALL)
    log = field.relay.log.read_text()
    accepted = re.search(r" relayd: accepted message=(\d+) client=127\.0\.0\.1:\d+ .* to=<b@in\.example>\n", log)
    if not accepted:
        raise Difference(f"no line of the message that was accepted: {log}")
    sent = re.compile(rf' relayd: sent message={accepted[1]} hop=next\.example addr=127\.0\.0\.1:{server.port} .*'
                      r' to=<b@in\.example> status=sent reply="250 2\.0\.0 Ok: queued as (\w+)"\n')
    told = sent.search(log, accepted.end())
    if not told:
        raise Difference(f"no line of message {accepted[1]} with Postfix's reply: {log}")
    taken = re.compile(rf"\]: {told[1]}: to=<b@in\.example>, .* status=sent ")
    until(f"{told[1]} in Postfix's log", lambda: taken.search(server.said()), PATIENCE)


def a_recipient_refused_by_a_hop(field, server):
    with field.serving_one("next.example ended"):
        hand_in(field.relay.port, ["b@in.example", "refused@in.example"], SMALL)
    field.hand_on("sink.example ended")
    field.sink.wait_for(2, PATIENCE)
    messages = sorted(field.sink.take_all(), key=lambda message: message.recipients)
    same("recipients", [recipients_alone(message) for message in messages], [[b"<a@out.example>"], [b"<b@in.example>"]])
    same("the body", body_of(messages[1].content), body_of(SMALL))
    told_to_sender(messages[0], b"a@out.example", "refused@in.example")
    same("list", field.relay.held(), [])


def many_recipients_refused_by_a_hop(field, server):
    """Postfix closes a connection after 20 refusals (smtpd_hard_error_limit). No attempt has that many recipients, and
    the recipient that the server takes is in the second attempt."""
    refused = [f"refused+{number}@in.example" for number in range(25)]
    with field.serving():
        hand_in(field.relay.port, [*refused, "b@in.example"], SMALL)
    field.sink.wait_for(3, PATIENCE)
    messages = field.sink.take_all()
    taken = [recipients_alone(message) for message in messages]
    same("recipients", sorted(taken), [[b"<a@out.example>"], [b"<a@out.example>"], [b"<b@in.example>"]])
    reports = [message.content for message in messages if recipients_alone(message) != [b"<b@in.example>"]]
    told = [report.count(b"\r\nAction: failed\r\n") for report in reports]
    same("recipients in each report", told, [15, 10])


def parameters_through_a_hop(field, server):
    with field.serving_one("next.example ended"):
        hand_in(field.relay.port, ["b@in.example"], SMALL, ["RET=HDRS", "ENVID=q+2B1"],
                ["NOTIFY=SUCCESS,FAILURE", "ORCPT=rfc822;B+2Bx@old.example"])
    message = all_taken(field.sink, ["b@in.example"], SMALL)[0]
    same("MAIL", sorted(message.mail.split(b" ")), sorted([b"<a@out.example>", b"RET=HDRS", b"ENVID=q+2B1"]))
    same("RCPT", sorted(message.recipients[0].split(b" ")),
         sorted([b"<b@in.example>", b"NOTIFY=SUCCESS,FAILURE", b"ORCPT=rfc822;B+2Bx@old.example"]))


def chunks_of_exim(field, server):
    """Exim sent all mail data to relayd in chunks: its log has a K after each reply."""
    end = time.monotonic() + PATIENCE
    while True:
        lines = [line for line in server.said().splitlines() if "out.example R=out" in line]
        sent = [line for line in lines if "=>" in line or "->" in line]
        if sent and all(" K " in line for line in sent):
            return
        if end < time.monotonic():
            raise Difference(f"Exim's log: {sent}")
        time.sleep(0.1)


def a_chunk_through_exim(field, server):
    """Mail data that doesn't end in CR LF is sent to Exim in a chunk."""
    content = HEAD + b".\r\n..\r\nno end"
    with field.serving_one("next.example ended"):
        link = socket.create_connection(("127.0.0.1", field.relay.port), PATIENCE)
        with link, link.makefile("rb") as replies:
            link.sendall(b"EHLO x\r\nMAIL FROM:<a@out.example>\r\nRCPT TO:<b@in.example>\r\n"
                         b"BDAT %d LAST\r\n%bQUIT\r\n" % (len(content), content))
            replies.read()
    # Exim ends the last line.
    all_taken(field.sink, ["b@in.example"], content + b"\r\n")


def swaks(field, packages):
    """swaks submits a message from a file."""
    unpacked = packages / "swaks/usr/bin/swaks"
    command = ["perl", unpacked] if unpacked.exists() else ["swaks"]
    for what, count, content in SIZES:
        recipients = recipients_of("out.example", count)
        file = field.relay.folder / "content"
        # swaks ends the last line itself.
        file.write_bytes(content.removesuffix(b"\r\n"))
        words = ["--server", "127.0.0.1", "--port", str(field.relay.port), "--ehlo", "swaks.example"]
        words += ["--from", "a@out.example", "--to", ",".join(recipients), "--data", f"@{file}", "--hide-all"]
        with field.serving():
            ended = subprocess.run([*command, *words], capture_output=True, timeout=PATIENCE)
            same(f"{what}: swaks", (ended.returncode, ended.stderr), (0, b""))
            all_taken(field.sink, recipients, content)


def python(field, packages):
    """Python's smtplib submits the same message."""
    for what, count, content in SIZES:
        recipients = recipients_of("out.example", count)
        with field.serving():
            hand_in(field.relay.port, recipients, content)
            all_taken(field.sink, recipients, content)


# Rows of which `push` and `serve` have nothing: an attempt of theirs is for all recipients of a message, and the log is
# that of `run`.
OF_RUN = [many_recipients_refused_by_a_hop, in_the_log_of_a_hop]
SERVERS = {
    "postfix": (Postfix, [
        through_a_client, a_stranger, a_report_to_a_stranger, through_a_hop, in_the_log_of_a_hop,
        a_recipient_refused_by_a_hop, parameters_through_a_hop, many_recipients_refused_by_a_hop]),
    "exim4-daemon-light": (Exim, [
        through_a_client, chunks_of_exim, a_stranger, a_report_to_a_stranger, through_a_hop,
        a_recipient_refused_by_a_hop, parameters_through_a_hop, a_chunk_through_exim,
        many_recipients_refused_by_a_hop]),
    "opensmtpd": (OpenSmtpd, [
        through_a_client, a_stranger, a_report_to_a_stranger, through_a_hop, a_recipient_refused_by_a_hop,
        many_recipients_refused_by_a_hop]),
}


def run_server(program, packages, package, folder, runs):
    make, rows = SERVERS[package]
    rows = [row for row in rows if runs or row not in OF_RUN]
    with contextlib.closing(Field(program, packages, folder, runs)) as field:
        with contextlib.closing(make(packages, field.relay.port, field.sink.port)) as server:
            for row in rows:
                try:
                    row(field, server)
                except (Difference, OSError, smtplib.SMTPException) as difference:
                    raise Difference(f"{row.__name__}: {difference}\n{server.said()[-2000:]}") from None
    return f"{make.name}: {', '.join(row.__name__ for row in rows)}"


def run_balanced(program, packages, _balancer, folder, runs):
    """Two relays behind a balancer, which gives them connections in turn: all clients seem to have one address."""
    count = 10
    fields = [Field(program, packages, pathlib.Path(folder) / name, runs) for name in ("one", "two")]
    with contextlib.ExitStack() as stack:
        for field in fields:
            stack.enter_context(contextlib.closing(field))
            stack.enter_context(field.serving())
        one, two = (field.relay.port for field in fields)
        balancer = stack.enter_context(contextlib.closing(HaProxy(packages, one, two)))
        for number in range(count):
            hand_in(balancer.port, [f"b{number}@out.example"], SMALL)
    taken = [sorted(told.split(b" ")[0] for message in field.sink.messages for told in message.recipients)
             for field in fields]
    same("recipients at both sinks", sorted(taken[0] + taken[1]),
         sorted(b"<b%d@out.example>" % number for number in range(count)))
    if not all(taken):
        raise Difference("one relay got no mail")
    return f"{HaProxy.name}: two relays behind it"


def run_proxied(program, packages, header, folder, runs):
    """A relay behind a balancer that names each connection's client in this header, and that checks whether the relay
    answers, with a header that says that it speaks for itself (LOCAL, in version 1 UNKNOWN). These checks are sessions
    of the balancer, which has the only client's address that is 127.0.0.1."""
    checked = re.compile(r" relayd: client-end client=127\.0\.0\.1:\d+ messages=0 rejected=0 .* reason=quit\n")
    with contextlib.ExitStack() as stack:
        field = stack.enter_context(
            contextlib.closing(Field(program, packages, folder, runs, balancers='["127.0.0.1"]')))
        stack.enter_context(field.serving(logs=True))
        balancer = stack.enter_context(contextlib.closing(
            HaProxy(packages, field.relay.port, field.relay.port, header, interval="200ms")))
        for number in range(7, 11):
            client = f"127.0.0.{number}"
            with smtplib.SMTP("127.0.0.1", balancer.port, "client.example", PATIENCE, (client, 0)) as link:
                same("refused", link.sendmail("a@out.example", [f"b{number}@out.example"], SMALL), {})
            [message] = all_taken(field.sink, [f"b{number}@out.example"], SMALL)
            same("the client in the trace header", f"[{client}]".encode() in message.content.split(b"\r\n")[0], True)
        until("ten checks", lambda: len(checked.findall(field.relay.log.read_text())) >= 10, PATIENCE)
        said, log = balancer.said(), field.relay.log.read_text()
        for server in ("one", "two"):
            same(f"a check of {server} succeeded", f"Health check for server relays/{server} succeeded" in said, True)
        same("a relay is DOWN for HAProxy", "DOWN" in said, False)
        same("a connection of the balancer without a client", "balancer=" in log, False)
    return f"{HaProxy.name}: {header}"


def run_source(program, packages, _source, folder, runs):
    """Postfix's smtp-source, with 64 sessions at once and 640 messages."""
    room = packages / "postfix"
    unpacked = room / "usr/sbin/smtp-source"
    folders = [str(room / name) for name in ("usr/lib/postfix", "usr/lib/x86_64-linux-gnu")]
    with contextlib.closing(Field(program, packages, folder, runs, sessions_per_client=64)) as field:
        command = [unpacked if unpacked.exists() else "smtp-source", "-s", "64", "-m", "640"]
        command += ["-f", "a@out.example", "-t", "b@out.example", f"127.0.0.1:{field.relay.port}"]
        with field.serving():
            ended = subprocess.run(command, capture_output=True, timeout=PATIENCE,
                                   env={**os.environ, "LD_LIBRARY_PATH": ":".join(folders)})
            same("smtp-source", (ended.returncode, ended.stdout, ended.stderr), (0, b"", b""))
        messages = field.sink.take_all()
        same("messages at the sink", len(messages), 640)
        same("their recipients", {tuple(recipients_alone(message)) for message in messages}, {(b"<b@out.example>",)})
    return "smtp-source: 64 sessions at once"


def run_flushed(program, packages, _server, folder, runs):
    """A Postfix that was away. A next hop that can't be reached is on hold for a minute, and `flush` ends that."""
    port, control = free_port(is_kept=False), pathlib.Path(folder) / "control"
    with contextlib.closing(Field(program, packages, folder, runs, control=f'"{control}"')) as field:
        field.relay.route({"in.example": ("next.example", port), "out.example": ("sink.example", field.sink.port)})
        with field.serving():
            hand_in(field.relay.port, ["b@in.example"], SMALL)
            time.sleep(2)
            same("queued", [place[2] for place in field.relay.held()], ["<b@in.example>"])
            with contextlib.closing(Postfix(packages, field.relay.port, field.sink.port, port=port)):
                begun = time.monotonic()
                same("flush", field.relay.run("flush", "--hop", "next.example"), ["flushed recipients=1"])
                all_taken(field.sink, ["b@in.example"], SMALL)
                if time.monotonic() - begun > 30:
                    raise Difference("the message was taken when the hold was over, and not when it was flushed")
    return "Postfix: flush after it was away"


def run_client(program, packages, client, folder, runs):
    with contextlib.closing(Field(program, packages, folder, runs)) as field:
        client(field, packages)
    return f"{client.__name__} as a client"


def main():
    program, packages, had = os.path.realpath(sys.argv[1]), pathlib.Path(sys.argv[2]).resolve(), sys.argv[3:]
    runs = [(run_client, python)]
    if "swaks" in had:
        runs.append((run_client, swaks))
    servers = [package for package in SERVERS if package in had]
    if servers and not can_make_rooms():
        print(f"interop: skipped: {', '.join(servers)}: no roots of their own can be mounted by this user")
        servers = []
    runs += [(run_server, package) for package in servers]
    if "haproxy" in had and can_make_rooms():
        runs.append((run_balanced, "haproxy"))
    plays = list(itertools.product(("serve", "run"), runs))
    if "postfix" in had:
        # `serve` takes one client after the other.
        plays.append(("run", (run_source, "postfix")))
    if "postfix" in servers:
        # The control socket is one of `run`.
        plays.append(("run", (run_flushed, "postfix")))
    if "haproxy" in had and can_make_rooms():
        # The key is one of `run`.
        plays += [("run", (run_proxied, header)) for header in ("send-proxy", "send-proxy-v2")]
    for by, (run, what) in plays:
        with tempfile.TemporaryDirectory() as folder:
            try:
                print(f"interop: {by}: {run(program, packages, what, folder, by == 'run')}", flush=True)
            except (Difference, OSError, smtplib.SMTPException, subprocess.SubprocessError) as difference:
                name = what if isinstance(what, str) else what.__name__
                sys.exit(f"interop: {by}: {name}: {difference}")
    print(f"interop: {len(plays)} rows, each as it has to be")


main()
