#!/usr/bin/env python3
"""Runs `relayd run` over local sockets and checks the fate of each message: which next hop gets it, with which octets,
what its sender is told, and that it stays queued until a next hop has accepted it. Ends at the first difference.

    tests/run_mail.py build/relayd [ROW..]

Runs the named rows, or all. Time limits are multiplied by the environment variable TIMES (2).
"""
import contextlib
import re
import sys
import threading
import time

sys.dont_write_bytecode = True

from mail_checks import FAILED, behind_mark, fields, hand_in, read_report
from relay_program import PATIENCE, free_port, same, until
from run_faults import DAY, LONG, empty, fill, refused_or_lost, without_signals
from running_relay import SOON, TEXT, Client, Clocks, clients_of, hop_that, lines_of, number_of, play_rows, reset
from smtp_sink import Manners, Sink

HOUR = 3600
# A text of 8 MiB, in which no two lines are alike.
LARGE = b"Subject: large\r\n\r\n" + b"".join(b"%07d %s\r\n" % (number, b"x" * 54) for number in range(1 << 17))


def paths_of(messages):
    """Returns the recipients of these messages, in order, without parameters."""
    return sorted(path.split(b" ")[0].decode() for message in messages for path in message.recipients)


class Hop:
    """A next hop that treats each of its first connections in a way of its own, and accepts the mail of all others."""

    def __init__(self, *ways):
        self.ways, self.lock = list(ways), threading.Lock()
        self.connections, self.texts = 0, []

    def __call__(self, link):
        with self.lock:
            way = self.ways[self.connections] if self.connections < len(self.ways) else self.take
            self.connections += 1
        way(link)

    def take(self, link, answer=lambda: b"250 taken\r\n"):
        """Accepts mail. Keeps the data of each message, and replies with what `answer` returns; closes the connection
        if that is None."""
        with link.makefile("rb") as lines:
            link.sendall(b"220 hop.example\r\n")
            for line in lines:
                if line == b"DATA\r\n":
                    link.sendall(b"354 go on\r\n")
                    self.texts.append(b"".join(iter(lines.readline, b".\r\n")))
                    reply = answer()
                    if not reply:
                        return
                    link.sendall(reply)
                    continue
                link.sendall(b"250 ok\r\n")
                if line == b"QUIT\r\n":
                    return


def resets_after(*replies):
    """Gives these replies, the first at once and each further one after octets have come, and resets the connection."""

    def way(link):
        for number, reply in enumerate(replies):
            if number > 0:
                link.recv(1 << 16)
            link.sendall(reply)
        reset(link)

    return way


def says(reply):
    """Writes this and closes the connection."""
    return lambda link: link.sendall(reply)


# How an attempt may end without an outcome: the next hop has neither taken nor refused the message.
ENDS = {
    "closed": says(b""),
    "reset": resets_after(),
    "busy": says(b"421 hop.example too busy, closing\r\n"),
    "no-reply": says(b"hello\r\n"),
    "in-a-reply": resets_after(b"220 hop.example\r\n", b"250-hop.exam"),
    "in-a-text": resets_after(b"220 hop.example\r\n", b"250 hop.example\r\n", b"250 ok\r\n", b"250 ok\r\n",
                              b"354 go on\r\n", b""),
}


class Late:
    """Messages for a next hop that is down, whose senders asked for delay reports, and those reports."""

    def __init__(self, field, count):
        self.count, self.sink, self.reports = count, field.sink, {}
        self.relay = field.relay(more={"example.net": ("away.example", free_port())})
        self.clocks = Clocks(field, self.relay)

    def hand_in_all(self):
        for _ in range(self.count):
            hand_in(self.relay, recipients=("c@example.net",), rcpt=["NOTIFY=DELAY,FAILURE"])
        self.handed_in = self.clocks.now()
        self.numbers = self.numbers_to("<c@example.net>")
        same("how many are queued", len(self.numbers), self.count)
        until("a next hop that is left alone", lambda: lines_of(self.relay, "retry_in=60s"))

    def queued_to(self, path):
        return [row for row in self.relay.held() if row[2] == path]

    def numbers_to(self, path):
        return [row[0] for row in self.queued_to(path)]

    def reports_that_arrived(self):
        """Returns the reports that arrived, by the number of the message, and then by their own."""
        for message in self.sink.take_all():
            [of] = re.findall(rb"Delivery report of relay\.example for message (\d+)\.", message.content)
            number = int(re.search(rb"Message-ID: <(\d+)@", message.content)[1])
            self.reports.setdefault(int(of), {})[number] = message
        return self.reports

    def reports_made(self):
        """Returns the numbers of all reports, also of those that are queued."""
        queued = set(self.numbers_to("<a@example.org>"))
        return queued.union(*self.reports_that_arrived().values())

    def pass_time(self, seconds, step):
        """Advances the clock in steps. A report that is on its way meanwhile may be deferred."""
        for _ in range(seconds // step):
            self.clocks.advance(step)
            time.sleep(0.03)
            ends = time.monotonic() + 1
            while time.monotonic() < ends and any(row[3] <= self.clocks.now()
                                                  for row in self.queued_to("<a@example.org>")):
                time.sleep(0.01)

    def never_tried(self):
        """Returns the numbers of the messages that have been due since they were submitted."""
        return {row[0] for row in self.queued_to("<c@example.net>") if row[3] <= self.handed_in}

    def deliver_reports(self):
        for _ in range(24):
            if len(self.reports_that_arrived()) < self.count:
                self.pass_time(HOUR, HOUR)

    def deliver_reports_of(self, numbers):
        until("a report of each", lambda: numbers <= set(self.reports_that_arrived()))

    def check_reports(self):
        """Checks that each message is queued, and has one delay report and no other."""
        arrived = self.reports_that_arrived()
        same("reports of each message", {of: len(found) for of, found in arrived.items()},
             dict.fromkeys(self.numbers, 1))
        same("reports in all", len(self.reports_made()), self.count)
        same("what is queued", self.numbers_to("<c@example.net>"), self.numbers)
        for of, found in arrived.items():
            [(number, message)] = found.items()
            status = fields(read_report(message, number, of), 1)
            status.pop("Will-Retry-Until")
            same("the recipient", status, {**FAILED, "Final-Recipient": "rfc822; c@example.net", "Action": "delayed",
                                           "Status": "4.0.0"})


# The rows. Each says in its name what holds.


def next_hops_at_one_port_get_each_its_own(field):
    """Where mail goes depends on the next hop's address and port. Mail for one of two next hops with the same port
    reaches that one and no other, and the log names it; one that is down delays no mail for the other."""
    with Sink(field.sink.port, address="127.0.0.2") as other:
        more = {"example.net": ("other.example", field.sink.port, "127.0.0.2")}
        relay = field.relay(more=more)
        with relay.running(), clients_of(relay, 1) as [client]:
            first = [client.hand_in(path) for path in ("b@example.org", "c@example.net") * 10]
            hand_in(relay, recipients=("b@example.org", "c@example.net"))
            until("an empty list", lambda: relay.held() == [])
            same("mail for the one", paths_of(field.arrived(11)), ["<b@example.org>"] * 11)
            same("mail for the other", paths_of(other.take_all()), ["<c@example.net>"] * 11)
            for number, name, address in [(first[0], "next.example", "127.0.0.1"),
                                          (first[1], "other.example", "127.0.0.2")]:
                line = f" relayd: sent message={number} hop={name} addr={address}:{field.sink.port} "
                until(f"the line of message {number}", lambda line=line: len(lines_of(relay, line)) == 1)
        same("breaches", other.breaches, [])
    away = Sink(address="127.0.0.2")
    # Nobody listens at this port of 127.0.0.2 any more.
    away.close()
    with Sink(away.port) as there:
        relay = field.relay("second", more={"example.net": ("there.example", there.port),
                                            "example.com": ("away.example", there.port, "127.0.0.2")})
        with relay.running(), clients_of(relay, 1) as [client]:
            waits = client.hand_in("d@example.com")
            until("one that is put off", lambda: lines_of(relay, f" message={waits} hop=away.example addr=127.0.0.2:"))
            client.hand_in("c@example.net")
            same("mail at the one that is there", there.wait_for(1, SOON), True)
            until("the other's mail alone", lambda: [row[0] for row in relay.held()] == [waits])
            same("mail for it", paths_of(there.take_all()), ["<c@example.net>"])


def a_trace_header_names_the_client_s_address(field):
    """The first line of each message names the address of its client (RFC 5321, section 4.4), also if clients of
    several addresses submit mail at the same time; so does the log."""
    relay, addresses = field.relay(), ["127.0.0.1", "127.0.0.2", "127.1.2.3"]
    with relay.running(), contextlib.ExitStack() as stack:
        clients = [stack.enter_context(Client(relay, address)) for address in addresses]
        for client in clients:
            client.begin()
            client.ask_for_text()
        numbers = [int(client.say(TEXT).split()[-1]) for client in clients]
        arrived = {int(re.search(rb" id (\d+);", message.content)[1]): message.content for message in field.arrived(3)}
        same("the messages", sorted(arrived), sorted(numbers))
        for number, address in zip(numbers, addresses):
            text = behind_mark(arrived[number], "relay.example", number, address=address)
            same(f"the text from {address}", text, TEXT[:-len(b".\r\n")])
            told = f" accepted message={number} client={address}:"
            until("its line", lambda told=told: lines_of(relay, told))


def a_large_text_reaches_a_slow_next_hop_whole(field):
    """8 MiB to two next hops that read little at a time, with small receive buffers, so that most writes take only a
    part. One gets it by DATA, and the other as a chunk, since it doesn't end with a line end."""
    slow = {"pause": 0.002, "read_size": 1 << 16, "receive_buffer": 1 << 16}
    with Sink(manners=Manners(**slow)) as text, Sink(manners=Manners(**slow)) as chunk:
        more = {"example.net": ("text.example", text.port), "example.com": ("chunk.example", chunk.port)}
        relay = field.relay(more=more, max_content=1 << 24, spool_limit=1 << 30)
        with relay.running(), clients_of(relay, 1) as [client]:
            begun = {text: client.hand_in("c@example.net", LARGE + b".\r\n")}
            same("MAIL", client.say(b"MAIL FROM:<a@example.org>\r\n")[:4], "250 ")
            same("RCPT", client.say(b"RCPT TO:<d@example.com>\r\n")[:4], "250 ")
            whole = LARGE + b"the end"
            begun[chunk] = number_of(client.say(b"BDAT %d LAST\r\n%b" % (len(whole), whole)))
            for sink, wanted in ((text, LARGE), (chunk, whole)):
                same("whether it arrives", sink.wait_for(1, 3 * PATIENCE), True)
                [message] = sink.take_all()
                same("whether it came in a chunk", message.by_chunks, sink is chunk)
                same("the text", behind_mark(message.content, "relay.example", begun[sink]), wanted)
                same("breaches", sink.breaches, [])
            until("an empty list", lambda: relay.held() == [])


def mail_whose_route_is_gone_is_reported(field):
    """Queued mail for which the configuration has no route any more ends when `run` begins, with the report that its
    sender is owed, but none to a null reverse path (RFC 5321, section 4.5.5). Mail with a route is still sent."""
    away = {"example.net": ("away.example", free_port())}
    relay = field.relay(more={**away, "example.com": ("also-away.example", free_port())})
    with relay.running(), clients_of(relay, 1) as [client]:
        client.hand_in("c@example.net")
        hand_in(relay, recipients=("b@example.org", "c@example.net"))
        same("MAIL", client.say(b"MAIL FROM:<>\r\n")[:4], "250 ")
        same("RCPT", client.say(b"RCPT TO:<c@example.net>\r\n")[:4], "250 ")
        same("DATA", client.say(b"DATA\r\n")[:4], "354 ")
        client.say(TEXT)
        client.hand_in("d@example.com")
        same("mail that has a route", paths_of(field.arrived(1)), ["<b@example.org>"])
        until("what is queued", lambda: sorted(row[2] for row in relay.held())
              == ["<c@example.net>"] * 3 + ["<d@example.com>"])
        queued = [row[0] for row in relay.held() if row[2] == "<c@example.net>"]
        kept = [row[0] for row in relay.held() if row[2] == "<d@example.com>"]
    relay.route({"example.org": ("next.example", field.sink.port), "example.com": ("also-away.example", free_port())})
    gone = re.compile(r" relayd: no-route message=(\d+) delay=\d+s to=<c@example\.net> "
                      r'status=no-route reason="no route"$')
    report_of = re.compile(r" relayd: report message=(\d+) of=(\d+) to=<a@example\.org> kind=failed$")
    with relay.running():
        until("what has a route alone", lambda: [row[0] for row in relay.held()] == kept)
        reports = field.arrived(2)
        until("a line of each", lambda: [len(lines_of(relay, f" relayd: {it} ")) for it in ("no-route", "report")]
              == [3, 2])
    ended = [int(gone.search(line)[1]) for line in lines_of(relay, " relayd: no-route ")]
    same("what has ended", sorted(ended), sorted(queued))
    told = [report_of.search(line).groups() for line in lines_of(relay, " relayd: report ")]
    of = {int(report): int(number) for report, number in told}
    same("how many have a report", len(of), 2)
    for message in reports:
        number = int(re.search(rb"Message-ID: <(\d+)@", message.content)[1])
        report = read_report(message, number, of.pop(number))
        same("the recipient", fields(report, 1), {**FAILED, "Final-Recipient": "rfc822; c@example.net",
                                                  "Status": "5.1.2"})


def late_mail_has_one_delayed_report(field):
    """A message waits for five hours of the clock for a next hop that is down. Its sender, who asked for it, gets one
    delay report, and no other in the hours that follow; the message stays queued."""
    late = Late(field, 1)
    with late.relay.running():
        late.hand_in_all()
        late.pass_time(5 * HOUR, 5 * HOUR)
        until("a report after five hours", lambda: len(late.reports_made()) == 1)
        late.deliver_reports()
        late.pass_time(15 * HOUR, HOUR)
        late.check_reports()


def late_mail_that_is_never_tried_has_one_delayed_report_each(field):
    """Of 20 messages for a next hop that is down, some wait for hours without being tried, because the next hop is on
    hold for longer each time. Each sender who asked gets one delay report, whether the message was tried or not, and
    none before four hours; the messages stay queued."""
    late = Late(field, 20)
    with late.relay.running():
        late.hand_in_all()
        late.pass_time(4 * HOUR - 600, 600)
        same("reports before four hours are over", late.reports_made(), set())
        # What is due four hours after its last attempt is overdue four hours later, and may wait for others then.
        late.pass_time(10 * HOUR, HOUR // 2)
        until("as many reports as messages", lambda: len(late.reports_made()) == 20)
        late.deliver_reports()
        late.pass_time(4 * HOUR, HOUR)
        late.check_reports()


def late_mail_is_told_of_after_four_hours_whatever_stands_before_it(field):
    """Of 20 messages for a next hop that is down the first ones are tried again and again. Each sender of the others
    gets a delay report as soon as four hours have passed, although earlier messages are due for less long."""
    late = Late(field, 20)
    with late.relay.running():
        late.hand_in_all()
        late.pass_time(4 * HOUR - 600, 600)
        same("reports before four hours are over", late.reports_made(), set())
        others = late.never_tried()
        same("whether the first was tried", min(late.numbers) in others, False)
        same("whether half of them never were", len(others) >= 10, True)
        late.pass_time(900, 60)
        until("as many reports as messages that were never tried", lambda: len(late.reports_made()) >= len(others))
        late.deliver_reports_of(others)


def mail_flows_after_attempts_without_an_outcome(field):
    """Four attempts at one next hop end without an outcome, one after another, in each of the possible ways. Each
    defers the message; then it arrives, once, and so does later mail, at once."""
    for name, way in ENDS.items():
        hop = Hop(*[way] * 4)
        with hop_that(hop) as port:
            relay = field.relay(name, more={"example.net": ("hop.example", port)}, attempts_per_hop=4)
            clocks = Clocks(field, relay)

            def due():
                return [row[3] for row in relay.held()]

            with relay.running():
                hand_in(relay, TEXT[:-3], ("c@example.net",))
                for number in range(1, 5):
                    until(f"{name}: attempt {number}", lambda: hop.connections == number)
                    until(f"{name}: mail that is put off", lambda: due()[0] > clocks.now())
                    clocks.advance(int(due()[0] - clocks.now()) + 1)
                until(f"{name}: an empty list", lambda: relay.held() == [])
                hand_in(relay, b"Subject: the next\r\n\r\n", ("c@example.net",))
                until(f"{name}: the next message", lambda: len(hop.texts) == 2, SOON)
            subjects = [re.search(rb"\r\nSubject: ([^\r]*)\r\n", text)[1] for text in hop.texts]
            same(f"{name}: what arrives", subjects, [b"side by side", b"the next"])


def mail_flows_after_attempts_that_came_too_late(field):
    """Four connections are made for mail that isn't due any more when the next hop greets, because the clock was set
    back. They have no effect, and the mail stays queued: it arrives, once, when it is due again."""
    greets, late = threading.Event(), []

    def greets_late(link):
        greets.wait(PATIENCE)
        link.sendall(b"220 hop.example\r\n")
        late.append(link.recv(1 << 16))

    hop = Hop()
    hop.ways = [hop.take, *[greets_late] * 4]
    with hop_that(hop) as port:
        relay = field.relay(more={"example.net": ("hop.example", port)}, attempts_per_hop=4)
        clocks = Clocks(field, relay)
        with relay.running():
            hand_in(relay, recipients=("c@example.net",))
            until("an empty list", lambda: relay.held() == [])
            for _ in range(4):
                hand_in(relay, recipients=("c@example.net",))
            until("four connections more", lambda: hop.connections == 5)
            clocks.set_by(-DAY)
            greets.set()
            until("their ends", lambda: late == [b""] * 4)
            same("what is queued", len(relay.held()), 4)
            clocks.set_by(DAY)
            # After a minute the relay checks what is due, also where nothing else happens.
            clocks.advance(61)
            until("an empty list", lambda: relay.held() == [])
        same("texts that arrive", len(hop.texts), 5)
        same("connections", hop.connections, 9)


def a_reply_from_before_a_reopening_ends_no_attempt(field):
    """The device fails while a next hop is about to reply to mail data, and the spool is opened again. What that next
    hop then writes on the old connection is nobody's reply: it doesn't end the attempt for another message, at another
    next hop, with the same number. Both messages arrive, none more than twice."""
    answers, ends = threading.Event(), threading.Event()

    def old_answer():
        answers.wait(PATIENCE)
        return b"250 taken\r\n"

    def no_answer():
        ends.wait(PATIENCE)
        return b""

    def silent(link):
        link.recv(1)

    first, other = Hop(), Hop()
    # The first is slow to greet the second time, so that the other's attempt is the first to begin.
    first.ways = [lambda link: first.take(link, old_answer), lambda link: ends.wait(PATIENCE) and first.take(link)]
    other.ways = [silent, lambda link: other.take(link, no_answer)]
    with hop_that(first) as first_port, hop_that(other) as other_port:
        relay = field.relay(more={"example.net": ("first.example", first_port),
                                  "example.com": ("other.example", other_port)})
        clocks = Clocks(field, relay)
        with relay.running(preexec_fn=without_signals) as process, clients_of(relay, 1) as [client]:
            client.hand_in(text=LONG)
            field.arrived(1)
            until("an empty list", lambda: relay.held() == [])
            numbers = [client.hand_in("c@example.net", LONG)]
            until("a text that waits for its reply", lambda: len(first.texts) == 1)
            numbers.append(client.hand_in("d@example.com"))
            until("a connection to the other", lambda: other.connections == 1)
            fill(process, relay)
            same("a message without room", refused_or_lost(client), True)
            until("a line of it", lambda: lines_of(relay, "device-failed"))
            empty(process)
            until("a line that it is open", lambda: lines_of(relay, "relayd: reopened"))
            until("a new text that waits for its reply", lambda: len(other.texts) == 1)
            answers.set()
            time.sleep(0.3)
            same("what is queued", [row[0] for row in relay.held()], numbers)
            ends.set()
            until("the first one's mail", lambda: [row[0] for row in relay.held()] == numbers[1:])
            until("the other's mail is put off", lambda: relay.held()[0][3] > clocks.now())
            clocks.advance(HOUR)
            until("an empty list", lambda: relay.held() == [])
        same("texts", (len(first.texts), len(other.texts)), (2, 2))


ROWS = [
    next_hops_at_one_port_get_each_its_own,
    a_trace_header_names_the_client_s_address,
    a_large_text_reaches_a_slow_next_hop_whole,
    mail_whose_route_is_gone_is_reported,
    late_mail_has_one_delayed_report,
    late_mail_that_is_never_tried_has_one_delayed_report_each,
    late_mail_is_told_of_after_four_hours_whatever_stands_before_it,
    mail_flows_after_attempts_without_an_outcome,
    mail_flows_after_attempts_that_came_too_late,
    a_reply_from_before_a_reopening_ends_no_attempt,
]


if __name__ == "__main__":
    play_rows("run_mail", ROWS)
