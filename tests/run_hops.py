#!/usr/bin/env python3
"""Runs `relayd run` over 127.0.0.1 with next hops that are down, hang, are slow, flood or cut connections, and with
clients that are reset, and measures how long others wait. Ends at the first difference.

    tests/run_hops.py build/relayd [ROW..]

Runs the named rows, or all. Time limits are multiplied by the environment variable TIMES (2).
"""
import contextlib
import re
import socket
import sys
import threading
import time

sys.dont_write_bytecode = True

from relay_program import Difference, free_port, same, until
from running_relay import SOON, TEXT, Client, Clocks, beside, clients_of, comes_to_rest, hop_that, hop_that_hangs
from running_relay import lines_of, no_later, number_of, play_rows, reset, shim, slowest

# How many next hops say nothing at once, and how many of these have a connection at most.
SILENT = 63
MOST_SILENT = 48


def drips(link):
    """Accepts mail, and writes each reply octet by octet."""
    link.setsockopt(socket.IPPROTO_TCP, socket.TCP_NODELAY, 1)

    def say(reply):
        for octet in reply + b"\r\n":
            link.sendall(bytes([octet]))
            time.sleep(0.01)

    with link.makefile("rb") as lines:
        say(b"220 hop.example")
        for line in lines:
            if line == b"DATA\r\n":
                say(b"354 go on")
                while lines.readline() not in (b".\r\n", b""):
                    pass
            say(b"250 ok")


def cuts(link):
    """Closes the connection in the middle of its reply to EHLO."""
    link.sendall(b"220 hop.example\r\n")
    link.recv(1 << 10)
    link.sendall(b"250-hop.exam")


def floods(link):
    """Writes one reply after another, unasked."""
    link.sendall(b"220 hop.example\r\n")
    while True:
        link.sendall(b"250 ok\r\n" * 10000)


def never_ends(link):
    """Writes a reply with endless lines."""
    while True:
        link.sendall(b"220-hop.example\r\n" * 10000)


def says_one_line(link):
    """Writes ten million octets without a line end, and waits."""
    link.sendall(b"2" * 10_000_000)
    link.recv(1 << 10)


# How an attempt at each of these ends, as its line says.
BAD = {
    drips: r" status=sent reply=",
    cuts: r' status=deferred reason="connection closed"$',
    floods: r" status=deferred ",
    never_ends: r' status=deferred reason="reply too long"$',
    says_one_line: r' status=deferred reason="(bad line in reply|reply too long)"$',
}


class Narrow:
    """A next hop that serves a number of connections at a time. It greets each further one with 421, or closes it
    silently."""

    def __init__(self, most, has_words):
        self.most, self.has_words, self.lock = most, has_words, threading.Lock()
        self.running = self.turned_away = self.taken = 0

    def __call__(self, link):
        with self.lock:
            is_served = self.running < self.most
            self.running += is_served
            self.turned_away += not is_served
        if is_served:
            try:
                self.serve(link)
            finally:
                with self.lock:
                    self.running -= 1
        elif self.has_words:
            link.sendall(b"421 hop.example too many connections\r\n")

    def serve(self, link):
        with link.makefile("rb") as lines:
            link.sendall(b"220 hop.example\r\n")
            for line in lines:
                if line == b"DATA\r\n":
                    link.sendall(b"354 go on\r\n")
                    while lines.readline() not in (b".\r\n", b""):
                        pass
                    time.sleep(0.01)
                    with self.lock:
                        self.taken += 1
                link.sendall(b"250 ok\r\n")
                if line == b"QUIT\r\n":
                    return


class Strict:
    """A next hop that refuses each recipient whose path begins with `no`, and answers 421 after so many of them and
    closes the connection, as Postfix does. It keeps how many recipients each connection was to have, and which of them
    it has taken mail for."""

    def __init__(self, most):
        self.most, self.lock, self.asked, self.taken = most, threading.Lock(), [], []

    def __call__(self, link):
        link.sendall(b"220 hop.example\r\n")
        same("the first command", link.recv(1 << 10)[:5], b"EHLO ")
        link.sendall(b"250-hop.example\r\n250 PIPELINING\r\n")
        # MAIL and each RCPT, which come in one write.
        mail, *recipients = link.recv(1 << 16).splitlines()
        same("the second command", mail[:5], b"MAIL ")
        paths = [line[len(b"RCPT TO:<"):].split(b">")[0].decode() for line in recipients]
        with self.lock:
            self.asked.append(len(paths))
        link.sendall(b"250 ok\r\n")
        self.answer(link, paths)

    def answer(self, link, paths):
        """The RCPTs of these, and what follows them."""
        good, refused = [], 0
        for path in paths:
            is_refused = path.startswith("no")
            link.sendall(b"550 no such user\r\n" if is_refused else b"250 ok\r\n")
            good += [] if is_refused else [path]
            refused += is_refused
            if refused == self.most:
                link.sendall(b"421 hop.example too many errors\r\n")
                return
        with link.makefile("rb") as lines:
            if good:
                same("what follows", lines.readline(), b"DATA\r\n")
                link.sendall(b"354 go on\r\n")
                while lines.readline() not in (b".\r\n", b""):
                    pass
                with self.lock:
                    self.taken += good
                link.sendall(b"250 ok\r\n")
            same("what comes last", lines.readline(), b"QUIT\r\n")
            link.sendall(b"221 bye\r\n")


class Closing:
    """A next hop that answers 421 to the last command of this word on its first connection, or to the mail data, and
    closes the connection; of two recipients it refuses the first then, if the word is RCPT. It takes mail on others. It
    keeps how many recipients each connection has had."""

    def __init__(self, word):
        self.word, self.lock, self.asked = word, threading.Lock(), []

    def __call__(self, link):
        with self.lock:
            number = len(self.asked)
            self.asked.append(0)
        link.sendall(b"220 hop.example\r\n")
        with link.makefile("rb") as lines:
            for line in lines:
                word = line[:4].decode()
                if word == "RCPT":
                    with self.lock:
                        self.asked[number] += 1
                link.sendall(self.reply(word, number))
                if word == "DATA" and not self.closes(word, number):
                    while lines.readline() not in (b".\r\n", b""):
                        pass
                    word = "text"
                    link.sendall(self.reply(word, number))
                if self.closes(word, number) or word == "QUIT":
                    return

    def closes(self, word, number):
        return number == 0 and word == self.word and (word != "RCPT" or self.asked[0] == 2)

    def reply(self, word, number):
        if self.closes(word, number):
            return b"421 hop.example closing\r\n"
        if word == "RCPT" and number == 0 and self.word == "RCPT":
            return b"550 no such user\r\n"
        return b"354 go on\r\n" if word == "DATA" else b"250 ok\r\n"


def hand_in_to(client, paths):
    """A message to these; the number that it was queued as."""
    for command in ("MAIL FROM:<a@example.org>", *[f"RCPT TO:<{path}>" for path in paths]):
        same(f"the reply to {command}", client.say(f"{command}\r\n".encode())[:4], "250 ")
    same("the reply to DATA", client.say(b"DATA\r\n")[:4], "354 ")
    return number_of(client.say(TEXT))


@contextlib.contextmanager
def hop_that_takes_no_connection():
    """A listener with a full queue: the system neither accepts nor refuses a connection to it. Returns its port."""
    with contextlib.ExitStack() as stack:
        listener = stack.enter_context(socket.socket())
        listener.bind(("127.0.0.1", 0))
        listener.listen(0)
        for _ in range(3):
            link = stack.enter_context(socket.socket())
            link.setblocking(False)
            link.connect_ex(listener.getsockname())
        yield listener.getsockname()[1]


# The rows. Each says in its name what holds.


def a_hop_that_is_away_holds_up_no_other(field):
    relay = field.relay(more={"example.net": ("away.example", free_port())})
    with relay.running(), clients_of(relay, 1) as [client]:
        waiting = [client.hand_in("c@example.net") for _ in range(10)]
        client.hand_in()
        field.arrived(1, SOON)
        until("a list of those that wait", lambda: [row[0] for row in relay.held()] == waiting)
        same("their paths", {row[2] for row in relay.held()}, {"<c@example.net>"})


def a_hop_that_hangs_holds_up_no_other(field):
    """It has one connection until its greeting, and then as many as the configuration says."""
    for greeting, count in ((b"", 1), (b"220 hop.example\r\n", 3)):
        with hop_that_hangs(greeting) as (port, taken):
            relay = field.relay(f"relay-{count}", more={"example.net": ("hangs.example", port)}, attempts_per_hop=3)
            with relay.running() as process, clients_of(relay, 1) as [client]:
                for _ in range(10):
                    client.hand_in("c@example.net")
                client.hand_in()
                field.arrived(1, SOON)
                comes_to_rest(process, "beside a hop that hangs")
                same("connections to the hop that hangs", len(taken), count)
                same("list", len(relay.held()), 10)


def silent_hops_leave_room_for_others(field):
    """Each of them has one connection, whatever is queued for it, and together they have 48 of the 64: the others are
    for next hops that have answered."""
    with contextlib.ExitStack() as stack:
        hops = [stack.enter_context(hop_that_hangs()) for _ in range(SILENT)]
        more = {f"silent-{at}.example": (f"hop-{at}.example", port) for at, (port, _) in enumerate(hops)}
        relay = field.relay(more=more)

        def connections():
            return sorted(len(taken) for _, taken in hops)

        with relay.running() as process, clients_of(relay, 1) as [client]:
            client.hand_in()
            field.arrived(1)
            for domain in list(more) * 3:
                client.hand_in(f"c@{domain}")
            wanted = [0] * (SILENT - MOST_SILENT) + [1] * MOST_SILENT
            until("a connection to each that may have one", lambda: connections() == wanted)
            for _ in range(5):
                client.hand_in()
                field.arrived(1, SOON)
            comes_to_rest(process, "beside silent hops")
            same("connections to them", connections(), wanted)
            same("list", len(relay.held()), 3 * SILENT)


def a_hop_of_few_connections_puts_nothing_off(field):
    """Whether it says so by 421 or closes the connection: what it refuses is tried as soon as another has ended."""
    for has_words in (True, False):
        hop = Narrow(2, has_words)
        with hop_that(hop) as port:
            relay = field.relay(f"relay-{has_words}", more={"example.net": ("narrow.example", port)})
            with relay.running() as process, clients_of(relay, 1) as [client]:
                for _ in range(100):
                    client.hand_in("c@example.net")
                until("all that it takes", lambda: hop.taken == 100)
                until("an empty list", lambda: relay.held() == [])
                comes_to_rest(process, "after a hop of few connections")
            same("attempts that put a message off", lines_of(relay, "deferred"), [])
            same("whether it turned any away", 0 < hop.turned_away, True)


def refused_recipients_cost_no_other(field):
    """A next hop closes the connection after 20 of them: an attempt has fewer, and the next one the others."""
    hop = Strict(20)
    with hop_that(hop) as port:
        relay = field.relay(more={"example.net": ("strict.example", port)})
        with relay.running() as process, clients_of(relay, 1) as [client]:
            hand_in_to(client, [*[f"no{number}@example.net" for number in range(25)], "yes@example.net"])
            until("the one that isn't refused", lambda: hop.taken == ["yes@example.net"])
            until("an empty list", lambda: relay.held() == [])
            comes_to_rest(process, "after refused recipients")
        same("recipients of each attempt", hop.asked, [15, 11])
        same("recipients that were put off", lines_of(relay, "status=deferred"), [])
        field.arrived(2)


def recipients_of_one_message_wait_for_no_listing(field):
    """Attempts for them follow one another, in the order of the recipients, also while other mail waits."""
    hop, paths = Strict(20), [f"b{number}@example.net" for number in range(100)]
    with hop_that(hop) as port:
        more = {"example.net": ("strict.example", port), "example.com": ("away.example", free_port())}
        relay = field.relay(more=more, recipients_per_attempt=5)
        with relay.running() as process, clients_of(relay, 1) as [client]:
            client.hand_in("c@example.com")
            until("mail that waits", lambda: lines_of(relay, "hop-held "))
            client.hand_in("c@example.com")
            hand_in_to(client, paths)
            until("all recipients", lambda: len(hop.taken) == 100)
            comes_to_rest(process, "after a message with many recipients")
        same("recipients of each attempt", hop.asked, [5] * 20)
        same("recipients", hop.taken, paths)


def an_attempt_that_is_cut_off_leaves_half_as_many_for_the_next(field):
    """Those of an attempt that was cut off are put off, and the other recipients of the message are tried at once."""
    hop = Strict(5)
    with hop_that(hop) as port:
        relay = field.relay(more={"example.net": ("strict.example", port)}, recipients_per_attempt=16)
        clocks = Clocks(field, relay)
        with relay.running() as process, clients_of(relay, 1) as [client]:
            hand_in_to(client, [f"no{number}@example.net" for number in range(40)])
            until("an attempt for each recipient", lambda: len(hop.asked) == 6)
            until("those that were put off", lambda: {row[1] for row in relay.held()} == set(range(24)))
            comes_to_rest(process, "after attempts that were cut off")
            clocks.advance(3600)
            until("an empty list", lambda: relay.held() == [])
        same("recipients of each attempt", hop.asked, [16, 8, *[4] * 4, *[4] * 6])
        same("recipients that were put off", len(lines_of(relay, "status=deferred")), 24)


def a_transaction_that_a_hop_closes_leaves_half_as_many_for_the_next(field):
    """By 421 to the last RCPT, to DATA or to the mail data. To EHLO, 421 says nothing of the number of recipients."""
    asked = {"RCPT": [2, 1, 1], "DATA": [2, 1, 1], "text": [2, 1, 1], "EHLO": [0, 2]}
    hops = {word: Closing(word) for word in asked}
    with contextlib.ExitStack() as stack:
        more = {f"{word}.example".lower(): (f"{word}.hop".lower(), stack.enter_context(hop_that(hop)))
                for word, hop in hops.items()}
        relay = field.relay(more=more, recipients_per_attempt=2)
        with relay.running() as process, clients_of(relay, 1) as [client]:
            for word in asked:
                hand_in_to(client, [f"b{number}@{word}.example".lower() for number in range(4)])
            until("the others of each message", lambda: all(sum(hop.asked) >= sum(asked[word]) for word, hop in
                                                            hops.items()))
            until("those that were put off", lambda: sorted(row[1] for row in relay.held()) == [0, 0, 0, 1, 1, 1, 1])
            comes_to_rest(process, "after transactions that a next hop has closed")
        same("recipients of each attempt", {word: hop.asked for word, hop in hops.items()}, asked)


def a_hop_that_takes_no_connection_is_lost_after_half_a_minute(field):
    """With a clock twenty times as fast; then it is on hold."""
    with hop_that_takes_no_connection() as port:
        relay = field.relay(more={"example.net": ("hop.example", port)}, client_timeout=3600)
        shim(field, "run_clocks", relay, FASTER="20")
        with relay.running() as process, clients_of(relay, 1) as [client]:
            begun = time.monotonic()
            client.hand_in("c@example.net")
            client.hand_in()
            field.arrived(1, SOON)
            until("a line", lambda: lines_of(relay, "retry_in=60s"), 30 / 20 + 5 * SOON)
            waited = (time.monotonic() - begun) * 20
            until("the line of the message", lambda: lines_of(relay, " to=<c@example.net> status="))
            put_off = re.compile(r".*Z relayd: deferred message=1 hop=hop\.example addr=127\.0\.0\.1:\d+ delay=\d+s "
                                 "to=<c@example.net> status=deferred reason=timeout")
            lines = lines_of(relay, " to=<c@example.net> status=")
            same("what it is said", [bool(put_off.fullmatch(line)) for line in lines], [True])
            comes_to_rest(process, "after a hop that took no connection")
        if waited < 29:
            raise Difference(f"it is lost after {waited:.1f} s")


def bad_next_hops_delay_no_reply(field):
    """A client's 250 comes as fast as without mail for each of them, and other mail goes on."""
    with contextlib.ExitStack() as stack:
        more = {f"{bad.__name__.replace('_', '-')}.example": (f"{bad.__name__.replace('_', '-')}.hop",
                                                              stack.enter_context(hop_that(bad))) for bad in BAD}
        relay = field.relay(more=more)
        with relay.running() as process, clients_of(relay, 1) as [client]:
            alone = slowest(client, 20)
            field.arrived(20)
            for domain, bad in zip(more, BAD):

                def feed(done, domain=domain):
                    with clients_of(relay, 1, "127.0.0.2") as [other]:
                        while not done.wait(0.05):
                            other.hand_in(f"c@{domain}")

                with beside(feed):
                    no_later(client, alone, 40, f"a next hop that {bad.__name__}")
                    client.hand_in()
                    field.arrived(41)
                    name, wanted = more[domain][0], re.compile(BAD[bad])
                    until("attempts that have ended", lambda name=name: len(lines_of(relay, f" hop={name} addr=")) >= 5)
                wrong = [line for line in lines_of(relay, f" hop={name} addr=") if not wanted.search(line)]
                same(f"lines of a next hop that {bad.__name__}", wrong, [])
            comes_to_rest(process, "after bad next hops")


def clients_that_are_reset_delay_no_reply(field):
    """In the middle of a command, of mail data and of a chunk; none of that is held or relayed."""
    relay, times = field.relay(), []
    group = b"MAIL FROM:<a@example.org>\r\nRCPT TO:<c@example.org>\r\n"

    def begin_and_go(done):
        while not done.wait(0.01):
            for octets in (b"MAIL FR", group + b"DATA\r\nSubject: ", group + b"BDAT 1000 LAST\r\nSubject: "):
                with Client(relay, "127.0.0.2") as client:
                    client.begin()
                    client.link.sendall(octets)
                    if octets[-1:] == b" ":
                        same("a reply", client.reply()[:4], "250 ")
                    client.replies.close()
                    reset(client.link)
                    times.append(octets)

    with relay.running() as process, clients_of(relay, 1) as [client]:
        alone = slowest(client, 20)
        with beside(begin_and_go):
            no_later(client, alone, 60, "clients that are reset")
            until("many that are reset", lambda: len(times) >= 30)
        comes_to_rest(process, "after clients that are reset")
        until("an empty list", lambda: relay.held() == [])
        same("who got mail", {message.recipients[0].split(b" ")[0] for message in field.arrived(80)},
             {b"<b@example.org>"})


ROWS = [
    a_hop_that_is_away_holds_up_no_other,
    a_hop_that_hangs_holds_up_no_other,
    silent_hops_leave_room_for_others,
    a_hop_of_few_connections_puts_nothing_off,
    refused_recipients_cost_no_other,
    recipients_of_one_message_wait_for_no_listing,
    an_attempt_that_is_cut_off_leaves_half_as_many_for_the_next,
    a_transaction_that_a_hop_closes_leaves_half_as_many_for_the_next,
    a_hop_that_takes_no_connection_is_lost_after_half_a_minute,
    bad_next_hops_delay_no_reply,
    clients_that_are_reset_delay_no_reply,
]


if __name__ == "__main__":
    play_rows("run_hops", ROWS)
