#!/usr/bin/env python3
"""Runs `relayd run` behind a balancer that speaks the PROXY protocol (HAProxy's specification, versions 1 and 2): the
balancer is 127.0.0.2, and all other addresses are clients. Ends at the first difference.

    tests/run_proxy.py build/relayd [ROW..]

The octets of headers are written by hand from the specification.
"""
import contextlib
import socket
import struct
import sys
import time

sys.dont_write_bytecode = True

from relay_program import Slow, same, until
from running_relay import NO_SERVICE, TEXT, TIMES, TOO_MANY, Client, lines_of, number_of, play_rows

BALANCER = "127.0.0.2"
SIGNATURE = bytes.fromhex("0d0a0d0a000d0a515549540a")
LOCAL, PROXY = 0x20, 0x21
TCP4, UDP4, TCP6, UNIX = 0x11, 0x12, 0x21, 0x31
# A connection without a header is closed after so many seconds.
LONGEST = 5


def line(text):
    return f"PROXY {text}\r\n".encode()


def tcp4(client, port=54321):
    return line(f"TCP4 {client} 192.0.2.1 {port} 25")


def block(command, family, rest):
    return SIGNATURE + bytes([command, family]) + struct.pack(">H", len(rest)) + rest


def addresses(client, port=54321):
    return socket.inet_aton(client) + socket.inet_aton("192.0.2.1") + struct.pack(">HH", port, 25)


class Behind(Client):
    """A client behind the balancer, whose connection begins with these octets."""

    def __init__(self, relay, *parts, pause=0.0):
        super().__init__(relay, BALANCER)
        self.link.setsockopt(socket.IPPROTO_TCP, socket.TCP_NODELAY, 1)
        for part in parts:
            self.link.sendall(part)
            time.sleep(pause)


def relay_of(field, **limits):
    return field.relay(balancers=f'["{BALANCER}/32"]', **limits)


def client_in_trace(field):
    """Returns the address literal in the trace header of the one message that has come."""
    [message] = field.arrived(1)
    stamp = message.content.split(b"\r\n")[0]
    return stamp.split(b"[")[-1].split(b"]")[0].decode()


def handed_in(field, relay, address, *parts, pause=0.0):
    with Behind(relay, *parts, pause=pause) as client:
        client.begin()
        client.hand_in()
    same("the client in the trace header", client_in_trace(field), address)


def is_closed(relay, *parts):
    """Checks that the relay closes the connection without a reply."""
    with Behind(relay, *parts) as client:
        begun = time.monotonic()
        with contextlib.suppress(ConnectionResetError):
            same("what it says", client.rest(), b"")
        return time.monotonic() - begun


def reasons(relay):
    return [text.split("reason=")[1] for text in lines_of(relay, " client-end balancer=127.0.0.2:")]


def is_refused(relay, reason, *parts):
    before = reasons(relay)
    if is_closed(relay, *parts) > 1 * TIMES:
        raise Slow(f"{parts} is waited for")
    until(f"the line of {parts}", lambda: reasons(relay) == [*before, reason])


# The rows. Each says in its name what holds.


def a_line_says_whose_the_connection_is(field):
    relay = relay_of(field)
    with relay.running():
        handed_in(field, relay, "192.0.2.77", tcp4("192.0.2.77"))
        handed_in(field, relay, "0.0.0.0", tcp4("0.0.0.0", 0))
        handed_in(field, relay, "255.255.255.255", line("TCP4 255.255.255.255 255.255.255.255 65535 65535"))
        until("lines of clients", lambda: len(lines_of(relay, " client-end client=192.0.2.77:54321 ")) == 1)


def a_block_says_whose_the_connection_is(field):
    relay = relay_of(field)
    with relay.running():
        handed_in(field, relay, "192.0.2.77", block(PROXY, TCP4, addresses("192.0.2.77")))
        # What follows the addresses is ignored: a NOOP of three octets, and 508 octets, the most.
        handed_in(field, relay, "192.0.2.78", block(PROXY, TCP4, addresses("192.0.2.78") + b"\x04\0\3abc"))
        handed_in(field, relay, "192.0.2.79", block(PROXY, TCP4, addresses("192.0.2.79") + bytes(508)))


def the_balancer_speaks_for_itself(field):
    relay = relay_of(field)
    with relay.running():
        handed_in(field, relay, BALANCER, line("UNKNOWN"))
        handed_in(field, relay, BALANCER, line("UNKNOWN ffff::1 ffff::2 1 2"))
        handed_in(field, relay, BALANCER, block(LOCAL, 0, b""))
        handed_in(field, relay, BALANCER, block(LOCAL, TCP4, addresses("192.0.2.77")))
        handed_in(field, relay, BALANCER, block(PROXY, 0, b""))


def a_header_may_come_in_pieces_and_with_commands_after_it(field):
    relay = relay_of(field)
    with relay.running():
        header = tcp4("192.0.2.77")
        handed_in(field, relay, "192.0.2.77", *(header[place:place + 1] for place in range(len(header))), pause=0.01)
        header = block(PROXY, TCP4, addresses("192.0.2.78") + b"\x04\0\3abc")
        handed_in(field, relay, "192.0.2.78", *(header[place:place + 1] for place in range(len(header))), pause=0.01)
        # Its commands are of the same segment.
        for header in (tcp4("192.0.2.79"), block(PROXY, TCP4, addresses("192.0.2.79"))):
            commands = b"EHLO client.example\r\nMAIL FROM:<a@example.org>\r\nRCPT TO:<b@example.org>\r\nDATA\r\n" + TEXT
            with Behind(relay, header + commands) as client:
                for code in ("220", "250", "250", "250", "354"):
                    same("a reply", client.reply()[:3], code)
                number_of(client.reply())
            same("the client in the trace header", client_in_trace(field), "192.0.2.79")


def what_is_no_header_is_closed_at_once(field):
    relay = relay_of(field)
    with relay.running():
        for text in (
            b"EHLO client.example\r\n",
            b"PROXY\r\n",
            line("TCP4 192.0.2.77 192.0.2.1 54321"),
            line("TCP4 192.0.2.77 192.0.2.1 54321 25 "),
            line("TCP4 192.0.2.77  192.0.2.1 54321 25"),
            line("TCP4 192.0.2.077 192.0.2.1 54321 25"),
            line("TCP4 192.0.2.256 192.0.2.1 54321 25"),
            line("TCP4 192.0.2.77 192.0.2.1 054321 25"),
            line("TCP4 192.0.2.77 192.0.2.1 65536 25"),
            line("TCP4 192.0.2.77 192.0.2.1 +1 25"),
            line("tcp4 192.0.2.77 192.0.2.1 54321 25"),
            line("UNKNOWN " + 92 * "x"),
            block(0x22, TCP4, addresses("192.0.2.77")),
            block(0x11, TCP4, addresses("192.0.2.77")),
            block(PROXY, TCP4, addresses("192.0.2.77")[:11]),
            block(PROXY, 0x13, addresses("192.0.2.77")),
            block(PROXY, TCP4, addresses("192.0.2.77") + bytes(509)),
        ):
            is_refused(relay, "no-proxy-header", text)
        # The longest line has 107 octets.
        handed_in(field, relay, BALANCER, line("UNKNOWN " + 91 * "x"))


def a_client_of_another_protocol_is_closed(field):
    relay = relay_of(field)
    with relay.running():
        is_refused(relay, "proxy-not-ipv4", line("TCP6 2001:db8::77 2001:db8::1 54321 25"))
        is_refused(relay, "proxy-not-ipv4", block(PROXY, TCP6, bytes(36)))
        is_refused(relay, "proxy-not-ipv4", block(PROXY, UDP4, bytes(12)))
        is_refused(relay, "proxy-not-ipv4", block(PROXY, UNIX, bytes(216)))
        is_refused(relay, "no-proxy-header", block(PROXY, TCP6, bytes(35)))


def a_header_that_does_not_come_is_waited_for_five_seconds(field):
    relay = relay_of(field)
    with relay.running():
        for parts in ([], [tcp4("192.0.2.77")[:-1]], [block(PROXY, TCP4, addresses("192.0.2.77"))[:-1]]):
            seconds = is_closed(relay, *parts)
            if not LONGEST - 0.1 <= seconds <= LONGEST + 1 * TIMES:
                raise Slow(f"closed after {seconds:.1f} s")
        until("three lines", lambda: reasons(relay) == 3 * ["proxy-header-timeout"])


def silent_connections_of_the_balancer_hold_up_nobody(field):
    """Of 70 without a header 64 are waited for, and the others have a line each. Meanwhile other clients are served."""
    relay = relay_of(field)
    with relay.running(), contextlib.ExitStack() as stack:
        for _ in range(70):
            stack.enter_context(Behind(relay))
        until("six lines", lambda: reasons(relay) == 6 * ["no-room"])
        with Client(relay) as client:
            client.begin()
            client.hand_in()
        same("the client in the trace header", client_in_trace(field), "127.0.0.1")
        # After five seconds there is room for headers again.
        until("room for headers", lambda: reasons(relay).count("proxy-header-timeout") == 64, LONGEST + 1 * TIMES)
        handed_in(field, relay, "192.0.2.77", tcp4("192.0.2.77"))
        same("lines of clients that were turned away", lines_of(relay, "too-many"), [])


def from_elsewhere_a_header_is_an_unknown_command(field):
    relay = relay_of(field)
    with relay.running():
        with Client(relay) as client:
            same("the greeting", client.reply()[:4], "220 ")
            same("the reply", client.say(tcp4("192.0.2.77"))[:4], "500 ")
            same("the reply to EHLO", client.say(b"EHLO client.example\r\n")[:4], "250 ")
            client.hand_in()
        same("the client in the trace header", client_in_trace(field), "127.0.0.1")
    # Without the key it is one from everywhere.
    relay = field.relay("plain")
    with relay.running(), Client(relay, BALANCER) as client:
        same("the greeting", client.reply()[:4], "220 ")
        same("the reply", client.say(tcp4("192.0.2.77"))[:4], "500 ")


def limits_are_of_the_clients_address(field):
    relay = relay_of(field, sessions_per_client=2)
    with relay.running(), contextlib.ExitStack() as stack:
        for _ in range(2):
            stack.enter_context(Behind(relay, tcp4("192.0.2.77"))).begin()
        with Behind(relay, tcp4("192.0.2.77")) as client:
            same("the third of one address", client.rest(), TOO_MANY)
        for number in range(3):
            stack.enter_context(Behind(relay, tcp4(f"192.0.2.{number}"))).begin()


def trust_is_of_the_clients_address(field):
    relay = field.relay(more={"*": ("next.example", field.sink.port)}, balancers=f'["{BALANCER}"]',
                        trusted_clients='["192.0.2.0/25", "127.0.0.0/8"]')
    with relay.running():
        for address, code in (("192.0.2.77", "250"), ("192.0.2.177", "550")):
            for header in (tcp4(address), block(PROXY, TCP4, addresses(address))):
                with Behind(relay, header) as client:
                    client.begin()
                    client.say(b"MAIL FROM:<a@example.org>\r\n")
                    same(f"RCPT of {address}", client.say(b"RCPT TO:<c@elsewhere.example>\r\n")[:3], code)


def whether_a_client_may_connect_is_by_its_own_address(field):
    """The balancer may not connect, but its clients may, and the other way round."""
    headers = [lambda address: tcp4(address), lambda address: block(PROXY, TCP4, addresses(address))]
    relay = relay_of(field, clients='["192.0.2.0/25"]')
    with relay.running():
        for header in headers:
            handed_in(field, relay, "192.0.2.77", header("192.0.2.77"))
            for stranger in ("192.0.2.177", BALANCER, "127.0.0.1"):
                with Behind(relay, header(stranger)) as client:
                    same(f"what {stranger} is told", client.rest(), NO_SERVICE)
        for header in (line("UNKNOWN"), block(LOCAL, 0, b"")):
            with Behind(relay, header) as client:
                same("what the balancer itself is told", client.rest(), NO_SERVICE)
        with Client(relay) as client:
            same("what a stranger without a balancer is told", client.rest(), NO_SERVICE)
        # Nothing is told before the header has come.
        is_refused(relay, "no-proxy-header", b"EHLO client.example\r\n")
    relay = field.relay("balancer", balancers=f'["{BALANCER}"]', clients=f'["{BALANCER}"]')
    with relay.running():
        for header in headers:
            with Behind(relay, header("192.0.2.77")) as client:
                same("what a client of an allowed balancer is told", client.rest(), NO_SERVICE)
        handed_in(field, relay, BALANCER, line("UNKNOWN"))


ROWS = [
    a_line_says_whose_the_connection_is,
    a_block_says_whose_the_connection_is,
    the_balancer_speaks_for_itself,
    a_header_may_come_in_pieces_and_with_commands_after_it,
    what_is_no_header_is_closed_at_once,
    a_client_of_another_protocol_is_closed,
    a_header_that_does_not_come_is_waited_for_five_seconds,
    silent_connections_of_the_balancer_hold_up_nobody,
    from_elsewhere_a_header_is_an_unknown_command,
    limits_are_of_the_clients_address,
    trust_is_of_the_clients_address,
    whether_a_client_may_connect_is_by_its_own_address,
]


if __name__ == "__main__":
    play_rows("run_proxy", ROWS)
