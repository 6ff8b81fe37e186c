"""Connections of a balancer to a relay in a box: each begins with a header of the PROXY protocol, which says whose it
is (HAProxy's specification, versions 1 and 2, with the profile of relay_proxy/specs, written again from these). The
relay takes the client, or closes the connection and logs why.
"""
from box_clients import Stream, Talk

CRLF = b"\r\n"
WORD, SIGNATURE = b"PROXY ", b"\r\n\r\n\0\r\nQUIT\n"
# The most octets of a line with its CR LF, and of a block after its length.
LONGEST_LINE, LONGEST_REST = 107, 520
# The octets of addresses of each other family that a block may have.
OTHER_SIZES = {0x12: 12, 0x21: 36, 0x22: 36, 0x31: 216, 0x32: 216}
# How long a header may take, in milliseconds, and how many are waited for at a time.
HEADER_TIME, MOST_HEADERS = 5_000, 64
# What octets begin with, if not with a client's address: a header that isn't whole, none, one of a balancer that speaks
# for itself, and one of a client that doesn't come by TCP over IPv4.
UNFINISHED, MISSING, OWN, OTHER = "unfinished", "no-proxy-header", "own", "proxy-not-ipv4"
LATE, NO_ROOM = "proxy-header-timeout", "no-room"


def read_header(octets):
    """Returns what octets begin with, and how many of them are the header."""
    for front, read in ((WORD, read_line), (SIGNATURE, read_block)):
        if octets.startswith(front):
            return read(octets)
        if front.startswith(octets):
            return UNFINISHED, 0
    return MISSING, 0


def read_line(octets):
    """Returns the same of octets that begin as a header of version 1."""
    end = octets.find(CRLF)
    if end < 0:
        return (UNFINISHED if len(octets) < LONGEST_LINE else MISSING), 0
    return said_by_line(octets[:end]) if end + 2 <= LONGEST_LINE else MISSING, end + 2


def said_by_line(line):
    if line == b"PROXY UNKNOWN" or line.startswith(b"PROXY UNKNOWN "):
        return OWN
    if line.startswith(b"PROXY TCP6 "):
        return OTHER
    words = line.split(b" ")
    if words[:2] != [b"PROXY", b"TCP4"] or len(words) != 6:
        return MISSING
    addresses = [number for word in words[2:4] for number in word.split(b".")]
    is_whole = [word.count(b".") for word in words[2:4]] == [3, 3]
    if not is_whole or not all(is_number(one, 255) for one in addresses):
        return MISSING
    if not all(is_number(port, 65_535) for port in words[4:]):
        return MISSING
    return f"{words[2].decode()}:{words[4].decode()}"


def is_number(word, most):
    """Returns whether a word is a decimal number without leading zeros, of at most this value."""
    return word.isdigit() and (word == b"0" or word[:1] != b"0") and len(word) <= 5 and int(word) <= most


def read_block(octets):
    """Returns the same of octets that begin as a header of version 2."""
    fields = octets[len(SIGNATURE):]
    size = int.from_bytes(fields[2:4], "big")
    if len(fields) < 4 or size <= LONGEST_REST and len(fields) < 4 + size:
        return UNFINISHED, 0
    if size > LONGEST_REST:
        return MISSING, 0
    return said_by_block(fields[0], fields[1], fields[4:4 + size]), len(SIGNATURE) + 4 + size


def said_by_block(command, family, rest):
    if command == 0x20 or command == 0x21 and family == 0:
        return OWN
    if command == 0x21 and family == 0x11 and len(rest) >= 12:
        return "{}.{}.{}.{}:{}".format(*rest[:4], int.from_bytes(rest[8:10], "big"))
    if command == 0x21 and len(rest) >= OTHER_SIZES.get(family, LONGEST_REST + 1):
        return OTHER
    return MISSING


class Arrival(Stream):
    """A balancer's connection whose header isn't whole yet."""

    def __init__(self, number, address, now):
        super().__init__(number, address, now)
        self.header, self.said, self.reason, self.comes = b"", UNFINISHED, None, False

    def note_coming(self, now):
        """Notes the turn in which the relay takes it."""
        if not self.comes:
            self.comes, self.opened = True, now

    def read(self, octets, judge):
        """Takes what the relay has read. Returns the client that the header names, or None, and the octets after the
        header."""
        self.require(self.said == UNFINISHED, f"it read {octets!r}, after {self.header!r}")
        self.header += octets
        self.said, size = read_header(self.header)
        if self.said in (UNFINISHED, MISSING):
            return None, b""
        rest = self.header[size:]
        if self.said == OTHER:
            self.require(not rest, f"it read {rest!r} after a header")
            return None, b""
        return self.client(judge), rest

    def client(self, judge):
        """Returns the connection as one of its client."""
        address = self.address if self.said == OWN else self.said
        talk = Talk(self.number, address, judge.setup, judge.now)
        talk.unread, talk.room, talk.has_end, talk.is_reset = self.unread, self.room, self.has_end, self.is_reset
        talk.is_behind = True
        return talk

    def wrote(self, octets, judge):
        """Requires that it gets nothing, unless it wasn't taken before the device has failed."""
        line = b"421 %b insufficient system storage, closing\r\n" % judge.setup.host
        self.require(judge.has_failed and line.startswith(octets), f"it got {octets!r} before its header was whole")

    def tell(self, reason, judge):
        """Compares the reason in the log for its end with the one that it has."""
        has_room = judge.headers <= MOST_HEADERS or self.header
        self.require(reason == self.cause(judge) or reason == NO_ROOM and not has_room,
                     f"the log says {reason}, after {self.header!r}, and {judge.now - self.opened} ms")
        self.reason = reason

    def cause(self, judge):
        """Returns why the relay must close it, or None."""
        if self.said in (MISSING, OTHER):
            return self.said
        if self.is_at_end():
            return MISSING
        return LATE if judge.now >= self.opened + HEADER_TIME else None

    def closed(self, now, has_failed):
        self.is_closed = True
        self.require(has_failed or self.reason, f"it was closed, and the log has no reason, after {self.header!r}")

    def check(self, judge, wait):
        """Requires that it is still waited for, after a turn that ends with this wait."""
        self.require(self.cause(judge) is None, f"it is still there, though {self.cause(judge)}")
        self.require(not self.unread, f"{self.unread!r} isn't read, and its header isn't whole")
        self.require(wait <= self.opened + HEADER_TIME - judge.now, f"the relay waits {wait} ms for its header")
