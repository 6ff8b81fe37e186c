"""The two files of a spool, read from the layout in docs/ alone, and the snapshot of what they hold: a second
implementation, so that the program's output isn't compared with itself.

A file is the octets `RELAYQ01`, a gate, a generation of 8 octets and a chain: a gate, a length of 4 octets, a body, and
so on, up to the first gate that isn't 1.
"""
import dataclasses
import struct

from relay_program import Difference, same

MAGIC = b"RELAYQ01"
# How long a place waits after its first Later, in seconds.
FIRST_WAIT = 1800
TAKEN, LATER = (1, 2), 4


class Reader:
    """The fields of a body, from its front."""

    def __init__(self, octets):
        self.octets, self.place = octets, 0

    def take(self, size):
        taken = self.octets[self.place:self.place + size]
        same("octets left", len(taken), size)
        self.place += size
        return taken

    def number(self, size):
        return int.from_bytes(self.take(size), "big")

    def sized(self, width):
        return self.take(self.number(width))


@dataclasses.dataclass
class Place:
    """A recipient as its record has it, and what is known of it."""

    spelled: bytes
    due: int
    held: bool = True
    later: int = 0


@dataclasses.dataclass
class Message:
    """The fields of a message before its recipients, these, and its text."""

    front: bytes
    places: list
    text: bytes


def head_of(octets):
    """Returns whether the head is open, and the generation; None if there is no head."""
    if len(octets) < 18 or octets[:8] != MAGIC:
        return None
    return octets[8] == 1, int.from_bytes(octets[9:17], "big")


def taken_of(first, second):
    """Returns the file that is read: of those with an open head, the one with the greater generation, at equal ones the
    first."""
    heads = [(head_of(octets), octets) for octets in (first, second)]
    opened = [(head[1], octets) for head, octets in heads if head is not None and head[0]]
    if not opened:
        raise Difference("no file has an open head")
    return max(opened, key=lambda it: it[0])[1]


def bodies_of(octets):
    """Returns the bodies of a file with an open head, and its size up to the last gate."""
    bodies, place = [], 17
    while octets[place] == 1:
        size = int.from_bytes(octets[place + 1:place + 5], "big")
        bodies.append(octets[place + 5:place + 5 + size])
        same("the length of a body", len(bodies[-1]), size)
        place += 5 + size
    return bodies, place + 1


def accept_of(reader):
    begun = reader.place
    moment = reader.number(8)
    reader.sized(2)
    reader.take(1)
    reader.sized(2)
    count = reader.number(1)
    front = reader.octets[begun:reader.place]
    places = []
    for _ in range(count):
        start = reader.place
        reader.sized(2)
        reader.take(1)
        reader.sized(2)
        places.append(Place(reader.octets[start:reader.place], moment))
    return Message(front, places, reader.sized(4))


def follow_outcome(reader, held):
    message, moment = held[reader.number(8)], reader.number(8)
    reader.sized(2)
    for _ in range(reader.number(1)):
        place, verdict = message.places[reader.number(1)], reader.number(1)
        if verdict in TAKEN:
            place.held, place.later, place.due = False, 0, 0
        elif verdict == LATER:
            same("earlier Later verdicts", place.later, 0)
            place.later, place.due = 1, moment + FIRST_WAIT
        else:
            raise Difference(f"a verdict that these tests don't know: {verdict}")
    same("the report", reader.sized(4), b"")


def snapshot_of(bodies):
    """Returns the snapshot of what a chain of accepts and outcomes holds, and nothing else."""
    held = {}
    for number, body in enumerate(bodies, 1):
        reader = Reader(body)
        kind = reader.number(1)
        if kind == 1:
            held[number] = accept_of(reader)
        else:
            same("the kind of a record", kind, 4)
            follow_outcome(reader, held)
        same("the end of a record", reader.place, len(body))
    held = {number: it for number, it in held.items() if any(place.held for place in it.places)}
    octets = struct.pack(">BQI", 5, len(bodies) + 1, len(held))
    for number, message in held.items():
        octets += struct.pack(">Q", number) + message.front
        for place in message.places:
            # None of these places was reported as delayed.
            octets += place.spelled + struct.pack(">BBBQ", place.held, place.later, 0, place.due)
        octets += struct.pack(">I", len(message.text)) + message.text
    return octets


def file_of(generation, *bodies):
    """Returns a file with an open head, of this generation, with these bodies."""
    links = b"".join(b"\1" + struct.pack(">I", len(body)) + body for body in bodies)
    return MAGIC + b"\1" + struct.pack(">Q", generation) + links + b"\0"
