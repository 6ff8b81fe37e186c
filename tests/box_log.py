"""Reads lines of a relay's log, of both forms: an event and its fields; and which of them are of one attempt."""
import json

from relay_program import Difference

# What became of a recipient, and the other events of a relay (relayd(8), The log).
RECIPIENT_EVENTS = {"sent", "deferred", "delayed", "failed", "expired", "no-route", "returned", "discarded"}
OTHER_EVENTS = {"accepted", "rejected", "client-end", "report", "unrecorded", "hop-held", "hop-back", "spool-full",
                "compacted", "control", "device-failed", "reopened", "shortage-ended", "stopping", "address-awaited"}
LONGEST = 1_000
# Why no connection was made: an attempt that has heard its next hop has none of these reasons. Why a connection ended.
UNMADE = {"connection refused", "unreachable"}
LOSSES = UNMADE | {"timeout", "connection closed"}


def read_value(text, at):
    """Returns the value that begins at an index, and the index after it."""
    if text[at:at + 1] != '"':
        end = text.find(" ", at)
        end = len(text) if end < 0 else end
        return text[at:end], end
    value, at = [], at + 1
    while text[at] != '"':
        if text[at] == "\\":
            if text[at + 1] == "x":
                value.append(chr(int(text[at + 2:at + 4], 16)))
                at += 4
                continue
            at += 1
        value.append(text[at])
        at += 1
    return "".join(value), at + 1


def read_fields(text):
    """Returns the fields of a line of text, by key."""
    fields, at = {}, 0
    while at < len(text):
        equals = text.index("=", at)
        key = text[at:equals]
        fields[key], at = read_value(text, equals + 1)
        at += 1
    return fields


def read_line(line):
    """Returns the event of a line and its fields, as texts; a line that isn't printable, or isn't one, is a
    difference."""
    if not line.isascii() or not line.isprintable() or len(line) > LONGEST:
        raise Difference(f"a line of the log isn't {LONGEST} printable octets at most: {line!r}")
    try:
        if line.startswith("{"):
            fields = {key: str(value) for key, value in json.loads(line).items()}
            event = fields.pop("event")
        else:
            event, _, rest = line.partition("relayd: ")[2].partition(" ")
            fields = read_fields(rest)
    except (ValueError, IndexError, KeyError) as error:
        raise Difference(f"a line of the log isn't an event and its fields: {line!r}") from error
    if event not in RECIPIENT_EVENTS and event not in OTHER_EVENTS:
        raise Difference(f"a line of the log has no event of relayd(8): {line!r}")
    return event, fields


class Told:
    """What the log tells of one attempt: its message, next hop and address, whether no connection was made, the event
    and the path of each recipient, the reasons, and the line of the report that it owes."""

    def __init__(self, fields):
        self.key = key_of(fields)
        self.number, self.hop, self.address, self.is_unmade = self.key
        self.lines, self.reasons, self.report, self.is_taken = [], set(), None, False

    def add(self, event, fields):
        """Adds the line of a recipient."""
        self.lines.append((event, fields.get("to", "").encode("latin-1")))
        if "reason" in fields:
            self.reasons.add(fields["reason"])

    def is_lost(self):
        """Returns whether its connection failed."""
        return bool(self.reasons & LOSSES)


def key_of(fields):
    """Returns the message, the next hop and the address of a line, and whether no connection was made."""
    return int(fields["message"]), fields.get("hop", ""), fields.get("addr", ""), fields.get("reason") in UNMADE


def attempts_of(log):
    """Returns what the log tells of each attempt, in its order: the lines of an attempt follow one another, and then
    comes the line of its report (relay_log)."""
    found, last = [], None
    for event, fields in log:
        if event in RECIPIENT_EVENTS:
            if last is None or last.key != key_of(fields):
                last = Told(fields)
                found.append(last)
            last.add(event, fields)
        elif event == "report":
            if last is None or int(fields["of"]) != last.number:
                raise Difference(f"message {fields['message']} is a report of message {fields['of']}, and no line of "
                                 "its recipients stands before it")
            last.report, last = fields, None
        else:
            last = None
    return found
