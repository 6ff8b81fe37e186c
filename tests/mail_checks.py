"""Submits mail to relayd, and checks what must be in it at the other end: time stamp lines and reports."""
import email
import email.policy
import email.utils
import re
import smtplib
import socket
import time

from relay_program import Difference, PATIENCE, same

CONTENT = b"Subject: periods\r\n\r\n.\r\n..\r\n.a line\r\nend .\r\n...\r\n"
MARK = re.compile(
    rb"Received: from (\S+) \(\[([0-9.]+)\]\)\r\n"
    rb" by (\S+) with (E?SMTP) id (\d+);\r\n"
    rb" (.{31})\r\n"
)
# Each octet stands in the third, and a period after a lone LF.
CONTENTS = [CONTENT, b"\r\n", bytes(range(256)) + b"\n.\r\n", b"x" * 5000 + b"\r\n.y\r\n" * 40000]


def hand_in(relay, content=CONTENT, recipients=("b@example.org",), mail=(), rcpt=()):
    """Submits a message with smtplib, on one connection. Returns the refused recipients, with their replies."""
    with smtplib.SMTP("127.0.0.1", relay.port, local_hostname="client.example", timeout=PATIENCE) as client:
        return client.sendmail("a@example.org", list(recipients), content, mail, rcpt)


def behind_mark(stored, host, number, word="client.example", address="127.0.0.1"):
    """Returns what follows the time stamp line, which must name this host and number, this client and address, and a
    time of these minutes."""
    mark = MARK.match(stored)
    if not mark:
        raise Difference(f"no time stamp line begins {stored[:120]!r}")
    wanted = (word.encode(), address.encode(), host.encode(), b"ESMTP", str(number).encode())
    same("the time stamp line", mark.groups()[:5], wanted)
    written = email.utils.parsedate_to_datetime(mark[6].decode()).timestamp()
    if abs(time.time() - written) > 300:
        raise Difference(f"the time stamp line is of {mark[6].decode()}")
    return stored[mark.end():]


def one_message(sink):
    """Returns the only message that the sink has got since the last call."""
    messages = sink.take_all()
    same("messages at the sink", len(messages), 1)
    return messages[0]


def connected(relay):
    return socket.create_connection(("127.0.0.1", relay.port), PATIENCE)


def talk(link, *parts):
    """Sends each part after the replies to the earlier ones have come. Returns the last reply."""
    with link.makefile("rb") as replies:
        line = replies.readline()
        for part in parts:
            link.sendall(part)
            line = replies.readline()
            while line[3:4] == b"-":
                line = replies.readline()
        return line.decode().rstrip("\r\n")


def converse(relay, *parts):
    """Sends each part, on a new connection, after the replies to the earlier ones have come. Returns the last reply."""
    with connected(relay) as link:
        return talk(link, *parts)


# What a report says of the usual recipient, before the status.
FAILED = {"Final-Recipient": "rfc822; b@example.org", "Action": "failed"}


def read_report(message, number, of, sender="a@example.org"):
    """Returns a report's three parts as Python's email package reads them; checks its envelope and header section."""
    same("MAIL of a report", message.mail, b"<>")
    same("RCPT of a report", message.recipients, [f"<{sender}>".encode()])
    read = email.message_from_bytes(message.content, policy=email.policy.default)
    same("defects of a report", [part.defects for part in read.walk() if part.defects], [])
    same("type of a report", (read.get_content_type(), read.get_param("report-type")),
         ("multipart/report", "delivery-status"))
    same("From", read["From"], "postmaster@relay.example")
    same("To", read["To"], sender)
    same("Message-ID", read["Message-ID"], f"<{number}@relay.example>")
    parts = list(read.iter_parts())
    same("parts of a report", len(parts), 3)
    first = parts[0].get_content().splitlines()[0]
    same("first line of a report", first, f"Delivery report of relay.example for message {of}.")
    return parts


def fields(report, place):
    """Returns the fields of the message (0) or of a reported place (from 1), without dates, of which only the zone is
    checked."""
    found = dict(report[1].get_payload()[place].items())
    for name in ("Arrival-Date", "Last-Attempt-Date"):
        if name in found:
            date = email.utils.parsedate_to_datetime(found.pop(name))
            same(f"zone of {name}", date.utcoffset().seconds, 0)
    return found
