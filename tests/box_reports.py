"""Delivery reports of a relay in a box: which message a text is, and of which recipients a report tells (RFC 3462 and
3464)."""

# What a report says of a recipient whose mail a postmaster has returned.
RETURNED = b"\r\nDiagnostic-Code: X-Postmaster; returned by the postmaster\r\n"


def number_in(message, text):
    """Returns the number in the text of a message, or None: that in its Message-ID, after the time in a rich report
    (relay_report/specs), or that in the time stamp line of a client's."""
    if message.is_report():
        number = text.partition(b"\r\nMessage-ID: <")[2].partition(b"@")[0].rpartition(b".")[2]
    else:
        number = text.partition(b" id ")[2].partition(b";")[0]
    return int(number) if number.isdigit() else None


def actions_of(text):
    """Returns the actions that a report names for each path, in order; None if the text isn't a report of three parts
    (RFC 3462 and 3464)."""
    header, _, body = text.partition(b"\r\n\r\n")
    _, found, rest = header.replace(b"\r\n ", b" ").partition(
        b'\r\nContent-Type: multipart/report; report-type=delivery-status; boundary="')
    boundary = rest.partition(b'"')[0]
    parts = (b"\r\n" + body).split(b"\r\n--" + boundary) if found and boundary else []
    if len(parts) != 5 or parts[4] != b"--\r\n":
        return None
    kinds = [b"text/plain", b"message/delivery-status", (b"message/rfc822", b"text/rfc822-headers")]
    if not all(part.startswith(b"\r\nContent-Type: ") and part[16:].startswith(kind)
               for part, kind in zip(parts[1:4], kinds)):
        return None
    actions = {}
    for block in parts[2].split(b"\r\n\r\n")[2:]:
        fields = dict(line.partition(b": ")[::2] for line in block.split(b"\r\n"))
        path = b"<" + fields.get(b"Final-Recipient", b"").partition(b"; ")[2] + b">"
        actions.setdefault(path, []).append(fields.get(b"Action", b"").decode("latin-1"))
    return actions


def tells(message, text):
    """Returns whether a text is a report to the message's sender that tells of just these recipients."""
    if not actions_of(text) or message.tells_of_return and RETURNED not in text:
        return False
    return any(tells_of(told, of, text) for told, of in [(message.told, message.of), *message.may_tell])


def tells_of(told, of, text):
    """Returns whether a text is a report of a message that tells of just these recipients."""
    found = actions_of(text)
    numbers = (b"message %d." % of.number, b"as number %d," % of.number) if of.number else (b"",)
    # Where it isn't known which recipients have failed, a report may tell of any of them.
    is_vague = [] in told.values() and set(found) <= set(told)
    return (found == told or is_vague) and any(number in text for number in numbers)
