#!/usr/bin/env python3
"""Reads each report that the program writes, plain or rich, with Python's email package: a multipart/report of three
parts without defects, with the fields that its row's records give, and the same parts into which the program itself
splits it.

    tests/reports_read_by_python.py build/relay_rows_tests
"""
import datetime
import email
import email.policy
import re
import subprocess
import sys
import pathlib

DATA = pathlib.Path(__file__).resolve().parent.parent / "crates/relay_rows_tests/data"
HOST = "relay.example"
# How long a place waits before it is late, and before it fails, in seconds; the last moment that a date shows.
LATENESS, PATIENCE, LAST_SECOND = 14_400, 432_000, 253_370_764_799
STATUS_CODE = re.compile(r"5\.(0|[1-9][0-9]{0,2})\.(0|[1-9][0-9]{0,2})(?= |$)")
RETURNED = "X-Postmaster; returned by the postmaster"
REMOVED = "  It was removed from the queue by the postmaster."
ESCAPE = re.compile(rb"\\(r|n|x[0-9A-F]{2})")


def octets_of(line):
    """Returns the octets that a printed line stands for."""
    named = {b"r": b"\r", b"n": b"\n"}
    return ESCAPE.sub(lambda found: named.get(found[1]) or bytes([int(found[1][1:], 16)]), line.encode())


class Record:
    """The fields of a record, one after another."""

    def __init__(self, text):
        self.octets, self.place = bytes.fromhex(text), 1

    def take(self, size):
        self.place += size
        return self.octets[self.place - size : self.place]

    def number(self, size):
        return int.from_bytes(self.take(size), "big")

    def text(self, size):
        return self.take(self.number(size)).decode("latin-1")


def read_accept(text):
    record = Record(text)
    moment = record.number(8)
    path, ret, envid = record.text(2), record.number(1), record.text(2)
    places = [(record.text(2), record.number(1), record.text(2)) for _ in range(record.number(1))]
    return moment, path, ret, envid, places, record.text(4)


def read_outcome(text):
    record = Record(text)
    record.number(8)
    moment, hop, verdicts = record.number(8), record.text(2), []
    for _ in range(record.number(1)):
        place, kind = record.number(1), record.number(1)
        refusal = (record.number(2), record.text(1)) if kind == 3 else None
        verdicts.append((place, kind, refusal))
    return moment, hop, verdicts


def plain(text):
    return re.sub(r"\+([0-9A-F]{2})", lambda found: chr(int(found[1], 16)), text)


def action_of(kind, notify, waited):
    """Returns what is reported of a place that has waited so long: a failure, also of what the postmaster returned,
    unless NOTIFY excludes it; relayed mail without DSN if NOTIFY has SUCCESS; and a late place that stays queued if
    NOTIFY has DELAY."""
    if kind == 2:
        return "relayed" if notify & 2 else None
    if kind == 4 and waited < PATIENCE:
        return "delayed" if waited >= LATENESS and notify & 8 else None
    return "failed" if kind in (3, 4, 5, 6, 7) and notify in (0, 4, 5, 6, 7, 12, 14) else None


def date_of(moment):
    at = datetime.datetime(1970, 1, 1) + datetime.timedelta(seconds=moment)
    return at.strftime("%a, %d %b %Y %H:%M:%S +0000")


def status_of(refusal, rich):
    """Returns the status code with which a reply begins, if it is that of a permanent failure, as the reply is."""
    found = STATUS_CODE.match(refusal[1]) if rich and refusal[0] >= 500 else None
    return found[0] if found else "5.0.0"


def fields_of(hop, place, kind, refusal, action, until, rich):
    path, _, orcpt = place
    fields = {"Final-Recipient": f"rfc822; {path[1:-1]}", "Action": action}
    if orcpt:
        kind_of_address, address = orcpt.split(";", 1)
        fields["Original-Recipient"] = f"{kind_of_address}; {plain(address)}"
    status = {2: "2.0.0", 4: "4.4.7", 5: "5.6.3", 6: "5.1.2", 7: "5.0.0"}.get(kind)
    fields["Status"] = status or status_of(refusal, rich)
    if action == "delayed":
        fields["Status"] = "4.0.0"
        if until <= LAST_SECOND:
            fields["Will-Retry-Until"] = date_of(until)
    if kind in (2, 3):
        fields["Remote-MTA"] = f"dns; {hop}"
    if kind == 3:
        fields["Diagnostic-Code"] = f"smtp; {refusal[0]} {refusal[1]}".rstrip()
    if kind == 7:
        fields["Diagnostic-Code"] = RETURNED
    return fields


def check_people(lines, told, rich):
    """Checks the part for people: a line for each place, or sentences with the hop's own words."""
    if not rich:
        assert lines[0] == f"Delivery report of {HOST} for message 1." and len(lines) == 1 + len(told)
        assert lines[1:] == [f"{fields['Action']} <{fields['Final-Recipient'][8:]}>" for fields in told]
        return
    assert lines[0] == f"This is the mail relay at {HOST}." and lines[1].endswith(" as number 1,")
    blocks = "\n".join(lines).split("\n\n")[1:]
    assert len(blocks) == len(told), "other blocks"
    for block, fields in zip(blocks, told):
        first, *rest = block.split("\n")
        assert first == f"For <{fields['Final-Recipient'][8:]}>:"
        words = fields.get("Diagnostic-Code")
        assert (REMOVED in rest) == (words == RETURNED), "other words of the postmaster"
        assert words in (None, RETURNED) or f"    {words[6:]}" in rest, "other words of the hop"
        until = fields.get("Will-Retry-Until")
        assert until is None or f"  The relay keeps trying until {until}." in rest, "another end"


def check_header(message, moment, told, eight_bit, rich):
    """Checks what the header section of a rich report has, and that of a plain one hasn't."""
    assert message["Message-ID"] == (f"<{moment}.2@{HOST}>" if rich else f"<2@{HOST}>")
    assert message["Auto-Submitted"] == ("auto-replied" if rich else None)
    assert message["Content-Transfer-Encoding"] == ("8bit" if rich and eight_bit else None)
    actions = [fields["Action"] for fields in told]
    worst = next(action for action in ("failed", "delayed", "relayed") if action in actions)
    path = told[actions.index(worst)]["Final-Recipient"][8:]
    assert message["Subject"] == (f"Delivery {worst}: <{path}>" if rich else "Delivery report")


def check_defects(text):
    """A report and its parts have no defects; what is returned is the sender's, and may have some."""
    for policy in (email.policy.compat32, email.policy.default):
        report = email.message_from_bytes(text, policy=policy)
        for part in (report, *report.get_payload()):
            assert not part.defects, f"{part.defects}"


def check(row, text, sizes):
    rich = row[0] == "rich"
    check_defects(text)
    accepted, path, ret, envid, places, stored = read_accept(row[1])
    moment, hop, verdicts = read_outcome(row[2])
    message = email.message_from_bytes(text, policy=email.policy.compat32)
    assert message.get_content_type() == "multipart/report" and not message.defects, "no report"
    assert message.get_param("report-type") == "delivery-status"
    assert message["To"] == path and message["From"] == f"<postmaster@{HOST}>"
    people, status, returned = message.get_payload()
    assert people.get_content_type() == "text/plain" and status.get_content_type() == "message/delivery-status"
    told = []
    for place, kind, refusal in verdicts:
        action = action_of(kind, places[place][1], moment - accepted)
        if action:
            told.append(fields_of(hop, places[place], kind, refusal, action, accepted + PATIENCE, rich))
    whole = ret == 1 and any(fields["Action"] == "failed" for fields in told)
    assert returned.get_content_type() == ("message/rfc822" if whole else "text/rfc822-headers")
    check_people(people.get_payload().splitlines(), told, rich)
    of_message, *of_places = status.get_payload()
    assert of_message["Reporting-MTA"] == f"dns; {HOST}"
    assert of_message["Original-Envelope-Id"] == (plain(envid) or None)
    assert len(of_places) == len(told), "other places"
    for found, wanted in zip(of_places, told):
        dated = "Last-Attempt-Date" in found
        tried = wanted["Status"] != "5.1.2" and wanted.get("Diagnostic-Code") != RETURNED
        assert dated == tried, "date of an attempt"
        assert {key: value for key, value in found.items() if key != "Last-Attempt-Date"} == wanted, f"{found.items()}"
    boundary = message.get_boundary().encode()
    header, *pieces = text.split(b"\r\n--" + boundary)
    parts = [piece.split(b"\r\n\r\n", 1)[1] for piece in pieces[:3]]
    assert len(pieces) == 4 and pieces[3] == b"--\r\n" and [len(part) for part in parts] == sizes, "other parts"
    end = stored.find("\r\n\r\n") + 2 if "\r\n\r\n" in stored else len(stored)
    assert parts[2] == (stored if whole else stored[:end]).encode("latin-1"), "other text"
    eight_bit = any(octet > 127 for octet in parts[2])
    check_header(message, moment, told, eight_bit, rich)
    assert returned["Content-Transfer-Encoding"] == ("8bit" if rich and eight_bit else None)


def main():
    done = subprocess.run([sys.argv[1], "books", str(DATA)], check=True, capture_output=True, text=True)
    written = done.stdout.splitlines()
    rows = (DATA / "reports.in").read_text().splitlines()
    count = 0
    # What comes of these rows is written last.
    for row, line in zip(rows, written[-len(rows) :], strict=True):
        words = row.split(" ")
        if words[0] not in ("report", "rich"):
            continue
        if line == "no report":
            continue
        shown, sizes = line.split(" | parts of ")
        check(words, octets_of(shown), [int(size) for size in sizes.split(", ")])
        count += 1
    assert count >= 40, f"{count} reports"
    print(f"{count} reports were read")


main()
