#!/usr/bin/env python3
"""Makes 1,000 records with a fixed generator, about half of them accepts and half outcomes, with up to 100 recipients
or rulings each. The program decodes each record and encodes its change again, and must get the same octets.

    tests/records_of_a_generator.py build/relay_rows_tests
"""
import pathlib
import subprocess
import sys
import tempfile

COUNT = 1_000
MOMENTS = 253_370_764_800
# The octets of NOTIFY: none, NEVER, and the sums of SUCCESS, FAILURE and DELAY.
NOTIFY = bytes([0, 1, 2, 4, 6, 8, 10, 12, 14])


class Draw:
    """Pseudo-random numbers, the same in each run."""

    def __init__(self):
        self.state = 1

    def below(self, bound):
        self.state = (self.state * 6_364_136_223_846_793_005 + 1_442_695_040_888_963_407) % 2**64
        return (self.state >> 11) % bound

    def octets(self, count, values, first=0):
        return bytes(self.below(values) + first for _ in range(count))

    def letters(self, most):
        return self.octets(self.below(most) + 1, 26, ord("a"))

    def mailbox(self):
        """Returns a mailbox; one in four has a quoted string as its local part."""
        before, after = (b'<"', b' x"@') if self.below(4) == 0 else (b"<", b"@")
        return before + self.letters(20) + after + self.letters(20) + b".example>"

    def path(self, times, other):
        """Returns the other path once in so many times, else a mailbox."""
        return sized(other if self.below(times) == 0 else self.mailbox())

    def xtext(self):
        return self.letters(90) + b"+20"

    def recipient(self):
        path = self.path(8, b"<Postmaster>")
        notify = NOTIFY[self.below(9) :][:1]
        return path + notify + sized(b"rfc822;" + self.xtext() if self.below(2) else b"")

    def accept(self):
        record = b"\1" + number(self.below(MOMENTS)) + self.path(4, b"<>") + self.octets(1, 3)
        record += sized(self.xtext() if self.below(2) else b"")
        count = self.below(100) + 1
        record += bytes([count]) + b"".join(self.recipient() for _ in range(count))
        return record + long(self.octets(self.below(300), 256))

    def ruling(self, place):
        verdict = self.below(6) + 1
        return bytes([place, verdict]) + (self.refusal() if verdict == 3 else b"")

    def refusal(self):
        code = (self.below(400) + 200).to_bytes(2, "big")
        length = self.below(201)
        return code + bytes([length]) + self.octets(length, 95, ord(" "))

    def outcome(self):
        record = b"\2" + number(self.below(2**53)) + number(self.below(MOMENTS))
        record += sized(self.letters(200) if self.below(4) else b"")
        count = self.below(100) + 1
        first = self.below(100)
        record += bytes([count]) + b"".join(self.ruling(first + place) for place in range(count))
        return record + long(self.octets(self.below(50), 26, ord("a")))

    def record(self):
        return self.accept() if self.below(2) == 0 else self.outcome()


def number(value):
    return value.to_bytes(8, "big")


def sized(text):
    return len(text).to_bytes(2, "big") + text


def long(text):
    return len(text).to_bytes(4, "big") + text


def main():
    draw = Draw()
    records = [draw.record() for _ in range(COUNT)]
    with tempfile.TemporaryDirectory() as room:
        for name in ["octets.in", "snapshots.in", "delay.in", "reports.in"]:
            (pathlib.Path(room) / name).touch()
        (pathlib.Path(room) / "rows.in").write_text("".join(f"decode {it.hex()}\n" for it in records))
        run = subprocess.run([sys.argv[1], "books", room], check=True, capture_output=True, text=True)
    for place, (record, line) in enumerate(zip(records, run.stdout.splitlines(), strict=True), 1):
        if line != f"decode {record.hex()} => a record of {len(record)}":
            sys.exit(f"records_of_a_generator: record {place} comes otherwise: {line}")
    print(f"records_of_a_generator: {COUNT} records of {sum(map(len, records))} octets were decoded and encoded")


if __name__ == "__main__":
    main()
