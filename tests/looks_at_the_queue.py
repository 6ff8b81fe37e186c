#!/usr/bin/env python3
"""Prints queues with `relayd list --long`, `list --json`, `show` and `status`: spools that are written here from the
layout in docs/ alone, octets that a terminal must not get, 100,000 messages, texts longer than the memory there is, and
the spool of a running relay. Ends at the first difference.

    tests/looks_at_the_queue.py build/relayd

The time limit is multiplied by half the environment variable TIMES (2).
"""
import json
import pathlib
import re
import resource
import shutil
import struct
import subprocess
import sys
import tempfile
import time

sys.dont_write_bytecode = True

from mail_checks import hand_in
from relay_program import Difference, Relay, same
from running_relay import TIMES, Field
from spool_files import file_of

ROUTES = {"example.org": ("next.example", 2526), "example.net": ("other.example", 2527)}
HOUR, DAY = 3600, 86400
SAFE = re.compile(rb"[\n -~]*")
# How long a look at 100,000 messages may take, in seconds (one, and longer in the gate), and how many there are.
SECONDS, MANY = 0.5 * TIMES, 100_000
# How many long messages there are, how long each text is in octets, and how many octets of memory a look may ask for: a
# sixth of the texts.
LONG, LENGTH, MEMORY = 400, 1 << 20, 64 << 20


def sized(octets):
    return struct.pack(">H", len(octets)) + octets


def recipient(path, notify=0, orcpt=b""):
    return sized(path) + bytes([notify]) + sized(orcpt)


def accept(moment, reverse_path, recipients, text, ret=0, envid=b""):
    """The record of an accepted message."""
    front = b"\1" + struct.pack(">Q", moment) + sized(reverse_path) + bytes([ret]) + sized(envid)
    return front + bytes([len(recipients)]) + b"".join(recipients) + struct.pack(">I", len(text)) + text


def deferral(number, moment, places):
    """Returns the record of an attempt that deferred these places of a message."""
    rulings = b"".join(bytes([place, 4]) for place in places)
    front = b"\4" + struct.pack(">QQ", number, moment) + sized(b"next.example")
    return front + bytes([len(places)]) + rulings + bytes(4)


def stamp(seconds, offset="+00:00", shift=0):
    return time.strftime("%Y-%m-%dT%H:%M:%S", time.gmtime(seconds + shift)) + offset


class Queue:
    """A relay whose spool is written by hand."""

    def __init__(self, program, folder):
        self.relay = Relay(program, folder, ROUTES, spool_limit=1_000_000)
        self.relay.environment["TZ"] = "UTC0"

    def write(self, *bodies):
        self.relay.spool.write_bytes(file_of(1, *bodies))
        self.relay.second.write_bytes(b"")

    def look(self, *words):
        """Returns the output of a subcommand, which must be safe for a terminal."""
        ended = self.relay.ended(120, *words)
        same(f"relayd {' '.join(words)}", (ended.returncode, ended.stderr), (0, b""))
        if not SAFE.fullmatch(ended.stdout):
            raise Difference(f"relayd {' '.join(words)} prints octets that a terminal must not get")
        return ended.stdout.decode()

    def within(self, memory, *words):
        """Returns the output of a subcommand that may ask for this many octets of memory."""
        ended = subprocess.run(self.relay.words(*words), capture_output=True, timeout=120, env=self.relay.environment,
                               preexec_fn=lambda: resource.setrlimit(resource.RLIMIT_AS, (memory, memory)))
        same(f"relayd {' '.join(words)}", (ended.returncode, ended.stderr), (0, b""))
        return ended.stdout.decode()

    def numbers(self, *words):
        """Returns the numbers of the listed messages, in their order."""
        return [json.loads(line)["message"] for line in self.look("list", "--json", *words).splitlines()]


def three_messages(queue):
    """Three messages, 5 minutes, 3 hours and 2 days old; one recipient of the first was deferred twice."""
    now = int(time.time()) - 10
    queue.write(
        accept(now - 3 * HOUR, b"<a@example.org>", [recipient(b"<b@example.org>"), recipient(b"<c@example.net>")],
               b"x" * 1536),
        accept(now - 2 * DAY, b"<>", [recipient(b"<d@example.com>", 8, b"rfc822;d@example.com")], b"y" * 10),
        accept(now - 300, b"<A@Example.Org>", [recipient(b"<b@example.org>", 14)], b"S: t\r\n\r\n\x1b[2J\xff\r\n", 2,
               b"Q+2B7"),
        deferral(1, now - 2 * HOUR, [0]),
        deferral(1, now - HOUR, [0]),
    )
    return now


def list_is_a_table(queue):
    now = three_messages(queue)
    lines = queue.look("list", "--long").splitlines()
    same("the heading", lines[0].split(), "NUMBER AGE SIZE REVERSE PATH RECIPIENT HOP TRIES NEXT TRY".split())
    rows = [re.split(r" {2,}", line.strip()) for line in lines[1:-1]]
    same("the rows", rows, [
        ["2", "2 d", "10 B", "<>", "<d@example.com>", "-", "0", stamp(now - 2 * DAY)],
        ["1", "3 h", "1.5 KiB", "<a@example.org>", "<b@example.org>", "next.example", "2", stamp(now)],
        ["1", "3 h", "1.5 KiB", "<a@example.org>", "<c@example.net>", "other.example", "0", stamp(now - 3 * HOUR)],
        ["3", "5 min", "15 B", "<A@Example.Org>", "<b@example.org>", "next.example", "0", stamp(now - 300)],
    ])
    same("the columns", len({line.index(row[7]) for line, row in zip(lines[1:-1], rows)}), 1)
    same("the last line", lines[-1], "3 messages, 4 recipients, 1.5 KiB; oldest 2 d")


def times_are_local(queue):
    now = three_messages(queue)
    for zone, offset, shift in [("XXX-5:30", "+05:30", 19800), ("YYY3", "-03:00", -10800)]:
        queue.relay.environment["TZ"] = zone
        lines = queue.look("list", "--long").splitlines()
        same(f"the time in {zone}", lines[-2].split()[-1], stamp(now - 300, offset, shift))
    queue.relay.environment["TZ"] = "UTC0"


def empty_queue(queue):
    queue.write()
    same("the table", queue.look("list", "--long"), "0 messages, 0 recipients, 0 B\n")
    same("the objects", queue.look("list", "--json"), "")
    same("the status", queue.look("status"), "spool 18 B of 976.5 KiB, 0 %\n")


def filters_combine(queue):
    three_messages(queue)
    for words, numbers in [
        ([], [2, 1, 1, 3]),
        (["--hop", "next.example"], [1, 3]),
        (["--hop", "NEXT.example"], [1, 3]),
        (["--hop", "next"], []),
        (["--from", "a@example.org"], [1, 1, 3]),
        (["--from", "<a@example.org>"], [1, 1, 3]),
        (["--from", "<>"], [2]),
        (["--from", ""], [2]),
        (["--to", "b@example.org"], [1, 3]),
        (["--older", "4h"], [2]),
        (["--older", "10800s"], [2, 1, 1]),
        (["--older", "181m"], [2]),
        (["--older", "1d"], [2]),
        (["--older", "3d"], []),
        (["--to", "b@example.org", "--older", "1h"], [1]),
        (["--hop", "other.example", "--to", "b@example.org"], []),
    ]:
        same(f"list --json {words}", queue.numbers(*words), numbers)
        table = queue.look("list", "--long", *words).splitlines()
        same(f"list --long {words}", len(table) - 1 - (1 if numbers else 0), len(numbers))
    for age in ["4", "h", "4w", "-4h", "", "99999999999999999999d"]:
        same(f"--older {age!r}", queue.relay.ended(20, "list", "--long", f"--older={age}").returncode, 1)


def objects_have_each_field(queue):
    now = three_messages(queue)
    first = json.loads(queue.look("list", "--json").splitlines()[1])
    age = first.pop("age")
    same("the age", 0 <= age - 3 * HOUR - 10 < 60, True)
    same("the object", first, {
        "message": 1, "place": 0, "accepted": now - 3 * HOUR, "size": 1536, "reverse_path": "<a@example.org>",
        "recipient": "<b@example.org>", "hop": "next.example", "tries": 2, "next_try": now})
    same("no hop", json.loads(queue.look("list", "--json").splitlines()[0])["hop"], None)


def message_is_shown(queue):
    now = three_messages(queue)
    head, text = queue.look("show", "3").split("\n\n", 1)
    same("the text", text, "S: t\n\n\\x1b[2J\\xff\n")
    fields = [tuple(it.strip() for it in re.split(r" {2,}", line.strip(), maxsplit=1)) for line in head.splitlines()]
    same("the fields", fields, [
        ("message", "3"), ("accepted", f"{stamp(now - 300)}, 5 min ago"), ("size", "15 B"),
        ("reverse path", "<A@Example.Org>"), ("RET", "HDRS"), ("ENVID", "Q+2B7"), ("recipient", "<b@example.org>"),
        ("NOTIFY", "SUCCESS,FAILURE,DELAY"), ("ORCPT", "-"),
        ("state", f"queued for next.example at 127.0.0.1:2526; 0 tries, next {stamp(now - 300)}")])
    raw = queue.relay.ended(20, "show", "3", "--raw")
    same("the raw text", (raw.returncode, raw.stdout, raw.stderr), (0, b"S: t\r\n\r\n\x1b[2J\xff\r\n", b""))
    for number in ["4", "18446744073709551615"]:
        same(f"show {number}", queue.relay.refused("show", number), (1, f"relayd: message {number} is not queued"))
    for word in ["x", "0", "-1", "18446744073709551616"]:
        same(f"show {word}", queue.relay.ended(20, "show", word).returncode, 2)


def tries_are_told_in_words(queue):
    accepted, paths = int(time.time()) - DAY, [b"<%s@example.org>" % name for name in (b"b", b"c", b"d", b"e")]
    queue.write(accept(accepted, b"<a@example.org>", [recipient(path) for path in paths], b"x"),
                *(deferral(1, accepted + hours * HOUR, places)
                  for hours, places in [(1, [1, 2, 3]), (2, [2, 3]), (4, [3]), (8, [3]), (13, [3])]))
    tries = re.findall(r"^ *state +queued for next\.example at 127\.0\.0\.1:2526; (.*), next ",
                       queue.look("show", "1"), re.M)
    same("the tries", tries, ["0 tries", "1 try", "2 tries", "4+ tries"])


def status_sums_up(queue):
    now = three_messages(queue)
    lines = queue.look("status").splitlines()
    rows = {line.split()[0]: re.split(r" {2,}", line.strip())[1:] for line in lines[1:-1]}
    same("the hops", rows, {
        "next.example": ["2", "2", "1.5 KiB", "3 h", stamp(now - 300)],
        "other.example": ["1", "1", "1.5 KiB", "3 h", stamp(now - 3 * HOUR)],
        "-": ["1", "1", "10 B", "2 d", stamp(now - 2 * DAY)]})
    size = queue.relay.spool.stat().st_size
    same("the spool", lines[-1], f"spool {size // 1024}.{size % 1024 * 10 // 1024} KiB of 976.5 KiB, 0 %")


def metrics_are_prometheus(queue):
    now = three_messages(queue)
    text = queue.look("status", "--prometheus")
    samples = dict(line.rsplit(" ", 1) for line in text.splitlines() if not line.startswith("#"))
    size = queue.relay.spool.stat().st_size
    for name, value in {
        'relayd_queue_messages{hop="next.example"}': 2, 'relayd_queue_recipients{hop="other.example"}': 1,
        'relayd_queue_bytes{hop="next.example"}': 1551, 'relayd_queue_messages{hop=""}': 1,
        'relayd_queue_next_try_timestamp_seconds{hop="next.example"}': now - 300,
        "relayd_spool_bytes": size, "relayd_spool_limit_bytes": 1_000_000,
    }.items():
        same(name, samples.get(name), str(value))
    names = {name.split("{")[0] for name in samples}
    for kind in ["HELP", "TYPE"]:
        same(f"{kind} lines", sorted(re.findall(rf"^# {kind} (\S+) ", text, re.M)), sorted(names))
    promtool = shutil.which("promtool")
    if promtool:
        checked = subprocess.run([promtool, "check", "metrics"], input=text.encode(), capture_output=True)
        same("promtool", (checked.returncode, checked.stdout + checked.stderr), (0, b""))


def faults_are_those_of_list(queue):
    queue.relay.spool.write_bytes(b"no spool at all, but some octets")
    queue.relay.second.write_bytes(b"")
    for words in [["list", "--long"], ["list", "--json"], ["show", "1"], ["status"]]:
        same(" ".join(words), queue.relay.refused(*words), (1, "relayd: spool NotASpool"))
    queue.relay.forget()
    same("no spool", queue.relay.refused("status"), (1, "relayd: device"))


def many_messages(queue):
    now = int(time.time()) - DAY
    text = b"Subject: one of many\r\n\r\n" + b"t" * 40 + b"\r\n"
    queue.write(*(accept(now + number // 10, b"<a@example.org>", [recipient(b"<b%d@example.org>" % number)], text)
                  for number in range(MANY)))
    for words in [["list", "--long"], ["list", "--json"], ["show", str(MANY)], ["status"], ["status", "--prometheus"]]:
        begun = time.monotonic()
        queue.look(*words)
        taken = time.monotonic() - begun
        print(f"{MANY} messages: {' '.join(words)} {taken:.2f} s", file=sys.stderr)
        if taken > SECONDS:
            raise Difference(f"{' '.join(words)} took {taken:.1f} s")
    most = resource.getrusage(resource.RUSAGE_CHILDREN).ru_maxrss
    print(f"{MANY} messages: at most {most // 1024} MiB", file=sys.stderr)


def long_records(now):
    """Yields the octets of a body for each long message, the record of its accept, after a gate and its length."""
    text = b"Subject: long\r\n\r\n".ljust(LENGTH, b"t")
    for number in range(LONG):
        body = accept(now, b"<a@example.org>", [recipient(b"<b%d@example.org>" % number)], text)
        yield b"\1" + struct.pack(">I", len(body)) + body


def long_snapshot(now):
    """Yields the octets of one body for all of them, a snapshot. Each recipient is followed by its place: held, never
    deferred, not reported as delayed, and due."""
    text, place = b"Subject: long\r\n\r\n".ljust(LENGTH, b"t"), struct.pack(">BBBQ", 1, 0, 0, now)

    def entry(number):
        front = accept(now, b"<a@example.org>", [recipient(b"<b%d@example.org>" % number) + place], text)
        return struct.pack(">Q", number + 1) + front[1:]

    head = struct.pack(">BQI", 5, LONG + 1, LONG)
    yield b"\1" + struct.pack(">I", len(head) + sum(len(entry(number)) for number in range(LONG))) + head
    yield from map(entry, range(LONG))


def texts_stay_on_the_disk(queue):
    now = int(time.time()) - 3 * HOUR
    for parts in [long_records, long_snapshot]:
        queue.write()
        with queue.relay.spool.open("r+b") as spool:
            spool.seek(-1, 2)
            spool.writelines(parts(now))
            spool.write(b"\0")
        for words, count, last in [
            (["list"], LONG, f"{LONG} 0 <b{LONG - 1}@example.org> {now}"),
            (["list", "--long"], LONG + 2, f"{LONG} messages, {LONG} recipients, {LONG}.0 MiB; oldest 3 h"),
            (["status"], 3, None),
            (["status", "--prometheus"], None, None),
            (["list", "--json"], LONG, None),
        ]:
            lines = queue.within(MEMORY, *words).splitlines()
            if count is not None:
                same(f"the lines of {' '.join(words)}", len(lines), count)
            if last is not None:
                same(f"the last line of {' '.join(words)}", lines[-1], last)
        objects = [json.loads(line) for line in lines]
        same("the sizes", {it["size"] for it in objects}, {LENGTH})


def beside_a_running_relay(program, folder):
    field = Field(program, folder)
    try:
        relay = field.relay(more={"example.net": ("nobody.example", 1)})
        with relay.running():
            hand_in(relay, recipients=["b@example.net"])
            rows = [json.loads(line) for line in relay.run("list", "--json")]
            same("the recipients", [it["recipient"] for it in rows], ["<b@example.net>"])
            same("the status", relay.run("status")[1].split()[:3], ["nobody.example", "1", "1"])
            same("the message", relay.run("show", "1")[3].split(), ["reverse", "path", "<a@example.org>"])
    finally:
        field.close()


ROWS = [list_is_a_table, times_are_local, empty_queue, filters_combine, objects_have_each_field, message_is_shown,
        tries_are_told_in_words, status_sums_up, metrics_are_prometheus, faults_are_those_of_list, many_messages,
        texts_stay_on_the_disk]


def main():
    with tempfile.TemporaryDirectory() as folder:
        for number, row in enumerate(ROWS):
            try:
                row(Queue(sys.argv[1], pathlib.Path(folder) / f"queue{number}"))
            except Difference as difference:
                sys.exit(f"{row.__name__}: {difference}")
        room = pathlib.Path(folder) / "beside"
        room.mkdir()
        beside_a_running_relay(sys.argv[1], room)
    print(f"{len(ROWS) + 1} rows of queues hold")


if __name__ == "__main__":
    main()
