#!/usr/bin/env python3
"""Compacts spools with `relayd compact`, `relayd serve` and `relayd run`. Checks the octets of both files, which of
them is read, what is refused, and that no acknowledged mail is lost when the program is killed. Ends at the first
difference.

    tests/compaction.py build/relayd
"""
import os
import pathlib
import random
import re
import resource
import signal
import smtplib
import subprocess
import sys
import tempfile
import threading
import time

sys.dont_write_bytecode = True

from mail_checks import hand_in, one_message
from refusals import runs_without
from relay_program import Difference, LOCKED, PATIENCE, Relay, same, until
from running_relay import clients_of, lines_of, number_of, shim
from smtp_sink import Manners, Sink
from spool_files import bodies_of, file_of, head_of, snapshot_of, taken_of

EMPTY = file_of(1)
NO_HEAD = (1, "relayd: spool NotASpool")
KILLS = 30


class Field:
    """A relay whose mail for example.org goes to a sink."""

    def __init__(self, program, folder):
        self.program, self.folder, self.sink = program, folder, Sink()
        self.relay = self.new_relay("first")

    def new_relay(self, name, **limits):
        relay = Relay(self.program, self.folder / name, {"example.org": ("next.example", self.sink.port)}, **limits)
        relay.run("init")
        return relay

    def files(self):
        return self.relay.spool.read_bytes(), self.relay.second.read_bytes()

    def write(self, first, second):
        self.relay.spool.write_bytes(first)
        self.relay.second.write_bytes(second)

    def hold(self, *recipients):
        """Submits a message for these recipients, of which the sink refuses those that begin with `l`."""
        self.sink.manners = Manners(refusals={f"<{it}>": "450 later" for it in recipients if it[0] == "l"})
        with self.relay.serving():
            same("refused", hand_in(self.relay, recipients=recipients), {})
        self.sink.manners = Manners()

    def close(self):
        self.sink.close()
        same("breaches at the sink", self.sink.breaches, [])


def init_makes_both_files(field):
    closed = b"RELAYQ01" + bytes(10)
    same("the files", field.files(), (EMPTY, closed))
    for file in (field.relay.spool, field.relay.second):
        same(f"the mode of {file}", file.stat().st_mode & 0o777, 0o600)
    same("init again", field.relay.refused("init"), (1, "relayd: spool NotEmpty"))
    field.relay.spool.unlink()
    same("init beside a second file", field.relay.refused("init"), (1, "relayd: spool NotEmpty"))
    same("the second file", field.relay.second.read_bytes(), closed)


def one_file_under_two_names_is_no_spool(field):
    """With a hard and with a symbolic link, for each subcommand that opens the spool for writing; nothing is written.
    """
    for link in (pathlib.Path.hardlink_to, pathlib.Path.symlink_to):
        field.relay.forget()
        field.relay.spool.touch()
        link(field.relay.second, field.relay.spool)
        for word in ("init", "run", "push", "compact"):
            same(f"{word} by {link.__name__}", field.relay.refused(word), (1, "relayd: device"))
        same("the file", field.relay.spool.read_bytes(), b"")


def an_empty_spool_is_written_anew_and_anew(field):
    body = bytes.fromhex("05" "0000000000000001" "00000000")
    same("compact", field.relay.run("compact"), ["18 36"])
    same("the files", field.files(), (EMPTY, file_of(2, body)))
    same("compact", field.relay.run("compact"), ["36 36"])
    same("the files", field.files(), (file_of(3, body), file_of(2, body)))


def what_is_held_stays(field):
    field.hold("b@example.org", "l@example.org")
    field.hold("l@example.org")
    field.hold("b@example.org")
    before, held = field.files(), field.relay.held()
    same("list", [row[:3] for row in held], [(1, 1, "<l@example.org>"), (3, 0, "<l@example.org>")])
    bodies, size = bodies_of(before[0])
    snapshot = snapshot_of(bodies)
    same("compact", field.relay.run("compact"), [f"{size} {23 + len(snapshot)}"])
    same("the files", field.files(), (before[0], file_of(2, snapshot)))
    same("list", field.relay.held(), held)
    same("push", field.relay.run("push"), [])
    # What is added stands after the snapshot, and its numbers go on.
    field.hold("l@example.org")
    same("list", [row[0] for row in field.relay.held()], [1, 3, 7])
    same("the first file", field.files()[0], before[0])


def a_drained_spool_is_as_small_as_one_body(field):
    field.hold("b@example.org")
    size = len(field.files()[0])
    same("compact", field.relay.run("compact"), [f"{size} 36"])
    same("the second file", field.files()[1], file_of(2, bytes.fromhex("05" "0000000000000003" "00000000")))
    field.sink.take_all()
    with field.relay.serving() as lines:
        hand_in(field.relay)
    same("the lines of serve", lines, ["3 next.example ended"])
    one_message(field.sink)


def a_spool_of_one_file_goes_on_without(field):
    field.hold("l@example.org")
    for second in (None, b"", b"RELAYQ01", b"RELAYQ02" + bytes(10)):
        field.relay.second.unlink()
        if second is not None:
            field.relay.second.write_bytes(second)
        before = field.relay.spool.read_bytes(), second or b""
        same("list", [row[0] for row in field.relay.held()], [1])
        same("list makes no file", field.relay.second.exists(), second is not None)
        same("compact", field.relay.refused("compact"), (1, "relayd: spool NoSecond"))
        same("the files", field.files(), before)
    with field.relay.serving() as lines:
        hand_in(field.relay)
    same("the lines of serve", lines, ["3 next.example ended"])


def the_newer_file_with_an_open_head_is_read(field):
    field.hold("l@example.org")
    first, (bodies, _) = field.files()[0], bodies_of(field.files()[0])
    anew = file_of(2, snapshot_of(bodies))
    same("generations", (head_of(first), head_of(anew)), ((True, 1), (True, 2)))
    one, none = [1], []
    rows = [
        # the files, and the messages that are listed
        (first, file_of(2), none), (first, file_of(1), one), (file_of(1), first, none), (file_of(0), first, one),
        (file_of(2), anew, none), (anew, first, one), (b"", anew, one), (anew, b"", one), (bytes(30), anew, one),
        (broken(first), anew, one), (first, broken(anew), one), (broken(anew), file_of(1), none),
    ]
    for at, (one_file, other, wanted) in enumerate(rows):
        field.write(one_file, other)
        same(f"list of row {at}", [row[0] for row in field.relay.held()], wanted)
        same(f"the files of row {at}", field.files(), (one_file, other))
    for files in [(b"", b""), (broken(first), broken(anew)), (first[:17], anew[:17]), (bytes(18), bytes(18))]:
        field.write(*files)
        same("list", field.relay.refused("list"), NO_HEAD)
    # The file that is taken is damaged, whatever the other is.
    field.write(first, anew[:-2])
    same("list", field.relay.refused("list"), (1, "relayd: spool Damaged 17"))
    # A snapshot is no snapshot after another body, and a body that is none is told by its place in the chain.
    field.write(first, file_of(2, *bodies, snapshot_of(bodies)))
    same("list", field.relay.refused("list"), (1, f"relayd: spool BadRecord {len(bodies) + 1}"))


def broken(octets):
    """Returns the file with its head closed."""
    return octets[:8] + b"\0" + octets[9:]


def a_snapshot_that_is_cut_is_refused(field):
    field.hold("l@example.org")
    snapshot = snapshot_of(bodies_of(field.files()[0])[0])
    for size in range(len(snapshot)):
        field.write(EMPTY, file_of(2, snapshot[:size]))
        same(f"list of {size} octets", field.relay.refused("list"), (1, "relayd: spool BadRecord 1"))


def both_files_are_taken_by_serve(field):
    with field.relay.serving():
        same("compact", field.relay.refused("compact"), LOCKED)
        same("push", field.relay.refused("push"), LOCKED)
        hand_in(field.relay)


def a_file_that_takes_no_more_loses_nothing(field):
    field.hold("l@example.org")
    before, held = field.files(), field.relay.held()

    def little():
        signal.signal(signal.SIGXFSZ, signal.SIG_IGN)
        resource.setrlimit(resource.RLIMIT_FSIZE, (100, 100))

    ended = subprocess.run(field.relay.words("compact"), capture_output=True, preexec_fn=little)
    same("compact", (ended.returncode, ended.stdout, ended.stderr), (1, b"", b"relayd: device\n"))
    same("the first file", field.files()[0], before[0])
    same("list", field.relay.held(), held)
    same("compact", field.relay.run("compact"), [f"{len(before[0])} {len(field.files()[1])}"])
    same("list", field.relay.held(), held)


def each_allocation_that_is_refused_loses_nothing(field):
    """`compact` without memory leaves the files unchanged, and reports that."""
    field.hold("l@example.org")
    held, before = field.relay.held(), field.files()
    for run in runs_without(field.relay.words("compact"), field.folder):
        if not run.was_refused:
            same("compact with all its memory", run.status, 0)
        elif run.status != 0:
            same(f"compact without allocation {run.number}", (run.status, run.out, run.errors),
                 (1, "", "relayd: no memory\n"))
            same(f"the files without allocation {run.number}", field.files(), before)
        same(f"list without allocation {run.number}", field.relay.held(), held)
        before = field.files()
    if run.number < 20:
        raise Difference(f"only {run.number - 1} allocations")


def list_beside_a_serve_that_compacts(field):
    """`list`, which takes no lock, prints what the files hold, and doesn't change them."""
    field.relay = field.new_relay("listed", spool_limit=20000)
    process, done = field.relay.start("--rounds", "120"), threading.Event()
    answers = []

    def ask():
        while not done.is_set():
            answers.append(field.relay.ended(20, "list"))

    thread = threading.Thread(target=ask)
    thread.start()
    try:
        for _ in range(120):
            same("refused", hand_in(field.relay, b"x" * 3000 + b"\r\n"), {})
    finally:
        done.set()
        thread.join()
        process.communicate(timeout=20)
    same("messages at the sink", len(field.sink.take_all()), 120)
    generation = max(head[1] for head in map(head_of, field.files()) if head)
    same("the faults of list", {answer.stderr for answer in answers if answer.returncode != 0}, set())
    if generation < 10 or len(answers) < 20:
        raise Difference(f"{len(answers)} calls of list beside {generation - 1} compactions")
    same("list", field.relay.run("list"), [])


def list_beside_a_run_that_compacts(field):
    """The same beside `run`, with a clock forty times as fast, so that it compacts the spool at most once a second.
    Everything listed must have been submitted."""
    field.relay = field.new_relay("running", spool_limit=20000, client_timeout=3600)
    shim(field, "run_clocks", field.relay, FASTER="40")
    done, answers, accepted = threading.Event(), [], []

    def ask():
        while not done.is_set():
            answers.append(field.relay.ended(20, "list"))

    def is_enough():
        return len(accepted) >= 100 and len(answers) >= 40 and len(lines_of(field.relay, "relayd: compacted")) >= 10

    threads = [threading.Thread(target=ask) for _ in range(2)]
    with field.relay.running(), clients_of(field.relay, 1) as [client]:
        for thread in threads:
            thread.start()
        try:
            begun = time.monotonic()
            while not is_enough() and time.monotonic() < begun + 3 * PATIENCE:
                client.ask_for_text()
                reply = client.say(b"x" * 3000 + b"\r\n.\r\n")
                if reply != "452 spool full":
                    accepted.append(number_of(reply))
        finally:
            done.set()
            for thread in threads:
                thread.join()
        until("an empty list", lambda: field.relay.held() == [])
    same("messages at the sink", len(field.sink.take_all()), len(accepted))
    same("the faults of list", {(it.returncode, it.stderr) for it in answers}, {(0, b"")})
    listed = {int(line.split()[0]) for it in answers for line in it.stdout.splitlines()}
    same("numbers that were never given", listed - set(accepted), set())
    if not is_enough():
        raise Difference(f"{len(answers)} calls of list beside {len(accepted)} messages")


def serve_writes_its_spool_anew(field):
    """With mail that is relayed at once, a spool with a limit of 100,000 octets never holds half of it."""
    field.relay = field.new_relay("bounded", spool_limit=100000)
    content, lines, most = b"x" * 9000 + b"\r\n", [], 0
    with field.relay.serving("--rounds", "40", log=lines):
        for _ in range(40):
            same("refused", hand_in(field.relay, content), {})
            most = max(most, len(taken_of(*field.files())))
    same("messages at the sink", len(field.sink.take_all()), 40)
    told = [line for line in lines if "compacted" in line]
    same("a line of the log", re.sub(r"\d+", "N", told[0]), "relayd: compacted before=N after=N")
    # After the sixth message more than 50,000 octets stand there.
    same("how often", len(told), 40 // 6)
    if most > 70000:
        raise Difference(f"the spool had {most} octets")


def a_full_spool_makes_room_at_once(field):
    """With less than half of the spool free, mail that was refused for lack of room is accepted at the next connection.
    """
    field.relay = field.new_relay("full", spool_limit=10000)
    content = b"x" * 2500 + b"\r\n"
    for recipients in [["l@example.org"], ["l@example.org"], ["b@example.org"]]:
        field.sink.manners = Manners(refusals={"<l@example.org>": "450 later"})
        with field.relay.serving():
            hand_in(field.relay, content, recipients)
    with field.relay.serving("--rounds", "2"):
        same("a full spool", refusal(field.relay, content), (452, b"spool full"))
        same("refused", hand_in(field.relay, content), {})
    same("list", [row[0] for row in field.relay.held()], [1, 3])
    # Where nothing has gone, nothing is written anew.
    field.relay.run("compact")
    field.hold("l@example.org")
    before = field.files()
    with field.relay.serving():
        same("a full spool", refusal(field.relay, b"x" * 9000 + b"\r\n"), (452, b"spool full"))
    same("the files", field.files(), before)


def refusal(relay, content):
    """Returns the reply to mail data."""
    with smtplib.SMTP("127.0.0.1", relay.port, "client.example", 20) as client:
        client.ehlo()
        client.mail("a@example.org")
        client.rcpt("b@example.org")
        return client.data(content)


def a_kill_in_compact_loses_nothing(field):
    chance = random.Random(38)
    for at in range(20):
        field.hold(*["b@example.org", "l@example.org"][at % 2:])
    held = field.relay.held()
    begun = time.monotonic()
    field.relay.run("compact")
    whole = time.monotonic() - begun
    for kill in range(KILLS):
        process = subprocess.Popen(field.relay.words("compact"), stdout=subprocess.PIPE, stderr=subprocess.PIPE)
        time.sleep(chance.uniform(0, whole))
        process.kill()
        process.communicate()
        same(f"list after kill {kill}", field.relay.held(), held)


def a_kill_in_serve_loses_nothing(field):
    """`serve`, with a spool limit so small that it compacts after every few messages. It is killed more often, and
    lives longer each time, where it is too slow for enough of both."""
    field.relay = field.new_relay("killed", spool_limit=20000)
    chance, answered, number, kill, ends = random.Random(11), {}, 0, 0, time.monotonic() + 6 * PATIENCE

    def generation():
        return max(head[1] for head in map(head_of, field.files()) if head)

    def is_enough():
        return generation() >= 12 and len(answered) >= 30

    while kill < KILLS or not is_enough() and time.monotonic() < ends:
        process = field.relay.start("--rounds", "1000000")
        timer = threading.Timer(chance.uniform(0.05, 0.4) * max(1, kill / KILLS), process.kill)
        timer.start()
        number = feed(field.relay, answered, number)
        timer.join()
        process.communicate()
        gone = {int(message.content.split(b"Subject: ")[1].split(b"\r\n")[0]) for message in list(field.sink.messages)}
        held = {row[0] for row in field.relay.held()}
        lost = [it for it, queued in answered.items() if it not in gone and queued not in held]
        same(f"messages lost after kill {kill}", lost, [])
        kill += 1
    if not is_enough():
        raise Difference(f"only {generation() - 1} compactions, and {len(answered)} messages")


def feed(relay, answered, number):
    """Submits messages with their numbers as subjects until the relay is gone. Returns which got a 250, and their queue
    numbers."""
    try:
        while True:
            with smtplib.SMTP("127.0.0.1", relay.port, "client.example", 20) as client:
                client.ehlo()
                number += 1
                client.mail("a@example.org")
                client.rcpt("b@example.org")
                code, text = client.data(b"Subject: %d\r\n\r\n%b\r\n" % (number, b"x" * 4000))
                if code == 250:
                    answered[number] = int(text.split()[-1])
    except (OSError, smtplib.SMTPException):
        return number


ROWS = [init_makes_both_files, one_file_under_two_names_is_no_spool, an_empty_spool_is_written_anew_and_anew,
        what_is_held_stays, a_drained_spool_is_as_small_as_one_body, a_spool_of_one_file_goes_on_without,
        the_newer_file_with_an_open_head_is_read, a_snapshot_that_is_cut_is_refused, both_files_are_taken_by_serve,
        a_file_that_takes_no_more_loses_nothing, each_allocation_that_is_refused_loses_nothing,
        list_beside_a_serve_that_compacts, list_beside_a_run_that_compacts, serve_writes_its_spool_anew,
        a_full_spool_makes_room_at_once, a_kill_in_compact_loses_nothing, a_kill_in_serve_loses_nothing]


def main():
    for row in ROWS:
        with tempfile.TemporaryDirectory() as folder:
            field = Field(os.path.realpath(sys.argv[1]), pathlib.Path(folder))
            try:
                row(field)
                field.close()
            except (Difference, OSError, subprocess.SubprocessError) as difference:
                sys.exit(f"compaction: {row.__name__}: {type(difference).__name__}: {difference}")
    print(f"compaction: {len(ROWS)} rows, each as it has to be")


main()
