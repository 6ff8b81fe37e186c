#!/usr/bin/env python3
"""Makes a spool in two files by relayd, appends a message to it and writes it anew, with the calls that the relay makes
of the device written down by a shim, which lets some fail: what the relay says, which calls it made in which order, and
what the files hold then, to the octet. The clock stands at the first second. It ends at the first difference.

    tests/spool_on_a_file.py build/relayd
"""
import pathlib
import stat
import sys
import tempfile

sys.dont_write_bytecode = True

from failing_calls import told_on
from links import COMMANDS
from mail_checks import connected
from relay_program import PATIENCE, Relay, built, free_port, run_main, same
from scenarios import accept_of, trace
from spool_files import MAGIC, file_of, snapshot_of

OTHER = MAGIC + bytes(10)
DEVICE = (1, "relayd: device")
FILES = ["open relay.spool, mode 600", "open folder .", "sync folder",
         "open relay.spool.2, mode 600", "open folder .", "sync folder"]
MADE = [*FILES, "write 18 octets at 0", "sync", "write 18 octets at 0", "sync", "write 1 octets at 8", "sync"]
OPENED = [*FILES, "sync", "sync"]


def record(number):
    """Returns the record of the message of this number."""
    return accept_of("<a@example.org>", ["<b@example.org>"], trace("x", "SMTP", number))


# What an append of a message writes at the end of its list: a length, the record, and a gate; then the gate before it.
SIZE = 4 + len(record(1)) + 1
GATE = ["write 1 octets at 17", "sync"]
APPENDED = [f"write {SIZE} octets at 18", "sync", *GATE]


class Spool:
    """A relay in a folder of its own, which is where it runs, with a spool that holds nothing."""

    def __init__(self, program, folder):
        self.folder = pathlib.Path(folder)
        self.relay = Relay(program, folder, {"example.org": ("next.example", free_port())})
        self.lines = self.folder / "calls"
        libraries = " ".join(str(built(name, folder)) for name in ("device_calls", "later_clock"))
        self.shims = {"LD_PRELOAD": libraries, "CALLS": str(self.lines), "HELD": "0"}
        self.plain = dict(self.relay.environment)

    def fail(self, faults):
        self.relay.environment = {**self.plain, **self.shims, **{name: str(it) for name, it in faults.items()}}

    def calls(self):
        """Returns the calls of the spool's files and their folder since this was asked last."""
        lines = self.lines.read_text().replace(f"{self.folder}/", "").replace(f"folder {self.folder}\n", "folder .\n")
        self.lines.unlink()
        return [it for it in lines.splitlines() if not it.startswith("open ") or "folder" in it or "spool" in it]

    def ended(self, *words, **faults):
        self.fail(faults)
        done = self.relay.ended(PATIENCE, *words)
        return done.returncode, done.stderr.decode().rstrip("\n").split("\n")[0]

    def begin(self):
        self.relay.forget()
        self.lines.unlink(missing_ok=True)
        same("a spool is made", (self.ended("init"), self.calls()), ((0, ""), MADE))
        self.hold(file_of(1), OTHER)

    def accept(self, **faults):
        """Gives a message to a relay that serves, and kills the relay before it tries that. Returns the number that the
        client is told, or the relay's status and its fault."""
        self.fail(faults)
        process = self.relay.start()
        try:
            with connected(self.relay) as link:
                link.sendall(COMMANDS.removesuffix(b"QUIT\r\n"))
                told = told_on(link, rb"queued as \d+\r\n")
                if b"queued as " in told:
                    process.kill()
                    return int(told.split(b"queued as ")[1])
                errors = process.communicate(timeout=PATIENCE)[1]
                return process.returncode, errors.decode().rstrip("\n").split("\n")[0]
        finally:
            process.kill()
            process.communicate()

    def hold(self, first, second):
        files = [path.read_bytes() for path in (self.relay.spool, self.relay.second)]
        same("the files", files, [first, second])

    def listed(self):
        self.relay.environment = dict(self.plain)
        return len(self.relay.run("list"))


def look_at_an_append(spool):
    """The record is on the device before its gate is opened, and that before the client is told."""
    spool.begin()
    modes = {stat.S_IMODE(path.stat().st_mode) for path in (spool.relay.spool, spool.relay.second)}
    same("the modes of the files", modes, {0o600})
    same("the number, and the calls", (spool.accept(), spool.calls()), (1, OPENED + APPENDED))
    spool.hold(file_of(1, record(1)), OTHER)


def look_at_two_compactions(spool):
    """A snapshot is on the device before its head is opened; a head that is open is closed first."""
    spool.begin()
    spool.accept()
    spool.calls()
    snapshot = snapshot_of([record(1)])
    written, head = [f"write {8 + 1 + 4 + len(snapshot) + 1} octets at 9", "sync"], ["write 1 octets at 8", "sync"]
    same("the first one", (spool.ended("compact"), spool.calls()), ((0, ""), OPENED + written + head))
    spool.hold(file_of(1, record(1)), file_of(2, snapshot))
    same("the next one", (spool.ended("compact"), spool.calls()), ((0, ""), OPENED + head + written + head))
    spool.hold(file_of(3, snapshot), file_of(2, snapshot))


def look_at_the_second_sync(spool):
    """After a sync that failed no other one is tried. What the gate lets in stays, though nobody was told."""
    spool.begin()
    same("it fails", (spool.accept(FAILED_SYNC=4), spool.calls()),
         (DEVICE, OPENED + APPENDED[:-1] + ["sync: failed"]))
    spool.hold(file_of(1, record(1)), OTHER)
    same("the next number, and what is listed", (spool.accept(), spool.listed()), (2, 2))
    spool.hold(file_of(1, record(1), record(2)), OTHER)


def look_at_the_first_sync(spool):
    """Before it no gate is opened."""
    spool.begin()
    same("it fails", (spool.accept(FAILED_SYNC=3), spool.calls()), (DEVICE, OPENED + [APPENDED[0], "sync: failed"]))
    spool.hold(file_of(1) + file_of(1, record(1))[18:], OTHER)
    same("what is listed, and the next number", (spool.listed(), spool.accept()), (0, 1))


def look_at_half_a_write(spool):
    """What a write leaves undone is written after it."""
    spool.begin()
    half = SIZE // 2
    calls = [f"write {half} octets at 18", f"write {SIZE - half} octets at {18 + half}", "sync", *GATE]
    same("the number, and the calls", (spool.accept(HALF_WRITE=1), spool.calls()), (1, OPENED + calls))
    spool.hold(file_of(1, record(1)), OTHER)


def look_at_want_of_space(spool):
    """It loses nothing: the spool takes messages as soon as there is space."""
    for faults in {"FULL_WRITE": 1}, {"FULL_WRITE": 2}, {"HALF_WRITE": 1, "FULL_WRITE": 2}:
        spool.begin()
        same(f"{faults}: it fails", (spool.accept(**faults), spool.listed()), (DEVICE, 0))
        same(f"{faults}: the next number, and what is listed", (spool.accept(), spool.listed()), (1, 1))


def look_at_folders(spool):
    """The folder is the file's own, and a path in no folder is refused."""
    (spool.folder / "inner").mkdir()
    spool.lines.unlink(missing_ok=True)
    for name, ended in ("inner/../inner/spool", (0, "")), ("no_such_folder/spool", DEVICE):
        spool.relay.spool = f"{spool.folder}/{name}"
        spool.relay.route({"example.org": ("next.example", free_port())})
        same(f"{name}: init", spool.ended("init"), ended)
        folders = [it for it in spool.calls() if "folder" in it]
        wanted = ["open folder inner/../inner", "sync folder"] * 2 if ended == (0, "") else []
        same(f"{name}: folders", [it for it in folders if "no_such" not in it], wanted)


ROWS = [look_at_an_append, look_at_two_compactions, look_at_the_second_sync, look_at_the_first_sync,
        look_at_half_a_write, look_at_want_of_space, look_at_folders]


def main(program):
    with tempfile.TemporaryDirectory() as folder:
        spool = Spool(program, folder)
        for row in ROWS:
            row(spool)
    print("spool_on_a_file: the calls of the device are in order, and a sync that fails, half a write and want of "
          "space lose no message")


if __name__ == "__main__":
    run_main("spool_on_a_file", main)
