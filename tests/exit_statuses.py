#!/usr/bin/env python3
"""Runs each subcommand of `relayd` to each end that the man page gives it, and compares the exit status, standard error
and, where the man page gives it, standard output. From the man page it takes the subcommands (SYNOPSIS), of which each
must have a success, wrong arguments and, if it reads a configuration, a missing one; and the lines of faults
(DIAGNOSTICS), each of which must be met. Ends at the first difference.

    tests/exit_statuses.py build/relayd
"""
import collections
import contextlib
import fcntl
import os
import pathlib
import re
import resource
import signal
import socket
import subprocess
import sys
import tempfile

sys.dont_write_bytecode = True

from mail_checks import connected, hand_in, talk
from refusals import runs_without
from relay_program import HERE, LOCKED, PATIENCE, Difference, Relay, built, free_port, same, until

MANUAL = (HERE.parent / "docs/relayd.8").read_text()
# A first dialogue of a client.
STORED = HERE.parent / "crates" / "relayd"
COMMANDS, REPLIES = (STORED / "stdin").read_bytes(), (STORED / "stdout").read_bytes()

# An empty spool; and one with a message of 1970 from <a@example.org> to <b@example.org>, which is due: its gate, its
# length, its kind and time, MAIL's path without RET and ENVID, one recipient without NOTIFY and ORCPT, and the text.
HEAD = b"RELAYQ01\x01" + bytes(7) + b"\x01"
EMPTY = HEAD + b"\0"
TEXT = b"x\r\n"
RECORD = (b"\x01" + bytes(8) + b"\x00\x0f<a@example.org>" + bytes(3) + b"\x01\x00\x0f<b@example.org>" + bytes(3)
          + b"\x00\x00\x00\x03" + TEXT)
ONE = HEAD + b"\x01" + len(RECORD).to_bytes(4, "big") + RECORD + b"\0"
# The same message in a snapshot after which no change has a number: the last number is 2^62.
LAST = 2 ** 62

CONFIG = ["--config", "relayd.toml"]
MISSING = ["--config", "missing.toml"]

# What a subcommand needs after its options, and whether it reads a configuration.
Form = collections.namedtuple("Form", "word more reads", defaults=[(), True])
FORMS = [
    Form("init"), Form("check"), Form("run"), Form("serve"), Form("push"), Form("compact"), Form("list"),
    Form("show", ("1",)), Form("status"), Form("flush"), Form("hold", ("--hop", "next.example")),
    Form("release", ("--hop", "next.example")), Form("return", ("--message", "1")),
    Form("discard", ("--message", "1")), Form("drain"), Form("reload"), Form("save", ("1", "1.eml")),
    Form("session", reads=False), Form("play", reads=False),
]
# Those that print a line or more on an empty or a missing spool, or need none.
PRINTING = [(["compact", *CONFIG], ONE), (["list", *CONFIG], ONE), (["list", *CONFIG, "--long"], ONE),
            (["show", *CONFIG, "1"], ONE), (["show", *CONFIG, "--raw", "1"], ONE), (["status", *CONFIG], ONE),
            (["push", *CONFIG], ONE), (["return", *CONFIG, "--message", "1"], ONE), (["run", *CONFIG], EMPTY),
            (["check", *CONFIG, "--route", "b@example.org"], None), (["session"], None), (["--help"], None),
            (["--version"], None), (["list", "--help"], None)]
# The subcommands that lock the spool, without `run`, and those that read it.
LOCKING, READING = ("push", "serve", "compact"), ("list", "show", "status", "return", "discard", "save")
# What no words bring about: a spool of 2^40 octets or a compaction of 2^32, and a fault of the program itself.
NOT_MET = ["relayd: spool Full", "relayd: receipts"]


class Field:
    """The program in a folder with a configuration, and the ends that it was seen to have."""

    def __init__(self, program, folder):
        self.program, self.folder = str(pathlib.Path(program).resolve()), folder
        self.environment, self.met = dict(os.environ), []
        self.spool, self.second = folder / "relay.spool", folder / "relay.spool.2"
        self.relay = None
        self.begin()

    def begin(self, spool=None, **limits):
        """Empties the folder, and writes a configuration and a spool."""
        for path in self.folder.iterdir():
            if path.suffix != ".so":
                path.unlink()
        self.hop = free_port()
        self.relay = Relay(self.program, self.folder, {"example.org": ("next.example", self.hop)}, **limits)
        if spool is not None:
            self.relay.run("init")
            self.spool.write_bytes(spool)

    def configure(self, text):
        self.relay.file.write_bytes(text)

    def ended(self, words, given=b"", out=subprocess.PIPE, limits=None, **environment):
        """Runs the program. Returns its status, its output and the lines on standard error."""
        done = subprocess.run([self.program, *words], input=given, stdout=out, stderr=subprocess.PIPE, cwd=self.folder,
                              env={**self.environment, **environment}, timeout=PATIENCE, preexec_fn=limits)
        self.met.append((words, done.returncode, done.stderr))
        return done.returncode, done.stdout, done.stderr.decode().splitlines()

    def ends(self, words, status, out, lines, **how):
        """Runs the program, and compares its end; `out` isn't compared if it is None."""
        found = self.ended(words, **how)
        wanted = status, found[1] if out is None else out, lines
        same(f"relayd {' '.join(map(str, words))}", found, wanted)

    def fails(self, words, *lines, **how):
        """Runs the program, which must print these lines on standard error and nothing on standard output."""
        self.ends(words, 1, b"", [f"relayd: {line}" for line in lines], **how)

    def is_refused(self, words, **how):
        """Runs the program, which must refuse its arguments and say why."""
        status, out, lines = self.ended(words, **how)
        same(f"relayd {' '.join(map(str, words))}", (status, out, bool(lines)), (2, b"", True))


@contextlib.contextmanager
def locked(path):
    with open(path, "r+b") as file:
        fcntl.flock(file, fcntl.LOCK_EX)
        yield


def each_form(field, words_of):
    """Calls a function with the words of each subcommand, that of a configuration among them."""
    for form in FORMS:
        words_of(form, [form.word, *CONFIG * form.reads, *form.more])


# The rows. Each says in its name what holds.


def wrong_arguments_have_status_2(field):
    field.begin(EMPTY)
    field.is_refused([])
    field.is_refused(["help"])
    field.is_refused(["--no-such-option"])

    def refused(form, words):
        field.is_refused([*words, "--no-such-option"])
        field.is_refused([*words, "one", "two", "three"])
        if form.reads:
            field.is_refused([form.word, "--config"])
        if form.more:
            # No number, no name, or no numbers.
            field.is_refused([form.word, *CONFIG, *form.more[:-1], *["-1"] * (form.more[-1] == "1")])

    each_form(field, refused)
    for words in (["init"], ["serve"], ["push"], ["compact"], ["list"]):
        field.is_refused(words)
    for words in (["serve", *CONFIG, "--rounds", "0"], ["serve", *CONFIG, "--workers", "65"],
                  ["drain", *CONFIG, "--seconds", "65536"], ["flush", *CONFIG, "--hop", "a", "--message", "1"],
                  ["hold", *CONFIG], ["release", *CONFIG]):
        field.is_refused(words)
    same("the spool", field.spool.read_bytes(), EMPTY)


def an_argument_that_is_no_text_has_status_2(field):
    field.ends(["list", "--config", b"\xff.toml"], 2, b"", ["relayd: an argument is not UTF-8"])


def a_missing_configuration_is_no_input(field):
    def missing(form, _):
        if form.reads:
            field.fails([form.word, *MISSING, *form.more], "input")

    each_form(field, missing)
    field.configure(b"# \xff\n")

    def no_text(form, words):
        if form.reads and form.word != "check":
            field.fails(words, "input")

    each_form(field, no_text)


def closed_standard_input_is_no_input(field):
    for word in ("session", "play"):
        field.ends([word], 1, None, ["relayd: input"], limits=lambda: os.close(0))


def no_descriptors_for_closed_streams_are_a_fault(field):
    def close_two():
        os.close(0)
        os.close(1)
        resource.setrlimit(resource.RLIMIT_NOFILE, (1, 1))

    for words in (["list", *CONFIG], ["--help"], []):
        field.fails(words, "standard streams", limits=close_two)


def bad_configurations_are_named(field):
    rows = [(b"host = \n", "config NotToml"), (b"listen = 1\n", "config Missing host"),
            (b'host = "a b"\n', "config BadValue host"),
            (field.relay.file.read_bytes().replace(b"[routes]", b"client_timeout = 0\n[routes]"),
             "config BadValue client_timeout")]
    for text, line in rows:
        field.configure(text)

        def bad(form, words):
            # `run` prints more; who steers it reads `control` alone; only `run` and `check` read the limits of `run`.
            if form.word in ("init", *READING, *LOCKING) and line != "config BadValue client_timeout":
                field.fails(words, line)

        each_form(field, bad)
        status, out, lines = field.ended(["check", *CONFIG])
        same("check", (status, b": error: " in out, lines), (1, True, []))
        status, out, lines = field.ended(["run", "--quiet", *CONFIG])
        same("run", (status, out, lines[0]), (1, b"", f"relayd: {line}"))


def a_route_that_is_none_has_status_1(field):
    field.ends(["check", *CONFIG, "--route", "b@example.org"], 0,
               f"b@example.org: next.example 127.0.0.1:{field.hop}\n".encode(), [])
    status, out, lines = field.ended(["check", *CONFIG, "--route", "b@example.net"])
    same("without a next hop", (status, bool(out), lines), (1, True, []))


def without_a_spool_there_is_a_fault(field):
    for form in FORMS:
        words = [form.word, *CONFIG, *form.more]
        if form.word in READING:
            field.fails(words, "device")
        if form.word in LOCKING:
            field.fails(words, "spool NotASpool")
    field.ends(["run", "--quiet", *CONFIG], 1, b"",
               ["relayd: spool NotASpool", 'relayd: run "relayd init --config relayd.toml" once'])
    same("files", sorted(path.name for path in field.folder.glob("relay.spool*")), [])


def a_file_that_is_no_spool_is_a_fault(field):
    rows = [(b"a text that is no spool", "spool NotASpool"), (HEAD + b"\x01\x00\x00\x00\x02x", "spool Damaged 17"),
            (HEAD + b"\x01\x00\x00\x00\x01\x04\x00", "spool BadRecord 1")]
    for octets, line in rows:
        field.begin(octets)
        for form in FORMS:
            if form.word in READING + LOCKING:
                field.fails([form.word, *CONFIG, *form.more], line)
        status, out, lines = field.ended(["run", "--quiet", *CONFIG])
        same("run", (status, out, lines[0]), (1, b"", f"relayd: {line}"))
        field.fails(["init", *CONFIG], "spool NotEmpty")
        same("the file", field.spool.read_bytes(), octets)


def a_locked_spool_is_a_fault(field):
    field.begin(ONE)
    for path in (field.spool, field.second):
        with locked(path):
            for words in (["push"], ["serve"], ["compact"], ["run", "--quiet"]):
                field.ends([*words, *CONFIG], LOCKED[0], b"", LOCKED[1].splitlines())
            for word in ("return", "discard"):
                status, out, lines = field.ended([word, *CONFIG, "--message", "1", "--yes"])
                same(word, (status, out, lines[0]), (1, b"", "relayd: locked"))
            # Readers take no lock.
            field.ends(["list", *CONFIG], 0, b"1 0 <b@example.org> 0\n", [])
    same("the spool", field.spool.read_bytes(), ONE)


def a_device_that_fails_is_a_fault(field):
    field.begin(EMPTY)
    field.spool.unlink()
    field.spool.mkdir()
    try:
        for word in ("init", "list", "push", "serve", "compact"):
            field.fails([word, *CONFIG], "device")
    finally:
        field.spool.rmdir()
    # A device without room: the first write fails.
    field.begin()
    field.spool.symlink_to("/dev/full")
    field.fails(["init", *CONFIG], "device")
    field.begin(ONE)

    def no_longer_files():
        signal.signal(signal.SIGXFSZ, signal.SIG_IGN)
        resource.setrlimit(resource.RLIMIT_FSIZE, (len(ONE), len(ONE)))

    for words in (["push"], ["return", "--message", "1", "--yes"]):
        field.ends([*words, *CONFIG], 1, None, ["relayd: device"], limits=no_longer_files)
        field.ends(["list", *CONFIG], 0, b"1 0 <b@example.org> 0\n", [])


def mail_without_a_number_for_its_end_stays(field):
    field.begin(ONE)
    status, _, lines = field.ended(["compact", *CONFIG])
    same("compact", (status, lines), (0, []))
    octets = bytearray(field.second.read_bytes())
    # After the head, a gate, the record's length and its kind.
    octets[23:31] = (LAST + 1).to_bytes(8, "big")
    field.second.write_bytes(octets)
    field.ends(["list", *CONFIG], 0, b"1 0 <b@example.org> 0\n", [])
    field.ends(["return", *CONFIG, "--message", "1", "--yes"], 1, b"1 full\nreturned recipients=0\n",
               ["relayd: not all of the mail was withdrawn; try again"])


def a_spool_of_one_file_has_no_second(field):
    field.begin(ONE)
    field.second.unlink()
    field.fails(["compact", *CONFIG], "spool NoSecond")


def an_address_in_use_is_no_socket(field):
    field.begin(EMPTY)
    with socket.create_server(("127.0.0.1", field.relay.port)):
        for words in (["serve"], ["run", "--quiet"]):
            field.fails([*words, *CONFIG], "socket")


def output_that_cannot_be_written_is_a_fault(field):
    for words, spool in PRINTING:
        field.begin(spool)
        with open("/dev/full", "wb") as full:
            status, _, lines = field.ended(words, out=full, given=COMMANDS)
        # `run` logs too.
        same(f"relayd {' '.join(words)}", (status, lines[-1:]), (1, ["relayd: output"]))
    with open("/dev/full", "wb") as full:
        status, _, lines = field.ended(["play"], out=full, given=b"tick 1\n")
    same("relayd play", (status, lines), (1, ["relayd: output"]))


def a_play_is_refused_line_by_line(field):
    # What isn't possible is an answer; a line that is none ends the play.
    field.ends(["play"], 0, b"now 5\nrefused Nothing\nrefused NoLink\n", [], given=b"tick 5\ngive a\nsend 1 x\n")
    field.ends(["play"], 1, b"now 5\n", ["relayd: script line 2"], given=b"tick 5\nno line\ntick 6\n")
    field.ends(["play"], 1, b"", ["relayd: script line 1"], given=b"nodes 17\n")


def sessions_end_with_status_0(field):
    field.ends(["session"], 0, REPLIES, [], given=COMMANDS)


def what_is_not_queued_is_a_fault(field):
    field.begin(ONE)
    field.fails(["show", *CONFIG, "7"], "message 7 is not queued")
    field.fails(["save", *CONFIG, "7", "7.eml"], "message 7 is not queued")
    for word in ("return", "discard"):
        field.fails([word, *CONFIG, "--message", "7"], "no queued mail matches")
    field.fails(["list", *CONFIG, "--older", "4x"], "an age is a number and s, m, h or d, as 4h")


def mail_that_is_not_saved_stays(field):
    field.begin(ONE)
    field.ends(["save", *CONFIG, "1", "1.eml"], 0, b"", [])
    same("the file", (field.folder / "1.eml").read_bytes(), TEXT)
    status, out, [line] = field.ended(["save", *CONFIG, "1", "1.eml"])
    same("save", (status, out, line.startswith("relayd: file: ")), (1, b"", True))
    status, _, lines = field.ended(["return", *CONFIG, "--message", "1", "--save", str(field.folder), "--yes"])
    same("return --save", (status, lines[-1]), (1, "relayd: mail that was not saved is still queued"))
    field.ends(["list", *CONFIG], 0, b"1 0 <b@example.org> 0\n", [])


def the_others_end_with_status_0(field):
    field.ends(["init", *CONFIG], 0, b"", [])
    field.ends(["list", *CONFIG], 0, b"", [])
    field.ends(["push", *CONFIG], 0, b"", [])
    status, out, lines = field.ended(["check", *CONFIG])
    same("check", (status, b": error: " in out, lines), (0, False, []))
    field.begin(ONE)
    field.ends(["list", *CONFIG], 0, b"1 0 <b@example.org> 0\n", [])
    field.ends(["show", *CONFIG, "--raw", "1"], 0, TEXT, [])
    field.ends(["show", *CONFIG, "1"], 0, None, [])
    field.ends(["status", *CONFIG], 0, None, [])
    for word, done in (("return", "returned"), ("discard", "discarded")):
        lines = ["1 <a@example.org> <b@example.org>", "1 message, 1 recipient",
                 f"nothing was {done}; add --yes to {word} this mail"]
        field.ends([word, *CONFIG, "--message", "1"], 0, "".join(f"{line}\n" for line in lines).encode(), [])
    status, out, lines = field.ended(["compact", *CONFIG])
    same("compact", (status, out, lines),
         (0, f"{len(ONE)} {field.second.stat().st_size}\n".encode(), []))
    # Nobody listens at the next hop.
    field.begin(ONE)
    field.ends(["push", *CONFIG], 0, b"1 next.example lost\n", [])
    field.begin(ONE)
    field.ends(["discard", *CONFIG, "--message", "1", "--yes"], 0, b"discarded recipients=1\n", [])
    field.begin(ONE)
    field.ends(["return", *CONFIG, "--message", "1", "--yes"], 0, b"returned recipients=1\n", [])
    for word in ("--help", "--version"):
        field.ends([word], 0, None, [])
    for form in FORMS:
        field.ends([form.word, "--help"], 0, None, [])


def a_round_of_serve_ends_with_status_0(field):
    field.begin(EMPTY)
    process = field.relay.start()
    with connected(field.relay) as link:
        talk(link, b"QUIT\r\n")
    out, errors = process.communicate(timeout=PATIENCE)
    same("relayd serve", (process.returncode, out, errors), (0, b"", b""))
    field.met.append((["serve"], 0, b""))


def steering_without_a_relay_is_a_fault(field):
    words = [["flush"], ["hold", "--hop", "next.example"], ["release", "--hop", "next.example"], ["drain"], ["reload"]]
    field.begin(ONE)
    for one in words:
        status, out, [line] = field.ended([*one, *CONFIG])
        same(one[0], (status, out, line.startswith("relayd: control: ")), (1, b"", True))
    field.begin(ONE, control=f'"{field.folder / "control"}"')
    for one in words:
        field.fails([*one, *CONFIG], "control: no relay listens, or this user may not connect")


def steering_a_relay_ends_with_status_0(field):
    field.begin(EMPTY, control=f'"{field.folder / "control"}"')
    process = field.relay.begin("--quiet")
    try:
        hand_in(field.relay)
        until("it is tried", lambda: field.relay.held()[0][3] > 0)
        until("it is put off", lambda: field.ended(["flush", *CONFIG]) == (0, b"flushed recipients=1\n", []))
        field.ends(["hold", *CONFIG, "--hop", "next.example"], 0, None, [])
        field.ends(["flush", *CONFIG], 0, b"flushed recipients=0\n", [])
        field.ends(["release", *CONFIG, "--hop", "next.example"], 0, None, [])
        field.fails(["hold", *CONFIG, "--message", "7"], "control: message 7 isn't queued")
        field.ends(["reload", *CONFIG], 0, b"reloaded; attempts cut=0\n", [])
        field.ends(["drain", *CONFIG, "--seconds", "0"], 0, b"stopping; attempts cut=0\n", [])
        same("relayd run", process.wait(PATIENCE), 0)
        field.met.append((["run"], 0, b""))
    finally:
        process.kill()
        process.wait()
        process.stdout.close()


def mail_in_an_attempt_is_not_withdrawn(field):
    field.begin(EMPTY, control=f'"{field.folder / "control"}"')
    # The next hop says nothing after its greeting.
    with socket.create_server(("127.0.0.1", field.hop)) as hop, field.relay.running("--quiet"):
        hand_in(field.relay)
        hop.settimeout(PATIENCE)
        with hop.accept()[0] as link:
            link.sendall(b"220 next.example\r\n")
            same("the next hop hears", link.recv(1000), b"EHLO relay.example\r\n")
            field.ends(["return", *CONFIG, "--message", "1", "--yes"], 1, b"1 busy\nreturned recipients=0\n",
                       ["relayd: not all of the mail was withdrawn; try again"])


def want_of_memory_has_status_1(field):
    for words, spool in [(["list", *CONFIG], ONE), (["show", *CONFIG, "1"], ONE), (["status", *CONFIG], ONE),
                         (["check", *CONFIG], EMPTY), (["session"], None), (["play"], None), (["list"], None)]:
        field.begin(spool)
        whole, met = None, collections.Counter()
        for run in runs_without([field.program, *words], field.folder, given=COMMANDS if words == ["session"] else b"",
                                cwd=field.folder):
            end = run.status, run.errors
            met[end] += run.was_refused
            whole = end
        lacking, failing = (1, "relayd: no memory\n"), (1, "relayd: device\n")
        # The spool of `session` is in memory: if it can't grow, its device has failed.
        allowed = {whole, lacking, failing} if words == ["session"] else {whole, lacking}
        same(f"relayd {' '.join(words)}", set(met) - allowed, set())
        same(f"relayd {' '.join(words)}: runs without memory", met[lacking] > 0, True)
        field.met.append((words, 1, b"relayd: no memory\n"))


ROWS = [
    wrong_arguments_have_status_2,
    an_argument_that_is_no_text_has_status_2,
    a_missing_configuration_is_no_input,
    closed_standard_input_is_no_input,
    no_descriptors_for_closed_streams_are_a_fault,
    bad_configurations_are_named,
    a_route_that_is_none_has_status_1,
    without_a_spool_there_is_a_fault,
    a_file_that_is_no_spool_is_a_fault,
    a_locked_spool_is_a_fault,
    a_device_that_fails_is_a_fault,
    mail_without_a_number_for_its_end_stays,
    a_spool_of_one_file_has_no_second,
    an_address_in_use_is_no_socket,
    output_that_cannot_be_written_is_a_fault,
    a_play_is_refused_line_by_line,
    sessions_end_with_status_0,
    what_is_not_queued_is_a_fault,
    mail_that_is_not_saved_stays,
    the_others_end_with_status_0,
    a_round_of_serve_ends_with_status_0,
    steering_without_a_relay_is_a_fault,
    steering_a_relay_ends_with_status_0,
    mail_in_an_attempt_is_not_withdrawn,
    want_of_memory_has_status_1,
]


def section(name):
    return MANUAL.split(f".Sh {name}\n")[1].split("\n.Sh ")[0]


def subcommands():
    """Returns the subcommands of the man page's synopsis."""
    lines = re.findall(r"(?m)^\.Cm (.*)$", section("SYNOPSIS"))
    return [word for line in lines for word in line.split(" ")[0::2] if "-" not in word] if lines else []


def diagnostics():
    """Returns an expression for each fault line of the man page, by the line: a word in capitals stands for a value."""
    lines = re.findall(r"(?m)^\.It Li (relayd: .*)$", section("DIAGNOSTICS"))
    value = re.compile(r"\\ (KEY|PLACE|NUMBER|REASON|N)$")
    return {line: re.compile(value.sub(r"\\ \\S.*", re.escape(line))) for line in lines}


def all_are_met(field):
    """Checks that the subcommands and fault lines of the man page had each end that they must have."""
    words = subcommands()
    same("subcommands of the man page", sorted(words), sorted(form.word for form in FORMS))
    for form in FORMS:
        ends = [end for end in field.met if end[0][:1] == [form.word] and "--help" not in end[0]]
        same(f"statuses of {form.word}", {end[1] for end in ends}, {0, 1, 2})
        if form.reads:
            same(f"{form.word} without a configuration", b"relayd: input\n" in [end[2] for end in ends], True)
    lines = {line for _, _, errors in field.met for line in errors.decode().splitlines()}
    found = diagnostics()
    missed = [line for line, wanted in found.items() if not any(wanted.fullmatch(it) for it in lines)]
    same("fault lines of the man page that weren't met", missed, NOT_MET)
    return words, found


def main():
    with tempfile.TemporaryDirectory() as folder:
        field = Field(sys.argv[1], pathlib.Path(folder))
        for row in ROWS:
            try:
                field.begin()
                row(field)
            except (Difference, OSError, ValueError, subprocess.SubprocessError) as difference:
                sys.exit(f"exit_statuses: {row.__name__}: {type(difference).__name__}: {difference}")
        try:
            words, found = all_are_met(field)
        except Difference as difference:
            sys.exit(f"exit_statuses: {difference}")
    print(f"exit_statuses: {len(field.met)} runs of {len(words)} subcommands, each with its status, and "
          f"{len(found) - len(NOT_MET)} of the man page's {len(found)} fault lines")


if __name__ == "__main__":
    main()
