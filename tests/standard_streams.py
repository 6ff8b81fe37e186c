#!/usr/bin/env python3
"""Runs `relayd` on standard streams that read and write little at a time, and that fail after each octet in turn; and
with arguments that are wrong, or ask for help. Ends at the first difference.

    tests/standard_streams.py build/relayd
"""
import errno
import os
import pathlib
import re
import subprocess
import sys
import tempfile

sys.dont_write_bytecode = True

from relay_program import HERE, Difference, PATIENCE, built, same

# A client's first dialogue, and the relay's lines in it.
STORED = HERE.parent / "crates" / "relayd"
COMMANDS, REPLIES = (STORED / "stdin").read_bytes(), (STORED / "stdout").read_bytes()
# Of a program that `make relayd` has built, and of any other.
VERSION = re.compile(rb"relayd 1\.0\.0 \("
                     rb"(([0-9a-f]{12}(\+changes)?|unknown commit), rattle-kit-\w+|unknown commit)\)\n")


class Program:
    """The program, with narrow standard streams on request."""

    def __init__(self, relayd, folder):
        self.relayd, self.shim, self.input = relayd, built("narrow_streams", folder), folder / "input"

    def run(self, words, octets, **environment):
        """Returns the status, what was written to either stream, and what was left of the input."""
        self.input.write_bytes(octets)
        with self.input.open("rb", buffering=0) as given:
            ended = subprocess.run([self.relayd, *words], stdin=given, capture_output=True, timeout=PATIENCE,
                                   env={**os.environ, **environment})
            return ended.returncode, ended.stdout, ended.stderr, given.read()

    def session(self, octets, **numbers):
        narrow = {name: str(number) for name, number in numbers.items()}
        return self.run(["session"], octets, LD_PRELOAD=str(self.shim), **narrow)


# The rows. Each says in its name what holds.


def the_first_dialogue_octet_by_octet(program):
    # Nothing is read after the close.
    same("the run", program.session(COMMANDS + b"NOOP\r\n"), (0, REPLIES, b"", b"NOOP\r\n"))


def interrupted_calls_are_done_again(program):
    ended = program.session(COMMANDS, READ_CUT=9, WRITE_CUT=40, FAULT=errno.EINTR)
    same("the run", ended, (0, REPLIES, b"", b""))


def a_reader_that_fails_ends_the_session(program):
    for cut in range(len(COMMANDS)):
        status, written, errors, left = program.session(COMMANDS, READ_CUT=cut)
        same(f"status and fault after {cut} octets", (status, errors), (1, b"relayd: input\n"))
        same(f"what is left after {cut} octets", left, COMMANDS[cut:])
        if not REPLIES.startswith(written):
            raise Difference(f"after {cut} octets {written!r} was written")


def a_writer_that_fails_ends_the_session(program):
    for cut in range(len(REPLIES)):
        status, written, errors, _ = program.session(COMMANDS, WRITE_CUT=cut, FAULT=errno.EPIPE)
        same(f"status and fault after {cut} octets", (status, errors), (1, b"relayd: output\n"))
        same(f"what was written after {cut} octets", written, REPLIES[:cut])


WITH_FILE = ["--config", "relayd.toml"]

WRONG = [
    [],
    ["list"],
    ["init", "--config"],
    ["help"],
    ["session", "more"],
    ["--verbose", "session"],
    ["serve"],
    ["serve", *WITH_FILE, "--rounds", "0"],
    ["serve", *WITH_FILE, "--rounds", "1000001"],
    ["serve", *WITH_FILE, "--rounds", "one"],
    ["serve", *WITH_FILE, "more"],
    ["push"],
    ["push", *WITH_FILE, "--rounds", "1"],
]


def wrong_words_have_status_2(program):
    for words in WRONG:
        status, written, errors, left = program.run(words, b"NOOP\r\n")
        same(f"{words}", (status, written, left), (2, b"", b"NOOP\r\n"))
        if not errors:
            raise Difference(f"{words}: standard error is empty")


def help_is_written_and_done(program):
    status, written, errors, left = program.run(["--help"], b"NOOP\r\n")
    same("the run", (status, errors, left), (0, b"", b"NOOP\r\n"))
    same("the first line", written.split(b"\n")[0], b"A store-and-forward SMTP relay")
    status, written, errors, left = program.run(["--version"], b"NOOP\r\n")
    same("the version", (status, bool(VERSION.fullmatch(written)), errors, left), (0, True, b"", b"NOOP\r\n"))
    for word in ("--help", "--version"):
        with open("/dev/full", "wb") as full:
            ended = subprocess.run([program.relayd, word], stdout=full, stderr=subprocess.PIPE, timeout=PATIENCE)
        same(f"{word} on a full device", (ended.returncode, ended.stderr), (1, b"relayd: output\n"))


SUBCOMMANDS = [
    "session", "play", "init", "list", "show", "status", "compact", "check", "run", "serve", "push", "flush", "hold",
    "release", "drain", "reload", "return", "discard", "save",
]


def each_subcommand_has_help_with_an_example(program):
    commands = program.run(["--help"], b"")[1].decode().split("Commands:\n")[1].split("\n\n")[0]
    same("subcommands", [line.split()[0] for line in commands.splitlines() if line[2] != " "], SUBCOMMANDS)
    for word in SUBCOMMANDS:
        status, written, errors, _ = program.run([word, "--help"], b"")
        same(f"{word} --help", (status, errors), (0, b""))
        same(f"the example of {word}", f" relayd {word}".encode() in written.split(b"\n\nExample:")[1], True)


ROWS = [
    the_first_dialogue_octet_by_octet,
    interrupted_calls_are_done_again,
    a_reader_that_fails_ends_the_session,
    a_writer_that_fails_ends_the_session,
    wrong_words_have_status_2,
    help_is_written_and_done,
    each_subcommand_has_help_with_an_example,
]


def main():
    with tempfile.TemporaryDirectory() as folder:
        program = Program(os.path.realpath(sys.argv[1]), pathlib.Path(folder))
        for row in ROWS:
            try:
                row(program)
            except (Difference, OSError, subprocess.SubprocessError) as difference:
                sys.exit(f"standard_streams: {row.__name__}: {type(difference).__name__}: {difference}")
    print(f"standard_streams: {len(ROWS)} rows, each as it has to be")


main()
