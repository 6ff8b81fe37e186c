#!/usr/bin/env python3
"""Runs a round of `relayd serve` with two workers, whose clients submit two messages each, once for each allocation
after it listens, which is refused, and once for each of its threads, which can't be started. What a client reads is a
prefix of what it reads with ample memory; each message with a 250 is held, and at most one more of a client that was
cut off; and the receipts agree with what the node has accepted, or `serve` would end by that fault.

    tests/workers_without_memory.py build/relayd
"""
import collections
import contextlib
import re
import socket
import subprocess
import sys
import tempfile
import time

sys.dont_write_bytecode = True

from relay_program import PATIENCE, Difference, Relay, built, free_port, is_listening, same

MESSAGE = b"MAIL FROM:<a@example.org>\r\nRCPT TO:<b@example.org>\r\nDATA\r\n.\r\n"
SAID = b"HELO x\r\n" + MESSAGE * 2 + b"QUIT\r\n"
TAKEN = b"250 sender OK\r\n250 recipient OK\r\n354 end with a line of one period\r\n250 queued as N\r\n"
TOLD = b"220 relay.example ESMTP relay ready\r\n250 relay.example\r\n" + TAKEN * 2 + b"221 relay.example closing\r\n"
LINKS = 2


class Round:
    """One round, over a spool without mail. Nobody listens at the next hop, so queued mail stays there."""

    def __init__(self, program, folder):
        self.relay = Relay(program, folder, {"example.org": ("next.example", free_port())})
        self.mark = self.relay.folder / "refused"
        self.plain = self.relay.environment

    def begun(self, shim, number):
        """Starts a process that listens, with the call of this number refused. Returns None if it has ended before."""
        self.relay.forget()
        self.mark.unlink(missing_ok=True)
        self.relay.environment = self.plain
        self.relay.run("init")
        changed = {"LD_PRELOAD": str(shim), "REFUSE": str(number), "REFUSED": str(self.mark)}
        command, pipe = self.relay.words("serve", "--workers", str(LINKS)), subprocess.PIPE
        process = subprocess.Popen(command, stdout=pipe, stderr=pipe, env={**self.plain, **changed})
        ends = time.monotonic() + PATIENCE
        while not is_listening(self.relay.port):
            if process.poll() is not None:
                process.communicate()
                return None
            if time.monotonic() > ends:
                process.kill()
                raise Difference("relayd serve doesn't listen")
            time.sleep(0.002)
        return process

    def outcome(self, shim, number):
        """Returns how many links ended well, and how many were cut off unserved; None if it didn't listen, or memory
        ran out before or after the round."""
        process = self.begun(shim, number)
        if process is None:
            return None
        told = [told_to(link) for link in self.links()]
        _, errors = process.communicate(timeout=PATIENCE)
        if errors.strip() not in (b"", b"relayd: no memory"):
            raise Difference(f"serve ended with {errors}")
        self.look_at(told)
        return sum(it.endswith(b" closing\r\n") for it in told), told.count(b"")

    def links(self):
        """Makes two connections, on which everything is written. One that the relay has closed already yields nothing.
        """
        links = []
        with contextlib.suppress(ConnectionError):
            for _ in range(LINKS):
                links.append(socket.create_connection(("127.0.0.1", self.relay.port), PATIENCE))
        for link in links:
            with contextlib.suppress(ConnectionError):
                link.sendall(SAID)
        return links

    def look_at(self, told):
        numbers = [[int(it) for it in re.findall(rb"queued as (\d+)", one)] for one in told]
        for one, rising in zip(told, numbers):
            if not TOLD.startswith(re.sub(rb"queued as \d+", b"queued as N", one)) or rising != sorted(rising):
                raise Difference(f"a client got {one}")
        held, said = {row[0] for row in self.relay.held()}, sum(numbers, [])
        cut_off = LINKS - sum(it.endswith(b" closing\r\n") for it in told)
        if len(set(said)) != len(said) or not set(said) <= held or len(held) - len(said) > cut_off:
            raise Difference(f"told of {said}, and {sorted(held)} are held")


def told_to(link):
    """Returns all that comes on a connection up to its end."""
    told = b""
    with link, contextlib.suppress(ConnectionError):
        while octets := link.recv(65536):
            told += octets
    return told


def first_that_listens(it, shim):
    """Returns the number of the first allocation after a relay listens: those before end it."""
    low, high = 0, 1
    while (process := it.begun(shim, high)) is None:
        low, high = high, high * 2
    ended(process)
    while high - low > 1:
        middle = (low + high) // 2
        process = it.begun(shim, middle)
        if process is None:
            low = middle
        else:
            ended(process)
            high = middle
    return high


def ended(process):
    process.kill()
    process.communicate()


def main():
    program, met = sys.argv[1], collections.Counter()
    with tempfile.TemporaryDirectory() as folder:
        memory, threads = (built(it, folder) for it in ("refuse_memory", "refuse_threads"))
        it = Round(program, folder)
        try:
            same("with ample memory", it.outcome(memory, 0), (LINKS, 0))
            first = first_that_listens(it, memory)
            for number in range(first, first + 10_000):
                outcome = it.outcome(memory, number)
                if outcome is not None and not it.mark.exists():
                    break
                met[outcome] += 1
            for number in range(1, LINKS + 1):
                same(f"thread {number} isn't given", it.outcome(threads, number), (1, 1))
        except Difference as difference:
            sys.exit(f"workers_without_memory: {number if met else 'at first'}: {difference}")
    print(f"workers_without_memory: {met.total()} allocations refused in turn, and {LINKS} threads")
    for outcome, count in met.items():
        well, unheard = outcome or ("none", "none")
        print(f"workers_without_memory: {count} with {well} ended well and {unheard} cut off unheard")
    for outcome in (LINKS, 0), (1, 0), (0, LINKS):
        if not met[outcome]:
            sys.exit(f"workers_without_memory: none was refused with {outcome}")


main()
