#!/usr/bin/env python3
"""Sends octets that nobody should send: ten million without a line end to a session, whose memory must stay small;
replies of a next hop that are too long, have too many lines, or aren't replies; and opens a spool file cut at each
octet, or with a length beyond its end. Ends at the first difference.

    tests/hostile_octets.py build/relayd
"""
import contextlib
import os
import pathlib
import smtplib
import socket
import subprocess
import sys
import tempfile
import threading
import time

sys.dont_write_bytecode = True

from relay_program import PATIENCE, Difference, Relay, run_main, same

# What a session may take of memory above one that reads a NOOP.
MOST_MEMORY = 4 << 20
NOOP = b"NOOP\r\n"


def session(program, pieces):
    """Returns what a session writes in reply to these pieces, and the most memory that it used, in octets."""
    process = subprocess.Popen([program, "session"], stdin=subprocess.PIPE, stdout=subprocess.PIPE)

    def write():
        for piece in pieces:
            process.stdin.write(piece)
        process.stdin.close()

    writer = threading.Thread(target=write)
    writer.start()
    out = process.stdout.read()
    writer.join()
    process.stdout.close()
    _, status, used = os.wait4(process.pid, 0)
    same("a session's status", status, 0)
    return out, used.ru_maxrss * 1024


def a_line_without_end(program):
    greeting = b"220 relay.example ESMTP relay ready\r\n"
    out, idle = session(program, [NOOP])
    same("a NOOP", out, greeting + b"250 OK\r\n")
    out, most = session(program, [b"x" * 1_000_000] * 10 + [b"\r\n" + NOOP])
    same("ten million octets in a line", out, greeting + b"500 line too long\r\n250 OK\r\n")
    if most - idle > MOST_MEMORY:
        raise Difference(f"a session took {most - idle} octets more for a line of ten million")
    return most - idle


def a_hop(replies, heard):
    """A next hop on its own port that writes each of these after some input, and then waits for the end."""
    listener = socket.create_server(("127.0.0.1", 0))

    def talk():
        with listener, listener.accept()[0] as peer:
            peer.settimeout(PATIENCE)
            for number, reply in enumerate(replies):
                if number:
                    heard.append(peer.recv(65536))
                peer.sendall(reply)
            peer.shutdown(socket.SHUT_WR)
            # A relay that hasn't read all resets the connection where it closes it.
            with contextlib.suppress(ConnectionResetError):
                while piece := peer.recv(65536):
                    heard.append(piece)

    thread = threading.Thread(target=talk)
    thread.start()
    return thread, listener.getsockname()[1]


def replies_that_are_none(program, folder):
    """After each of them the attempt has ended, has written nothing more, and its recipient waits for half an hour."""
    wrong = {
        "a line of 2,049 octets": b"250 " + b"x" * 2043 + b"\r\n",
        "a line without end": b"250 " + b"x" * 100_000,
        "101 lines": b"250-x\r\n" * 100 + b"250 x\r\n",
        "a code below 200": b"199 x\r\n",
        "a code that is none": b"2x0 a\r\n",
        "a line feed alone": b"250 a\n",
        "lines of two codes": b"250-a\r\n251 b\r\n",
    }
    for name, octets in wrong.items():
        relay = Relay(program, folder / name.replace(" ", "_").replace(",", ""), {})
        heard = []
        hop, port = a_hop([b"220 x\r\n", octets], heard)
        relay.route({"example.org": ("next.example", port)})
        relay.run("init")
        with relay.serving() as lines:
            with smtplib.SMTP("127.0.0.1", relay.port) as client:
                client.sendmail("a@example.org", ["b@example.org"], "Subject: x\r\n\r\ny\r\n")
        hop.join(PATIENCE)
        same(f"{name}: the relay wrote", b"".join(heard), b"EHLO relay.example\r\n")
        same(f"{name}: how many attempts", len(lines), 1)
        held = relay.held()
        same(f"{name}: what is held", [row[:3] for row in held], [(1, 0, "<b@example.org>")])
        if not 1700 < held[0][3] - time.time() < 1900:
            raise Difference(f"{name}: it is due at {held[0][3]}, and now is {time.time()}")
    return len(wrong)


def a_spool_that_is_cut(program, folder):
    """A spool with one message is reported as damaged at each size below its own, and as no spool below the size of an
    empty one."""
    relay = Relay(program, folder / "cut", {"example.org": ("next.example", 1)})
    relay.run("init")
    with relay.serving():
        with smtplib.SMTP("127.0.0.1", relay.port) as client:
            client.sendmail("a@example.org", ["b@example.org"], "Subject: x\r\n\r\ny\r\n")
    octets = relay.spool.read_bytes()
    # The push after that round has added an outcome: the message alone ends where its length says.
    message = octets[:18 + 4 + int.from_bytes(octets[18:22], "big")] + b"\0"
    for size in range(len(message) + 1):
        relay.spool.write_bytes(message[:size])
        if size == len(message):
            same("a whole spool", [row[:3] for row in relay.held()], [(1, 0, "<b@example.org>")])
        else:
            fault = "NotASpool" if size < 18 else "Damaged 17"
            same(f"a spool cut to {size}", relay.refused("list"), (1, f"relayd: spool {fault}"))
    relay.spool.write_bytes(message[:18] + b"\xff" * 4 + message[22:])
    same("a length past the end", relay.refused("list"), (1, "relayd: spool Damaged 17"))
    return len(message)


def main(program):
    program = str(pathlib.Path(program).resolve())
    more = a_line_without_end(program)
    print(f"ok: a line of ten million octets takes {more // 1024} KiB")
    with tempfile.TemporaryDirectory() as folder:
        folder = pathlib.Path(folder)
        print(f"ok: {replies_that_are_none(program, folder)} replies that are none")
        print(f"ok: a spool that is cut to each of {a_spool_that_is_cut(program, folder)} sizes")


if __name__ == "__main__":
    run_main("hostile_octets", main)
