#!/usr/bin/env python3
"""Gives mail data to a node over memory, by DATA and by BDAT, and lets it write mail data to a next hop. What a row
says comes whole, in two pieces cut at each octet, octet by octet, and among so many other clients that 64 sessions are
open. The reply must come after as many octets as the row says, what follows these is read as commands, and the
spool has the content, to the octet. Four rows are wrong on purpose.

    tests/bodies_of_a_node.py build/relay_rows_tests
"""
import pathlib
import re
import sys
import tempfile

sys.dont_write_bytecode = True

from relay_program import run_main
from scenarios import HOP, HOST, Spool, accept_of, escaped, otherwise, right, trace

ROWS = pathlib.Path(__file__).resolve().parent / "rows/bodies.in"
LETTERS = {b"r": b"\r", b"n": b"\n", b"0": b"\0"}
MAIL, RCPT = "<a@example.org>", "<b@example.org>"
TOO_LARGE, QUEUED = "552 content too large", "250 queued as 1"
BEGUN = ["> EHLO x", f"< 250-{HOST}", "< 250-PIPELINING", "< 250-CHUNKING", "< 250 DSN", f"> MAIL FROM:{MAIL}",
         "< 250 sender OK", f"> RCPT TO:{RCPT}", "< 250 recipient OK"]
# The replies to what may come after mail data.
COMMANDS = {b"": [], b"QUIT\r\n": [f"< 221 {HOST} closing"], b"NOOP\r\n": ["< 250 OK"], b"RSET\r\n": ["< 250 OK"]}
UNKNOWN = ["< 500 unknown command"]


def octets_of(text):
    return re.sub(rb"\\(.)", lambda found: LETTERS.get(found[1], found[1]), text.encode(), flags=re.DOTALL)


def begun(name, *keys):
    return [f"name {name}", *keys, "create", "connect 1", "= session 0", f"= 220 {HOST} ESMTP relay ready",
            "give client 0", *BEGUN]


def told(line):
    return f"< {line}"


def by_data(octets, used, reply):
    """Returns the lines of a text of which this many octets are used."""
    yield from ("> DATA", "< 354 end with a line of one period", f">. {escaped(octets[:used])}")
    if reply:
        yield told(reply)


def by_chunks(octets, sizes, limit):
    """Returns the lines of chunks: each is answered where it ends, and none is taken after one by which the content
    is too large."""
    place, reply = 0, None
    for number, size in enumerate(sizes, 1):
        is_last = number == len(sizes)
        yield f"> BDAT {size}{' LAST' if is_last else ''}"
        chunk = octets[place:place + size]
        place += len(chunk)
        yield f">. {escaped(chunk)}"
        if len(chunk) < size:
            return
        if reply:
            yield told("503 bad sequence")
        else:
            reply = TOO_LARGE if place > limit else None
            yield told(reply or (QUEUED if is_last else "250 chunk OK"))


def given(name, kind, limit, sizes, octets, wanted):
    """Returns the scenario of a row of mail data that is given to the node."""
    count, _, content = wanted.partition(b" whole:")
    is_whole, used = b" whole:" in wanted, int(count.split()[0])
    lines, spool = begun(name, f"keys max_content = {limit}"), Spool()
    if kind == "DATA":
        reply = QUEUED if is_whole else TOO_LARGE if wanted.endswith(b"too large") else None
        lines += by_data(octets, used, reply)
    else:
        lines += by_chunks(octets, sizes, limit)
    rest = octets[used:]
    lines += [f">. {escaped(rest)}", *COMMANDS.get(rest, UNKNOWN)]
    # Where no chunk has begun, there is no message.
    if is_whole and (kind == "DATA" or sizes):
        spool.append(accept_of(MAIL, [RCPT], trace("x", "ESMTP", 1) + content))
        lines.append("= change 1")
    return lines + (["= closed"] if rest == b"QUIT\r\n" else []) + spool.image()


def written(name, octets, wanted):
    """Returns the scenario of a row of a content that the node writes to a next hop."""
    head = trace("x", "ESMTP", 1)
    lines = [*begun(name), f"> BDAT {len(octets)} LAST", f">. {escaped(octets)}", f"< {QUEUED}", "= change 1",
             f"start 1 {HOP}", "= attempt 0", "= place 0", "give hop 0", "> 220 n", f"< EHLO {HOST}", "> 250-n",
             "> 250 CHUNKING", f"< MAIL FROM:{MAIL}", "> 250 ok", f"< RCPT TO:{RCPT}", "> 250 ok"]
    if wanted == b"no line end":
        text = head + octets
        lines += [f"< BDAT {len(text)} LAST", f"<. {escaped(text)}"]
    else:
        lines += ["< DATA", "> 354 go", f"<. {escaped(head + wanted)}"]
    return [*lines, "> 250 ok", "< QUIT", "= change 2"]


def scenario(line):
    name, kind, limit, sizes, octets, wanted = line.split("|", 5)
    octets, wanted = octets_of(octets), octets_of(wanted)
    if kind == "WRITE":
        return written(name, octets, wanted)
    return given(name, kind, int(limit), [int(it) for it in sizes.split(",") if it], octets, wanted)


def main(program):
    lines = ROWS.read_text().splitlines()
    wrong = [it for it in lines if it.startswith("wrong")]
    with tempfile.TemporaryDirectory() as folder:
        count = right(program, folder, [scenario(it) for it in lines if it not in wrong])
        others = otherwise(program, folder, [scenario(it) for it in wrong])
    print(f"bodies_of_a_node: {count} rows of mail data, cut at every octet: as written down, and {others} others "
          "aren't")


if __name__ == "__main__":
    run_main("bodies_of_a_node", main)
