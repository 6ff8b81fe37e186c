#!/usr/bin/env python3
"""Plays scripts of relays with `relayd play`: those of docs/plays/, with the expected output beside each, and those of
two nodes also after a line `nodes 2` or `nodes 3`; each refusal, in its order; faults of a script and of the streams; a
mail loop of two and of three nodes, which ends with too many Received fields; a stop whose notification stops the other
node; compactions between any two lines; and the time for loops, 10,000 carries, and 1,000 messages among sixteen nodes.
Ends at the first difference.

    tests/plays.py build/relayd
"""
import pathlib
import subprocess
import sys
import time

sys.dont_write_bytecode = True

from relay_program import PATIENCE, Play, run_main, same

HERE = pathlib.Path(__file__).resolve().parent
PLAYS = HERE.parent / "docs" / "plays"

LETTERS = "abcdefghijklmnop"
GREETED = r"link {} out 220 {}.example ESMTP relay ready\r\n"
MAIL = r"EHLO x\r\nMAIL FROM:<s@out.example>\r\nRCPT TO:<r@{}>\r\nDATA\r\nhi\r\n.\r\n"
QUEUED = r"250-{0}.example\r\n250-PIPELINING\r\n250-CHUNKING\r\n250 DSN\r\n250 sender OK\r\n250 recipient OK\r\n" \
    r"354 end with a line of one period\r\n250 queued as {1}\r\n"


def run(program, script):
    """Returns the status, the output and the fault line of a play."""
    done = subprocess.run([program, "play"], input=script, capture_output=True, timeout=PATIENCE)
    return done.returncode, done.stdout, done.stderr


def played(program, rows):
    """Plays lines, and compares the output of each: a line, several, or nothing."""
    script = "".join(f"{line}\n" for line, _ in rows).encode()
    status, out, errors = run(program, script)
    wanted = [one for _, seen in rows for one in ([seen] if isinstance(seen, str) else seen)]
    found = out.decode().split("\n")[:-1]
    for number, (one, other) in enumerate(zip(found, wanted)):
        same(f"line {number + 1} of what is seen", one, other)
    same("how many lines are seen", len(found), len(wanted))
    same("the end", (status, errors), (0, b""))


def lines_of(play, question):
    """Returns the lines that answer a question, up to the result of the tick after it."""
    play.tell(question)
    play.tell("tick 0")
    found = []
    while (line := play.answer().rstrip("\n")) != "now 0":
        found.append(line)
    return found


def scripts(program):
    for script in sorted(PLAYS.glob("*.play")):
        status, out, errors = run(program, script.read_bytes())
        lines = script.with_suffix(".seen").read_text().split("\n")
        for number, (one, other) in enumerate(zip(out.decode().split("\n"), lines)):
            same(f"{script.name}: line {number + 1} of what is seen", one, other)
        same(script.name, (status, out, errors), (0, script.with_suffix(".seen").read_bytes(), b""))


def refusals(program):
    greeted = GREETED.format(1, "a")
    played(program, [
        ("# no link is there yet", []),
        ("", []),
        ("send 1 x", "refused NoLink"),
        ("carry 0 a 1", "refused NoLink"),
        ("carry 1 a 1", "refused NoLink"),
        ("break 1", "refused NoLink"),
        ("give a", "refused Nothing"),
        ("return a 1 0", "refused Unknown"),
        ("ledger", []),
        ("marks", []),
        ("copies a 1 0", "0"),
        ("connect a", greeted),
        ("carry 1 b 1", "refused NotYours"),
        ("carry 1 a 1", "refused Nothing"),
        ("send 1 NOOP", "ok"),
        ("carry 1 a 0", "refused Nothing"),
        ("carry 1 a 3", "node a link 1 used 3 out "),
        (r"send 1 \r\nQUIT\r\nNOOP\r\n", "ok"),
        ("carry 1 a 3", r"node a link 1 used 3 out 250 OK\r\n"),
        ("carry 1 a 1000", r"node a link 1 used 6 out 221 a.example closing\r\n end"),
        ("carry 1 a 1000", "refused Nothing"),
        ("break 1", "broken 1"),
        ("carry 1 a 1000", "refused NoLink"),
        ("break 1", "refused NoLink"),
        ("send 1 x", "refused NoLink"),
        ("connect b", GREETED.format(2, "b")),
        ("send 2 " + MAIL.format("a.example"), "ok"),
        ("carry 2 b 1000", "node b link 2 used 71 out " + QUEUED.format("b", 1) + " change 1"),
        ("give a", "refused Nothing"),
        ("give b", "start b 1 a.example link 3"),
        ("give b", "refused Nothing"),
        ("discard b 1 0", "refused Busy"),
        ("send 3 x", "refused NotYours"),
        ("carry 3 a 1", "refused Nothing"),
        ("carry 3 b 0", "refused Nothing"),
        ("stop a 0 0", "stopped a"),
        ("carry 3 b 1", "refused NoLink"),
        ("give b", "refused Nothing"),
        ("tick 253370764799", "now 253370764799"),
        ("give b", "start b 1 a.example link 4"),
        ("stop a 0 1", "stopped a"),
        ("ledger", ["accept b 1 1 link 2", "end b 1 0 failed link 4 report 3"]),
        ("marks", "b 3 0"),
        ("give b", "start b 3 out.example link 5"),
        ("send 5 220 x\\r\\n", "ok"),
        ("carry 5 b 1000", r"node b link 5 used 7 out EHLO b.example\r\n"),
        ("send 5 250 x\\r\\n", "ok"),
        ("carry 5 b 1000", r"node b link 5 used 7 out MAIL FROM:<>\r\n"),
        ("carry 5 a 1000", "refused NotYours"),
        ("break 5", "broken 5"),
        ("marks", "b 3 0"),
    ])


def undone(program, first=""):
    """Stops the crash play with the pick that leaves the append out: only the sender has the message until it is tried
    again, and then there is one copy, although a reply was lost. The script begins with the given line, if any."""
    script = first + (PLAYS / "crash.play").read_text()
    changed = script.replace("stop b 4 1\n", "stop b 4 0\n")
    same("whether the script has the stop", changed != script, True)
    status, out, errors = run(program, changed.encode())
    same("the end", (status, errors), (0, b""))
    seen = out.decode().split("\n")[:-1]
    index = seen.index("stopped b") + 1
    same("after the stop", seen[index:index + 4], ["refused NoLink", "a 1 0", "accept a 1 1 link 1", "now 1800"])
    same("in the end", seen[-6:], ["b 1 0", "accept a 1 1 link 1", "accept b 1 1 link 3",
                                   "transfer a 1 0 link 3 report 0", "1", "1"])


def too_many(program):
    rows = [("connect a", GREETED.format(number, "a")) for number in range(1, 65)]
    played(program, rows + [
        ("connect a", "refused TooMany"),
        ("connect b", GREETED.format(65, "b")),
        ("send 65 " + MAIL.format("a.example"), "ok"),
        ("carry 65 b 1000", "node b link 65 used 71 out " + QUEUED.format("b", 1) + " change 1"),
        ("give b", "refused TooMany"),
        ("break 1", "broken 1"),
        ("give b", "start b 1 a.example link 66"),
    ])


def too_many_attempts(program):
    """While a node runs 64 attempts, no link is opened for another; one that ends makes room."""
    rows = [("connect b", GREETED.format(1, "b"))]
    for number in range(1, 65):
        rows += [
            ("send 1 " + MAIL.format("out.example"), "ok"),
            ("carry 1 b 1000", "node b link 1 used 73 out " + QUEUED.format("b", number) + f" change {number}"),
            ("give b", f"start b {number} out.example link {number + 1}"),
        ]
    played(program, rows + [
        ("send 1 " + MAIL.format("a.example"), "ok"),
        ("carry 1 b 1000", "node b link 1 used 71 out " + QUEUED.format("b", 65) + " change 65"),
        ("give b", "refused TooMany"),
        ("connect a", GREETED.format(66, "a")),
        ("break 2", "broken 2"),
        ("give b", "start b 65 a.example link 67"),
    ])


def no_route(program):
    """A place is refused if only the other node has a route for its domain; a report without a route is given up."""
    played(program, [
        ("connect a", GREETED.format(1, "a")),
        (r"send 1 EHLO x\r\nMAIL FROM:<s@nowhere.example>\r\nRCPT TO:<r@nowhere.example>\r\n"
         r"RCPT TO:<r@b.example>\r\n", "ok"),
        ("carry 1 a 1000",
         r"node a link 1 used 91 out 250-a.example\r\n250-PIPELINING\r\n250-CHUNKING\r\n250 DSN\r\n250 sender OK\r\n"
         r"550 no route\r\n250 recipient OK\r\n"),
        (r"send 1 BDAT 4 LAST\r\nhi\r\n", "ok"),
        ("carry 1 a 1000", r"node a link 1 used 17 out 250 queued as 1\r\n change 1"),
        ("give a", "start a 1 b.example link 2"),
        ("tick 432000", "now 432000"),
        ("break 2", "broken 2"),
        ("ledger", ["accept a 1 1 link 1", "end a 1 0 failed link 2 report 2"]),
        ("marks", "a 2 0"),
        ("give a", "noroute a 2 change 3"),
        ("ledger", ["accept a 1 1 link 1", "end a 1 0 failed link 2 report 2", "end a 2 0 failed link 0 report 0"]),
        ("marks", []),
        ("give a", "refused Nothing"),
    ])


def cascade(program):
    """Node b has a pending fault; node a stops; b's attempt on the link is lost, and b stops in that call."""
    played(program, [
        ("connect b", GREETED.format(1, "b")),
        ("send 1 " + MAIL.format("a.example"), "ok"),
        ("carry 1 b 1000", "node b link 1 used 71 out " + QUEUED.format("b", 1) + " change 1"),
        ("give b", "start b 1 a.example link 2"),
        ("stop b 1 0", "armed b"),
        ("stop a 0 0", ["stopped a", "stopped b"]),
        ("marks", "b 1 0"),
        ("give b", "start b 1 a.example link 3"),
    ])


def faults(program):
    for script, wanted in [
        (b"connect c\n", (1, b"", b"relayd: script line 1\n")),
        (b"copies c 1 0\n", (1, b"", b"relayd: script line 1\n")),
        (b"lost p 1 0\n", (1, b"", b"relayd: script line 1\n")),
        (b"connect q\n", (1, b"", b"relayd: script line 1\n")),
        (b"nodes 1\n", (1, b"", b"relayd: script line 1\n")),
        (b"\n# x\nnodes 17\n", (1, b"", b"relayd: script line 3\n")),
        (b"nodes 2\nnodes 2\n", (1, b"", b"relayd: script line 2\n")),
        (b"tick 1\nnodes 2\n", (1, b"now 1\n", b"relayd: script line 2\n")),
        (b"ledger\nnodes 2\n", (1, b"", b"relayd: script line 2\n")),
        (b"nodes 2\nconnect c\n", (1, b"", b"relayd: script line 2\n")),
        (b"nodes 3\ncompact c\ngive d\n", (1, b"compact c size 36\n", b"relayd: script line 3\n")),
        (b"nodes 16\ncompact p\nstop q 0 0\n", (1, b"compact p size 36\n", b"relayd: script line 3\n")),
        (b"# x\n\nnodes 3\n# y\ncompact c\nmarks\n", (0, b"compact c size 36\n", b"")),
        (b"\n# x\n\nconnect  a\n", (1, b"", b"relayd: script line 4\n")),
        (b"tick 1\ntick 253370764800\n", (1, b"now 1\n", b"relayd: script line 2\n")),
        (b"tick 7", (0, b"now 7\n", b"")),
        (b"tick 7\ntick 8 ", (1, b"now 7\n", b"relayd: script line 2\n")),
        (b"", (0, b"", b"")),
        (b"send 1 \\q\n", (1, b"", b"relayd: script line 1\n")),
    ]:
        same(shown(script), run(program, script), wanted)
    with open("/dev/full", "wb") as full:
        done = subprocess.run(
            [program, "play"], input=b"tick 1\n", stdout=full, stderr=subprocess.PIPE, timeout=PATIENCE)
    same("a full output", (done.returncode, done.stderr), (1, b"relayd: output\n"))
    with open("/", "rb") if False else subprocess.Popen(["true"], stdout=subprocess.PIPE).stdout as nothing:
        done = subprocess.run([program, "play"], stdin=nothing, capture_output=True, timeout=PATIENCE)
    same("an empty input", (done.returncode, done.stdout), (0, b""))
    done = subprocess.run(f"{program} play < /", shell=True, capture_output=True, timeout=PATIENCE)
    same("an input that can't be read", (done.returncode, done.stderr), (1, b"relayd: input\n"))


def compactions(program):
    """A compaction between any two lines changes nothing else in the output; each new spool has 36 octets."""
    line = "compact {0}\n"
    same("new nodes", run(program, b"compact a\ncompact b\ncompact a\n"),
         (0, b"compact a size 36\ncompact b size 36\ncompact a size 36\n", b""))
    script = PLAYS / "lost_reply.play"
    lines, wanted = script.read_text().splitlines(keepends=True), script.with_suffix(".seen").read_text()
    for at in range(len(lines) + 1):
        given = "".join(lines[:at]) + line.format("a") + line.format("b") + "".join(lines[at:])
        status, out, errors = run(program, given.encode())
        found = "".join(one for one in out.decode().splitlines(keepends=True) if not one.startswith("compact "))
        same(f"compactions before line {at + 1}", (status, found, errors), (0, wanted, b""))


def shown(script):
    return f"the script {script!r}"


def networks(program):
    """The plays of two nodes, with two or three nodes: a third node changes nothing in the output; and the greeting of
    each of sixteen."""
    for count in (2, 3):
        for name in ("lost_reply.play", "crash.play", "late.play", "withdrawn.play"):
            script = PLAYS / name
            found = run(program, f"nodes {count}\n".encode() + script.read_bytes())
            same(f"nodes {count}, {name}", found, (0, script.with_suffix(".seen").read_bytes(), b""))
        undone(program, f"nodes {count}\n")
    greetings = [(f"connect {one}", GREETED.format(at + 1, one)) for at, one in enumerate(LETTERS)]
    played(program, [("nodes 16", [])] + greetings)


def attempt(play, node, other):
    """Plays the first attempt of a node, whose hop is another node, to its end. Returns the node that refused the mail
    data, if one did, and the number of carries."""
    link, refused, carries = play.say(f"give {node}").split()[-1], None, 0
    for turn in range(40):
        reader = (node, other)[turn % 2]
        line = play.say(f"carry {link} {reader} 100000")
        carries += 1
        if "554 too many Received fields" in line:
            refused = reader
        if line.endswith(" end") and reader == other:
            break
    return refused, carries


def circle(program, nodes):
    """Plays a message for `loop.example`: 100 accepts by the nodes in turn, then a 554 from the next one, the end and
    its report."""
    began = time.monotonic()
    with Play(program) as play:
        if nodes != 2:
            play.tell(f"nodes {nodes}")
        play.say("connect a")
        play.say("send 1 " + MAIL.format("loop.example"))
        same("the first accept", play.say("carry 1 a 1000")[-9:], " change 1")
        at, refused, carries = 0, None, 0
        while refused is None:
            refused, taken = attempt(play, LETTERS[at], LETTERS[(at + 1) % nodes])
            at, carries = (at + 1) % nodes, carries + taken
        ledger = lines_of(play, "ledger")
        accepts = [line.split()[1] for line in ledger if line.startswith("accept")]
        same("accepts", accepts, [LETTERS[turn % nodes] for turn in range(100)])
        last = LETTERS[99 % nodes]
        same("who refused", refused, LETTERS[100 % nodes])
        same("the last line", ledger[-1].split()[:2] + ledger[-1].split()[3:5], ["end", last, "0", "failed"])
        report = ledger[-1].split()[-1]
        same("marks", lines_of(play, "marks"), [f"{last} {report} 0"])
    return carries, time.monotonic() - began


def crowd(program):
    """Plays 1,008 messages among sixteen nodes, 63 from each to the next."""
    began = time.monotonic()
    with Play(program) as play:
        play.tell("nodes 16")
        for at, node in enumerate(LETTERS):
            same("a link", play.say(f"connect {node}"), GREETED.format(at + 1, node))
            for number in range(63):
                play.say(f"send {at + 1} " + MAIL.format(f"{LETTERS[(at + 1) % 16]}.example"))
                same("an accept", play.say(f"carry {at + 1} {node} 1000").endswith(f" change {number + 1}"), True)
        for at, node in enumerate(LETTERS):
            for _ in range(63):
                attempt(play, node, LETTERS[(at + 1) % 16])
        ledger = [line.split()[0] for line in lines_of(play, "ledger")]
        same("accepts and transfers", (ledger.count("accept"), ledger.count("transfer")), (2016, 1008))
    return time.monotonic() - began


def carries(program):
    """Plays 10,000 carries of 1,000 octets."""
    noops = r"NOOP\r\n" * 166 + r"RSET"
    script = ["connect a"]
    for _ in range(100):
        script += [f"send 1 {noops}"] * 100 + ["carry 1 a 1000"] * 100
    text = ("\n".join(script) + "\n").encode()
    began = time.monotonic()
    status, out, _ = run(program, text)
    taken = time.monotonic() - began
    same("carries", (status, out.count(b"used 1000")), (0, 10000))
    return taken


def main(program):
    program = str(pathlib.Path(program).resolve())
    for check in (
            scripts, undone, compactions, refusals, too_many, too_many_attempts, no_route, cascade, faults, networks):
        check(program)
    circle(program, 3)
    count, seconds = circle(program, 2)
    print(f"ok: plays: scripts, compactions, refusals, stops, faults, networks; "
          f"a circle of {count} carries in {seconds:.2f} s, "
          f"10,000 carries in {carries(program):.2f} s, 1,008 messages among 16 nodes in {crowd(program):.2f} s")


if __name__ == "__main__":
    run_main("plays", main)
