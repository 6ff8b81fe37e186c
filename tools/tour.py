#!/usr/bin/env python3
"""A tour of the relay's main job, over local sockets: a client sends a message to two recipients, the next hop accepts
one and refuses the other, and the sender gets a delivery status notification. All that is shown is checked too. The
relay's files are in a folder that is removed at the end.

    tools/tour.py PROGRAM
"""
import contextlib
import os
import pathlib
import signal
import subprocess
import sys
import tempfile

sys.dont_write_bytecode = True
sys.path.insert(0, str(pathlib.Path(__file__).resolve().parent.parent / "tests"))

from mail_checks import behind_mark, fields, read_report
from relay_program import PATIENCE, Difference, Relay, same, until
from running_relay import Client, number_of
from smtp_sink import Manners, Sink

SENDER, TAKEN, REFUSED = "ada@example.org", "ben@example.net", "cora@example.net"
REFUSAL = "550 no such user"
TEXT = (
    f"From: Ada <{SENDER}>\r\nTo: Ben <{TAKEN}>, Cora <{REFUSED}>\r\nSubject: lunch\r\n\r\n"
    "Is one o'clock fine for both of you?\r\n"
).encode()


def main(program):
    with tempfile.TemporaryDirectory(prefix="relayd-tour-") as folder:
        tour(program, pathlib.Path(folder))


def tour(program, folder):
    """Shows the way of a message through a relay that keeps its files in this folder."""
    refusing = Manners(refusals={f"<{REFUSED}>": REFUSAL})
    with Sink(manners=refusing) as next_hop, Sink() as home:
        next_hop.hold_greetings()
        routes = {"example.net": ("next.example", next_hop.port), "example.org": ("home.example", home.port),
                  "relay.example": ("home.example", home.port)}
        relay = Relay(program, folder / "relay", routes)
        relay.run("init")
        with running(relay):
            number = show_submission(relay)
            show_queue(relay)
            next_hop.greet()
            show_delivery(next_hop, number)
            show_notification(home, number)
            until("a log line for the notification", lambda: "home.example" in relay.log.read_text())
        show_log(relay)
        same("breaches of the protocol", next_hop.breaches + home.breaches, [])


@contextlib.contextmanager
def running(relay):
    """Runs `run` in the background of the block. If another program has taken its port since that was chosen, the fault
    says so."""
    try:
        with relay.running():
            yield
    except Difference:
        if relay.log.read_text() == "relayd: socket\n":
            raise Difference(f"port {relay.port} of 127.0.0.1 is in use by now; run this again") from None
        raise


def show_submission(relay):
    """Shows a client's dialogue. Returns the queue number of its message."""
    heading(1, "The client gets 250 for its message: from now on the relay answers for both recipients.")
    with Client(relay) as client:
        exchange(client, b"", "220")
        exchange(client, b"EHLO client.example\r\n", "250")
        exchange(client, f"MAIL FROM:<{SENDER}>\r\n".encode(), "250")
        exchange(client, f"RCPT TO:<{TAKEN}>\r\n".encode(), "250")
        exchange(client, f"RCPT TO:<{REFUSED}>\r\n".encode(), "250")
        exchange(client, b"DATA\r\n", "354")
        number = number_of(exchange(client, TEXT + b".\r\n", "250"))
        exchange(client, b"QUIT\r\n", "221")
    return number


def exchange(client, octets, code):
    """Sends these octets and shows them with the reply, which must have this code. Returns the reply's last line."""
    show(octets.decode().splitlines(), "C: ")
    client.link.sendall(octets)
    lines = client.reply_lines()
    show(lines, "S: ")
    same(f"the reply to {octets[:40]}", lines[-1][:4], f"{code} ")
    return lines[-1]


def show_queue(relay):
    """Shows the queue as the program lists it, and the spool's files, before the next hop greets."""
    heading(2, "The message is on disk and in the queue; the next hop says nothing yet.")
    lines = relay.run("list")
    same("recipients in the queue", [line.split(" ")[2] for line in lines], [f"<{TAKEN}>", f"<{REFUSED}>"])
    show(["the program's own `list`: message, place, recipient, due time in seconds since 1970"])
    show(lines, "   ")
    first, second = relay.spool.read_bytes(), relay.second.read_bytes()
    same("the spool's first file holds the text", TEXT in first, True)
    show([
        "the spool's files:",
        f"   {relay.spool.name:14}{len(first):5} octets, the message's text among them",
        f"   {relay.second.name:14}{len(second):5} octets, for the next compaction",
    ])


def show_delivery(next_hop, number):
    """Shows what the next hop got: its commands, and the one message that it accepted."""
    message = only_message(next_hop)
    until("QUIT at the next hop", lambda: b"QUIT" in next_hop.commands)
    heading(3, "The next hop gets every octet as the client sent it, after one new trace header; it refuses Cora.")
    commands = [line.decode() for line in next_hop.commands]
    refused = f"RCPT TO:<{REFUSED}>"
    same("the refused RCPT", commands.count(refused), 1)
    show(["relay.example to next.example:"])
    show([f"{line:32}S: {REFUSAL}" if line == refused else line for line in commands], "C: ")
    same("the message's envelope", (message.mail, message.recipients),
         (f"<{SENDER}>".encode(), [f"<{TAKEN}>".encode()]))
    same("what follows the trace header", behind_mark(message.content, "relay.example", number), TEXT)
    show(["the message that next.example took:"])
    show(message.content.decode().splitlines(), "   ")


def show_notification(home, number):
    """The delivery status notification, as Python's email reads it too."""
    message = only_message(home)
    until("QUIT at the sender's server", lambda: b"QUIT" in home.commands)
    heading(4, "The sender's own server gets a delivery status notification, which names Cora and the reason.")
    report = read_report(message, number + 1, number, SENDER)
    told = fields(report, 1)
    same("what the notification says", {key: told.get(key) for key in ("Final-Recipient", "Action", "Diagnostic-Code")},
         {"Final-Recipient": f"rfc822; {REFUSED}", "Action": "failed", "Diagnostic-Code": f"smtp; {REFUSAL}"})
    show(["relay.example to home.example:"])
    show([line.decode() for line in home.commands], "C: ")
    show(["the notification:"])
    show(message.content.decode().splitlines(), "   ")


def show_log(relay):
    """Shows the relay's log, and the queue once more."""
    heading(5, "The relay's own log has a line for each message and each attempt, and the queue is empty again.")
    log = relay.log.read_text()
    for word in (f"<{SENDER}>", f"<{TAKEN}>", f"<{REFUSED}>", "next.example", "550", "home.example"):
        same(f"the log has {word}", word in log, True)
    show(log.splitlines())
    same("the queue in the end", relay.run("list"), [])


def only_message(sink):
    """Returns the one message that a sink gets."""
    sink.wait_for(1, PATIENCE)
    messages = sink.take_all()
    same("messages that came", len(messages), 1)
    return messages[0]


def heading(number, sentence):
    print(f"\n{number}. {sentence}\n")


def show(lines, mark=""):
    for line in lines:
        print(f"   {mark}{line}".rstrip())


def guarded(work, *words):
    """Runs a command, and ends it early at a signal, at a fault, and when nobody reads its output any more. In each
    case folders are removed and processes stopped; the status is 0 only if all went well."""
    sys.stdout.reconfigure(line_buffering=True)
    for number in (signal.SIGINT, signal.SIGTERM, signal.SIGHUP):
        signal.signal(number, end_at_signal)
    try:
        work(*words)
    except (Difference, OSError, subprocess.SubprocessError) as fault:
        if isinstance(fault, BrokenPipeError):
            # So that Python, when it ends, doesn't write to a closed standard output once more.
            os.dup2(os.open(os.devnull, os.O_WRONLY), sys.stdout.fileno())
        sys.exit(f"{pathlib.Path(sys.argv[0]).stem}: {fault}")


def end_at_signal(number, _frame):
    """Ends the program with the status that a shell gives it. Further signals don't disturb its end."""
    for other in (signal.SIGINT, signal.SIGTERM, signal.SIGHUP):
        signal.signal(other, signal.SIG_IGN)
    sys.exit(128 + number)


if __name__ == "__main__":
    if len(sys.argv) != 2:
        sys.exit(__doc__)
    guarded(main, sys.argv[1])
