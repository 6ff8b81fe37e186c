#!/usr/bin/env python3
"""Kills `relayd serve` (SIGKILL) at 30 times of a fixed seed while messages arrive and are relayed, and opens the spool
again each time: every message whose 250 a client has read must be in `list`, or at the sink. At the end a push relays
all that is left to the sink.

    bench/crashes.py build/relayd [WORKERS]

With WORKERS, so many clients submit at once, and the relay serves so many side by side.

The system stays up, and keeps what was written and not synced: the effect of a power cut isn't shown here.
"""
import os
import pathlib
import random
import re
import smtplib
import sys
import tempfile
import threading

HERE = pathlib.Path(__file__).resolve().parent
sys.path.insert(0, str(HERE.parent / "tests"))
sys.dont_write_bytecode = True

from relay_program import Difference, PATIENCE, Relay, preload, same
from smtp_sink import Sink

MOMENTS = 30
# The longest that a relay lives, in seconds.
LONGEST = 0.3
TOKEN = re.compile(rb"\r\nSubject: (\d+)\r\n")


# How many messages one client gives at most.
SHARE = 1000000


class Feeder:
    """Submits messages with their numbers as subjects, and notes which got a 250, with their queue numbers."""

    def __init__(self, port, place, most):
        self.port, self.place, self.most, self.chance = port, place, most, random.Random(place)
        self.given, self.answered = 0, {}

    def feed(self):
        """Submits messages until the relay is gone, up to so many on a connection."""
        try:
            while True:
                with smtplib.SMTP("127.0.0.1", self.port, "client.example", PATIENCE) as client:
                    client.ehlo()
                    for _ in range(self.chance.randint(1, self.most)):
                        self.hand_in(client)
        except (OSError, smtplib.SMTPException):
            pass

    def hand_in(self, client):
        self.given += 1
        token = self.place * SHARE + self.given
        content = b"Subject: %d\r\n\r\n%b.\r\n" % (token, b"x" * self.chance.randint(0, 20000))
        client.mail("a@example.org")
        client.rcpt("b@example.org")
        code, text = client.data(content)
        if code == 250:
            self.answered[token] = int(text.split()[-1])


def tokens_at(sink):
    """Returns how often each message has arrived there."""
    counts = {}
    for message in list(sink.messages):
        token = int(TOKEN.search(message.content)[1])
        counts[token] = counts.get(token, 0) + 1
    return counts


def look(relay, sink, answered, moment):
    """Checks that no acknowledged message is lost."""
    held, gone = {row[0] for row in relay.held()}, tokens_at(sink)
    lost = [token for token, number in answered.items() if number not in held and token not in gone]
    same(f"messages lost after kill {moment}", lost, [])
    same("numbers given twice", len(set(answered.values())), len(answered))


def push_rest(relay, sink, folder):
    """Pushes with the clock a day ahead, since what was tried once is due later."""
    preload(relay, folder, "later_clock", LATER="86400")
    same("the end of the push", relay.ended(900, "push").returncode, 0)
    same("list at last", relay.held(), [])


def feed_all(feeders):
    """Submits messages of all clients until the relay is gone."""
    threads = [threading.Thread(target=feeder.feed) for feeder in feeders]
    for thread in threads:
        thread.start()
    for thread in threads:
        thread.join()


def run(program, folder, sink, workers):
    relay = Relay(program, folder, {"example.org": ("next.example", sink.port)})
    relay.run("init")
    chance = random.Random(24)
    feeders = [Feeder(relay.port, place, 5 if workers == 1 else 2) for place in range(workers)]
    answered = {}
    for moment in range(1, MOMENTS + 1):
        process = relay.start("--rounds", "1000000", *["--workers", str(workers)] * (workers > 1))
        timer = threading.Timer(chance.uniform(0, LONGEST * (1 + workers / 64)), process.kill)
        timer.start()
        feed_all(feeders)
        timer.join()
        process.communicate()
        for feeder in feeders:
            answered.update(feeder.answered)
        look(relay, sink, answered, moment)
    push_rest(relay, sink, folder)
    counts = tokens_at(sink)
    same("messages that never came", [token for token in answered if token not in counts], [])
    same("breaches at the sink", sink.breaches, [])
    more, given = sum(count - 1 for count in counts.values()), sum(feeder.given for feeder in feeders)
    print(f"crashes: {MOMENTS} kills, {workers} at once, {given} messages begun, {len(answered)} answered 250, none "
          f"lost; the sink was given {len(counts)}, and {more} of them once more")


def main():
    with tempfile.TemporaryDirectory() as folder, Sink() as sink:
        try:
            run(os.path.realpath(sys.argv[1]), pathlib.Path(folder), sink, int((sys.argv + ["1"])[2]))
        except Difference as difference:
            sys.exit(f"crashes: {difference}")


main()
