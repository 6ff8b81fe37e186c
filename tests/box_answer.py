"""Reads what the program of a box printed."""
from binascii import unhexlify

from box_log import read_line
from relay_program import Difference


def require(holds, what):
    if not holds:
        raise Difference(what)


def octets_of(word):
    return b"" if word == "-" else unhexlify(word)


class Answer:
    """What a turn printed."""

    def __init__(self, lines):
        self.dials, self.refused, self.reads, self.writes, self.shuts, self.closes = [], [], [], [], [], []
        self.clock, self.log, self.fault, self.wait = None, [], None, None
        # The octets of the answer to a request, and whether a reload waits.
        self.reply, self.is_reloading = None, False
        for line in lines:
            word, _, rest = line.partition(" ")
            self.TAKES.get(word, Answer.take_unknown)(self, rest)

    def take_unknown(self, rest):
        require(False, f"a turn printed a line that the protocol doesn't have: {rest}")

    def take_dial(self, rest):
        number, _, address = rest.partition(" ")
        self.dials.append((int(number), address))

    def take_read(self, rest):
        number, _, count = rest.partition(" ")
        self.reads.append((int(number), int(count)))

    def take_wrote(self, rest):
        number, _, octets = rest.partition(" ")
        self.writes.append((int(number), octets_of(octets)))

    def take_clock(self, rest):
        self.clock = tuple(map(int, rest.split(" ")))

    def take_fault(self, rest):
        self.fault = rest

    def take_answer(self, rest):
        self.reply = octets_of(rest)

    def take_reloading(self, _):
        self.is_reloading = True

    def take_done(self, rest):
        self.wait = int(rest)

    TAKES = {
        "dial": take_dial, "read": take_read, "wrote": take_wrote, "clock": take_clock, "fault": take_fault,
        "done": take_done, "answer": take_answer, "reloading": take_reloading,
        "refused": lambda self, rest: self.refused.append(rest),
        "shut": lambda self, rest: self.shuts.append(int(rest)),
        "closed": lambda self, rest: self.closes.append(int(rest)),
        "log": lambda self, rest: self.log.append(read_line(rest)),
    }
