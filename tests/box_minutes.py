"""Which refusals to clients of a relay in a box have a line in its log: ten of each address and minute. After the
minute, or when another address takes its place, one line counts the others (relayd(8), The log)."""
import collections

from box_answer import require

# How many lines about refusals an address has in the log, in how many milliseconds; how many addresses have such a
# minute at a time.
MOST_LINES, MINUTE, PLACES = 10, 60_000, 64


class Minute:
    """A minute of refusals to clients of an address, which begins with the line of the first."""

    def __init__(self, address, now):
        self.address, self.end, self.lines = address, now + MINUTE, 1


class Minutes:
    """The minutes of a relay since it was started. What clients were refused without a line isn't seen at once: of each
    address a least and a greatest number is known."""

    def __init__(self, judge):
        self.judge, self.places, self.given = judge, [None] * PLACES, None
        # Of this turn: the minutes that are over and not counted, the addresses of all that are over, and how many
        # refusals to each address surely had no line before it.
        self.over, self.ended, self.known = {}, [], {}
        # By address: how many refusals without a line were counted; how many there surely are and may be of clients
        # that have ended; and until when a minute has all of its lines.
        self.counted, self.least, self.most = (collections.Counter() for _ in range(3))
        self.full_until = {}

    def may_skip(self, talk):
        """Returns whether a refusal to a client may have no line."""
        return self.full_until.get(talk.client, talk.opened) > talk.opened

    def note_end(self, talk, least, most):
        """Notes how many refusals of a client that has ended have no line."""
        self.least[talk.client] += least
        self.most[talk.client] += most

    def open_of(self, address):
        return [talk for talk in self.judge.talks.values() if talk.client == address and not talk.is_counted]

    def begin_turn(self):
        """Ends the minutes that are over, before the lines of a turn."""
        self.over = {one.address: one for one in self.places if one and one.end <= self.judge.now}
        self.ended = [*self.over]
        self.places = [None if one and one.end <= self.judge.now else one for one in self.places]
        self.known = {one.address: self.least[one.address] + sum(talk.skipped for talk in self.open_of(one.address))
                      for one in [*self.over.values(), *self.places] if one}

    def tell(self, address):
        """Takes the line of a refusal."""
        minute = next((one for one in self.places if one and one.address == address), None)
        if minute:
            minute.lines += 1
            require(minute.lines <= MOST_LINES, f"the log has more than {MOST_LINES} lines for {address} in a minute")
        else:
            place = min(range(PLACES), key=lambda place: self.places[place].end if self.places[place] else 0)
            taken, minute = self.places[place], Minute(address, self.judge.now)
            self.places[place] = minute
            if taken:
                self.check_counted(taken.address)
            self.given = None if taken and self.given == taken.address else self.given
        self.check_given()
        if minute.lines == MOST_LINES:
            self.full_until[address] = minute.end

    def count(self, address, count):
        """Takes the line that counts refusals to clients of an address."""
        minute = self.over.pop(address, None)
        if minute is None:
            self.check_given()
            self.given = address
            minute = next((one for one in self.places if one and one.address == address), None)
        require(minute, f"the log counts refusals to {address}, which has had no line for them")
        require(minute.lines == MOST_LINES, f"the log counts refusals after {minute.lines} lines in a minute")
        self.counted[address] += count
        most = self.most[address] + sum(talk.skipped + len(talk.untold) for talk in self.open_of(address))
        require(0 < count and self.counted[address] <= most, "the log tells of more refusals than there are: it has "
                f"counted {self.counted[address]} to {address}, and {most} have no line")

    def check_counted(self, address):
        """Requires that the refusals of an address that surely have no line were counted."""
        known, counted = self.known.get(address, 0), self.counted[address]
        require(known <= counted, f"{known} refusals to {address} have no line, and the log has counted {counted}")

    def check_given(self):
        """Requires that a minute that isn't over was counted only because its place was taken."""
        require(self.given is None, f"the refusals to {self.given} were counted before their minute was over")

    def end_turn(self):
        """Requires that what had no line in the minutes that are over was counted."""
        self.check_given()
        for address in self.ended:
            self.check_counted(address)
