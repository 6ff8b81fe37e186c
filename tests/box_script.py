"""The lines of a script for a relay in a box, as a judge takes them: who comes and what is sent, the clocks, what
fails, and the files."""
from box_answer import octets_of, require
from box_arrivals import Arrival
from box_clients import Talk

# By how many seconds the wall clock may differ from the other one and not be set.
MOST_DRIFT = 2


class Script:
    """What a judge knows by the lines of a script: the streams, the clocks, and what may fail."""

    def __init__(self):
        self.setup = self.custody = self.waits = self.asks = None
        self.forget_streams()
        self.wall, self.now, self.highest, self.went_back, self.was_set = 0, 0, 0, False, False
        self.modes, self.may_fail = {}, False

    def forget_streams(self):
        """Begins without connections: of clients, those whose headers aren't whole apart; and of next hops."""
        self.streams, self.talks, self.arrivals, self.links, self.peers = [], {}, {}, {}, {}

    def reconfigure(self, setup):
        """Goes on with another configuration. Clients that wait to be accepted are served by it."""
        self.setup = setup
        self.custody.reconfigure(setup)
        for old in [*self.talks.values(), *self.arrivals.values()]:
            self.talks.pop(old.number, None)
            self.arrivals.pop(old.number, None)
            self.peers.pop(old.address, None)
            self.add_stream(old.number, old.address)
            new = self.streams[old.number]
            new.unread, new.room, new.has_end, new.is_reset = old.unread, old.room, old.has_end, old.is_reset
            new.opened = old.opened

    def sent(self, line):
        """Takes a line that has no answer."""
        words = line.split(" ")
        if words[0] == "#!":
            require(words[1] == "drained", f"no such check: {line}")
            require(not self.custody.queued, f"{len(self.custody.queued)} recipients are still queued at the end, "
                                             "though all next hops accept mail")
        elif words[0] and words[0][0] != "#":
            getattr(self, "take_" + words[0])(*words[1:])

    def take_clock(self, seconds, milliseconds):
        self.set_clock(int(seconds), int(milliseconds))

    def set_clock(self, wall, now):
        self.went_back = self.went_back or wall < self.wall
        moved = wall - self.wall - (now - self.now) / 1_000
        self.was_set = self.was_set or self.now > 0 and abs(moved) > MOST_DRIFT
        self.wall, self.now, self.highest = wall, now, max(wall, self.highest)

    def take_client(self, address):
        self.streams.append(None)
        self.add_stream(len(self.streams) - 1, address)

    def add_stream(self, number, address):
        """Adds the stream of a client that comes, or of a balancer."""
        if address.partition(":")[0] in self.setup.balancers:
            self.streams[number] = self.arrivals[number] = Arrival(number, address, self.now)
        else:
            self.add_client(Talk(number, address, self.setup, self.now))

    def add_client(self, talk):
        self.streams[talk.number] = self.talks[talk.number] = self.peers[talk.address] = talk

    def take_input(self, number, octets):
        stream = self.stream(int(number))
        if not stream.is_reset and not stream.has_end:
            stream.unread += octets_of(octets)

    def take_end(self, number):
        self.stream(int(number)).has_end = True

    def take_reset(self, number):
        stream = self.stream(int(number))
        stream.is_reset, stream.unread = True, b""

    def take_room(self, number, count):
        self.stream(int(number)).room = None if count == "-" else int(count)

    def take_hop(self, address, word):
        self.modes[address] = word

    def take_connected(self, number):
        self.stream(int(number)).is_pending = False

    def take_fail(self, calls):
        self.may_fail = True

    def take_ballast(self, count):
        self.waits.note_room(int(count))

    def take_config(self, octets):
        self.asks.text = octets_of(octets).decode()

    def take_held(self, word):
        self.asks.keeps = word == "yes"

    def stream(self, number):
        require(number < len(self.streams), f"it has no connection {number}")
        return self.streams[number]
