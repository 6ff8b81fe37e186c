"""A day of a relay in a box: a script that is made line by line, from a seed and from what the relay does."""
import random

from box_configs import BALANCERS, configuration
from box_headers import header
from box_peers import Client, Hop
from box_postmaster import Postmaster
from box_texts import Texts
from relay_program import Difference

MORNING = 1_764_489_600
CLIENTS = ["127.0.0.1", "127.0.0.1", "127.0.0.2", "10.0.0.5", "203.0.113.9"]
# How far the clock goes in the evening, while mail is queued, and how often.
EVENING_STEP, EVENING_STEPS = 4 * 3_600_000 + 1_000, 60
# The most turns after a step until the relay must be at rest.
MOST_TURNS = 2_000


class Day:
    """A day. `tell` sends a line, and `ask` sends one and returns what a turn printed."""

    def __init__(self, seed, tell, ask):
        self.chance, self.tell, self.ask = random.Random(seed), tell, ask
        self.wall, self.now, self.port, self.count = MORNING, 1_000, 40_000, 0
        self.clients, self.hops, self.modes = {}, {}, {}
        self.is_good = self.sets_clock = self.is_short = False
        self.wait = self.offset = 0
        self.postmaster = Postmaster(seed, self)

    def play(self):
        """Plays the day: busy turns first, and then an evening in which all goes well."""
        chance = self.chance
        self.text, self.places = configuration(chance)
        self.has_balancers = "balancers" in self.text
        self.ask(f"begin {self.text.encode().hex()}")
        self.texts = Texts(chance, chance.choice([3, 5, 5, 9, 20]))
        self.most = chance.choices([1, 2, 3, 6, 12, 70], [5, 6, 6, 3, 1, 0.4])[0]
        self.span = chance.choices([0, 50, 5_000, 600_000, 20_000_000], [3, 4, 2, 1, 1])[0]
        self.turns = chance.choice([8, 15, 25, 40])
        # In a crowd most clients say little, and stay.
        self.is_crowd = self.most > 64 and chance.random() < 0.5
        self.has_faults, self.has_rooms = chance.random() < 0.25, chance.random() < 0.3
        # How often a call on the disks fails, and how many calls pass before at most.
        self.failing, self.passing = chance.choice([(0.1, 30), (0.1, 30), (0.5, 12)])
        self.sets_clock = chance.random() < 0.12
        self.tell(f"clock {self.wall} {self.now}")
        for place in self.places:
            self.set_mode(place)
        for _ in range(self.turns):
            self.busy_turn()
        self.evening()

    def set_mode(self, place):
        mode = "accept" if self.is_good else self.chance.choices(["accept", "refuse", "wait"], [8, 1, 1])[0]
        if self.modes.get(place) != mode:
            self.modes[place] = mode
            self.tell(f"hop {place} {mode}")

    def configure(self, text, places):
        """Writes another configuration, which a reload or a stop reads."""
        self.text, self.has_balancers = text, self.has_balancers or "balancers" in text
        self.tell(f"config {text.encode().hex()}")
        for place in places:
            if place not in self.places:
                self.places = [*self.places, place]
                self.set_mode(place)

    def pass_time(self, milliseconds):
        """Lets time pass. On some days the machine's clock is set meanwhile."""
        self.now += milliseconds
        if self.sets_clock and self.chance.random() < 0.15:
            self.offset += self.chance.choice([-86_400, -3_600, -60, -1, 1, 60, 3_600, 86_400, 432_000])
        self.wall = MORNING + self.now // 1_000 + self.offset
        self.tell(f"clock {self.wall} {self.now}")

    def busy_turn(self):
        chance, lines = self.chance, []
        if len(self.clients) < self.most and chance.random() < 0.6:
            for _ in range(chance.choice([1, 1, 2]) if self.most < 20 else 20):
                self.come()
        if self.span and chance.random() < 0.5:
            self.pass_time(chance.randint(0, self.span))
        if chance.random() < 0.1:
            self.set_mode(chance.choice(self.places))
        for client in self.clients.values():
            if chance.random() < 0.85:
                client.act(lines)
        fails = self.has_faults and not self.is_short and chance.random() < self.failing
        for hop in self.hops.values():
            if hop.is_pending:
                if chance.random() < 0.3:
                    hop.is_pending = False
                    lines.append(f"connected {hop.number}" if chance.random() < 0.8 else f"reset {hop.number}")
            elif fails or chance.random() < 0.85:
                hop.act(lines)
        if self.has_rooms:
            self.change_room(lines)
        if fails:
            lines.append(f"fail {chance.randint(0, self.passing)}")
        self.send(lines)
        self.turn()
        self.postmaster.act()
        if self.has_faults and chance.random() < 0.06:
            self.stop()
        if chance.random() < 0.15:
            self.ask("queue")

    def change_room(self, lines):
        chance = self.chance
        for number, client in self.clients.items():
            if not client.is_gone and chance.random() < 0.1:
                client.is_narrow = chance.random() < 0.7
                lines.append(f"room {number} {chance.randint(0, 40) if client.is_narrow else '-'}")
        for number, hop in self.hops.items():
            if not hop.is_gone and chance.random() < 0.1:
                lines.append(f"room {number} {chance.choice([0, 1, 7, 40, 200, '-', '-'])}")

    def send(self, lines):
        for line in lines:
            self.tell(line)
        for number in [number for number, hop in self.hops.items() if hop.is_gone]:
            del self.hops[number]

    def come(self):
        """Lets a client come."""
        self.port += 1
        parts, ending = self.texts.session()
        if self.is_crowd and self.chance.random() < 0.9:
            parts, ending = parts[:self.chance.choice([0, 1, 1, 2])], "silence"
        address = self.chance.choice(CLIENTS)
        if self.has_balancers and self.chance.random() < 0.6:
            parts.insert(0, header(self.chance, address, self.port))
            address = self.chance.choice(BALANCERS)
        self.clients[self.count] = Client(self.chance, self.count, parts, ending)
        self.count += 1
        self.tell(f"client {address}:{self.port}")

    def turn(self):
        """Takes a turn, and lets clients and next hops see what the relay did."""
        return self.see(self.ask("turn"))

    def request(self, request):
        """Asks the relay for something."""
        return self.see(self.ask(f"ask {request}"))

    def see(self, answer):
        self.postmaster.see(answer)
        for number, address in answer.dials:
            self.count += 1
            self.hops[number] = Hop(self.chance, number, self.is_good, self.modes[address] == "wait")
        for number, octets in answer.writes:
            if number in self.clients:
                self.clients[number].answered = True
            elif number in self.hops:
                self.hops[number].hear(octets)
        for number in answer.closes:
            self.clients.pop(number, None)
            self.hops.pop(number, None)
        if answer.clock:
            self.wall, self.now = answer.clock
        if answer.fault:
            self.stop()
        self.wait = answer.wait
        return answer

    def stop(self):
        """Stops the relay, and starts it again, sometimes with little room. It would wait for more if its device failed
        then, so nothing fails until there is room again."""
        self.clients, self.hops = {}, {}
        self.postmaster.forget()
        if not self.is_good and self.chance.random() < 0.2:
            self.is_short = True
            self.tell(f"ballast {self.chance.choice([70_000, 200_000, 2_000_000])}")
        self.ask(f"stop {self.chance.choice([0, 0, 1, 1, 2, 3, self.chance.randint(4, 300)])}")

    def evening(self):
        """Lets all peers be good, and time pass until nothing is queued."""
        self.is_good, self.sets_clock = True, False
        self.tell("ballast 1000000000")
        for place in self.places:
            self.set_mode(place)
        self.postmaster.leave()
        lines = []
        for client in self.clients.values():
            client.finish(lines)
        for hop in self.hops.values():
            hop.be_good(lines)
            lines.append(f"room {hop.number} -")
        self.send(lines)
        for _ in range(EVENING_STEPS):
            self.rest()
            if not self.ask("queue"):
                self.tell("#! drained")
                return
            self.pass_time(EVENING_STEP)
        self.tell("#! drained")

    def rest(self):
        """Takes turns until nothing happens any more."""
        for _ in range(MOST_TURNS):
            lines = []
            for hop in self.hops.values():
                hop.act(lines)
            self.send(lines)
            answer = self.turn()
            if not lines and self.wait and not answer.writes and not answer.dials:
                if self.wait > 1_000 or not self.clients and not self.hops:
                    return
                self.pass_time(self.wait)
        raise Difference(f"the relay isn't at rest after {MOST_TURNS} turns")
