"""The postmaster of a day in a box, who asks for things by chance."""
import random

from box_configs import configuration, refused

HOPS = ["one.hop", "one.hop", "two.hop", "two.hop", "three.hop", "back.hop", "any.hop", "no.hop"]
# The requests, and how often each is sent.
VERBS = {"hold": 3, "release": 2, "flush": 4, "reload": 2, "withdraw": 2}


class Postmaster:
    """Asks for things on some days. `day` has `tell` and `ask`."""

    def __init__(self, seed, day):
        # The other events of a day are those that it would have without a postmaster.
        self.chance, self.day = random.Random(f"postmaster {seed}"), day
        self.comes = self.chance.random() < 0.3
        # What may be held; the greatest number of a message that was logged.
        self.held, self.last = [], 0

    def act(self):
        """Asks for something, or not."""
        chance = self.chance
        if not self.comes or chance.random() > 0.3:
            return
        if chance.random() < 0.1:
            self.day.tell(f"held {chance.choice(['yes', 'yes', 'no'])}")
        for _ in range(chance.choice([1, 1, 2])):
            verb = chance.choices([*VERBS], [*VERBS.values()])[0]
            getattr(self, verb)()

    def scope(self):
        if self.chance.random() < 0.5:
            return f"hop {self.chance.choice(HOPS)}"
        return f"message {self.chance.randint(max(1, self.last - 4), self.last + 1)}"

    def hold(self):
        scope = self.scope()
        self.held.append(scope)
        self.day.request(f"hold {scope}")

    def release(self):
        scope = self.chance.choice(self.held) if self.held and self.chance.random() < 0.8 else self.scope()
        self.day.request(f"release {scope}")

    def flush(self):
        self.day.request("flush" if self.chance.random() < 0.4 else f"flush {self.scope()}")

    def reload(self):
        day, chance = self.day, self.chance
        if chance.random() < 0.2:
            day.tell(f"config {refused(chance, day.text).encode().hex()}")
            day.request("reload")
            day.tell(f"config {day.text.encode().hex()}")
            return
        if chance.random() < 0.8:
            day.configure(*configuration(chance))
        if chance.random() < 0.9:
            day.request("reload")

    def withdraw(self):
        """Returns or discards some of what is queued, and now and then what isn't."""
        chance, queued = self.chance, {}
        for line in self.day.ask("queue"):
            _, number, place, _ = line.split(" ")
            queued.setdefault(int(number), []).append(int(place))
        verb = chance.choice(["return", "discard"])
        if chance.random() < 0.2:
            queued.setdefault(chance.randint(1, max(1, self.last)), []).append(7)
            if verb == "discard":
                queued.setdefault(self.last + 1, []).append(0)
        numbers = sorted(chance.sample([*queued], min(len(queued), chance.choice([1, 1, 2, 3]))))
        names = []
        for number in numbers:
            places = sorted({*queued[number]})
            places = sorted(chance.sample(places, chance.randint(1, len(places))))
            names.append(f"{number}:{','.join(map(str, places))}")
        if names:
            self.day.request(f"{verb} {' '.join(names)}")

    def see(self, answer):
        """Sees the log of a turn."""
        self.last = max([self.last, *(int(fields["message"]) for _, fields in answer.log if "message" in fields)])

    def forget(self):
        """Nothing is held any more: the relay was started again."""
        self.held = []

    def leave(self):
        """Releases all that may be held."""
        if self.comes:
            self.day.tell("held yes")
        for scope in dict.fromkeys(self.held):
            self.day.request(f"release {scope}")
        self.comes = False
