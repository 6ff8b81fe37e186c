"""The sessions of a relay in a box: who may have one, and how many there are, of which a judge knows the least and the
most."""
from box_clients import CROWD, CROWDED_TIMEOUT, LONGEST_SESSION, MOST_SESSIONS


class Sessions:
    """The sessions of a judge's clients."""

    def __init__(self, judge):
        # How many clients surely had a session when the relay began to serve clients in this turn.
        self.judge, self.standing = judge, 0

    def begin_turn(self):
        """Counts the sessions before a turn."""
        self.standing = len(self.served())

    def served(self):
        """Returns the clients that surely have a session."""
        return [talk for talk in self.judge.talks.values() if talk.is_served()]

    def others(self, talk):
        """Returns the clients that may have had a session beside this one in this turn."""
        turn = self.judge.counts["turns"]
        return [other for other in self.judge.talks.values() if other is not talk
                and (not other.own_line or other.is_greeted and other.cut_in == turn)]

    def are_surely_crowded(self):
        """Returns whether there surely were so many sessions in this turn that idle clients have less time."""
        return self.standing > CROWD

    def note_crowd(self, talk):
        """Notes how many sessions there are at most beside a client that isn't greeted yet, or was cut off."""
        others = self.others(talk)
        same = sum(other.client == talk.client for other in others)
        talk.crowd = max(talk.crowd[0], len(others)), max(talk.crowd[1], same)

    def check_welcome(self, talk):
        """Requires that a client that is greeted may connect, and that there was room."""
        setup = self.judge.setup
        talk.require(setup.may_connect(talk.client), "it may not connect, and was greeted")
        talk.require(talk.came_in is not None, "it was greeted while a reload waits")
        served = [other for other in self.served() if other.is_before(talk)]
        same = sum(other.client == talk.client for other in served)
        talk.require(len(served) < MOST_SESSIONS and same < setup.keys["sessions_per_client"],
                     f"it was greeted beside {len(served)} sessions, {same} of its own address")
        self.standing += 1

    def own_line(self, talk, cause):
        """Requires the cause of a line of the relay's own."""
        judge = self.judge
        talk.cut_in = judge.counts["turns"]
        judge.counts["cut off" if cause in ("timeout", "stopping") else "turned away"] += 1
        if cause == "no service":
            talk.require(not judge.setup.may_connect(talk.client), "it may connect, and got no service")
        elif cause == "too many":
            self.note_crowd(talk)
            total, same = talk.crowd
            talk.require(total >= MOST_SESSIONS or same >= judge.setup.keys["sessions_per_client"],
                         f"it was turned away beside {total} sessions, {same} of its own address")
        elif cause == "stopping":
            talk.require(talk.is_retired or judge.asks.may_cut(talk), "it was cut off, and no reload waits for it")
        elif cause == "storage":
            talk.require(judge.has_failed, "it got 421 for storage, and the device hasn't failed")
        else:
            self.check_timeout(talk)

    def check_timeout(self, talk):
        """Requires that a client that was cut off was idle for long enough."""
        self.note_end(talk)
        now = self.judge.now
        idle = now - talk.tail_since
        talk.require(idle >= talk.setup.timeout or talk.was_crowded and idle >= CROWDED_TIMEOUT
                     or now >= talk.has_accepted + LONGEST_SESSION, f"it was cut off after {idle} ms")

    def note_end(self, talk):
        """Notes whether an idle client had less time when it was cut off: it may get its line for that later."""
        if talk.was_crowded is None:
            # Whether there is a crowd is counted once in a turn, before any client is cut off.
            talk.begin_turn(self.judge.counts["turns"])
            talk.was_crowded = len(self.others(talk)) + 1 > CROWD and not talk.accepted and not talk.has_begun
