"""What a relay in a box must have done before it waits, and how long it may wait at most: for connections, for headers
of balancers, and for mail that becomes due."""
from box_answer import require
from box_arrivals import MOST_HEADERS

# In milliseconds, how long after due mail was looked for it is looked for again, and how often at least.
LISTING_PAUSE, LOOK_PAUSE = 1_000, 60_000
# How many connections to next hops may keep one from an address that hasn't answered; octets that are room enough.
MOST_UNANSWERED, AMPLE = 48, 100_000_000


class Waits:
    """What a judge requires of a relay that waits."""

    def __init__(self, judge):
        # Whether the relay may begin no attempt because it has too little room.
        self.judge, self.is_tight = judge, False
        self.forget()

    def forget(self):
        """Begins anew, since the relay is started, or its spool is opened: by when due mail at an address must be
        tried, and whether the relay surely knew before the turn what becomes due next."""
        self.limits, self.knows_next = {}, False

    def note_room(self, count):
        """Notes how much room there is. The relay finds out later, so that it may be short for the rest of the day."""
        self.is_tight = self.is_tight or count < AMPLE

    def check(self, wait):
        """Requires that what could be done was done, after a turn that ends with this wait."""
        judge = self.judge
        is_crowded = judge.sessions.are_surely_crowded()
        judge.counts["turns in a crowd"] += is_crowded
        for talk in judge.talks.values():
            if talk.has_come():
                self.check_client(talk)
                if judge.asks.is_reloading():
                    self.check_retiring(talk)
            self.check_end(talk, wait, is_crowded)
        require(len(judge.arrivals) <= MOST_HEADERS, f"{len(judge.arrivals)} headers are waited for")
        if not judge.asks.is_reloading():
            for arrival in judge.arrivals.values():
                arrival.check(judge, wait)
        for link in judge.links.values():
            link.require(link.room is not None or link.is_reset or not link.course.owes(),
                         f"it waits, and must write {link.course.expected[:80]!r} or a command to a next hop")
            self.check_end(link, wait, False)
        if not self.is_tight and not judge.went_back and not judge.asks.is_reloading():
            self.check_due(wait)

    def check_retiring(self, talk):
        """Requires that a client has no session any more between mail transactions, while a reload waits."""
        talk.require(not talk.is_served() or talk.room is not None or talk.dialogue.in_transaction(),
                     "it is in no mail transaction, a reload waits, and so does the relay")

    def check_client(self, talk):
        """Requires that a client has its replies, and that its commands are read."""
        if talk.room is None and not talk.is_reset:
            talk.require(not talk.owes(), f"it is owed {talk.expected and talk.expected[0]!r}, and the relay waits")
            # What was there when it was greeted makes it ready for the next turn.
            talk.require(not (talk.unread and talk.is_served() and talk.greeted_in < self.judge.counts["turns"]),
                         "what it has sent isn't read, and the relay waits")

    def check_end(self, stream, wait, is_crowded):
        """Requires that a connection that is over is closed, and that the relay waits no longer than it may stay."""
        end, now = stream.deadline(is_crowded), self.judge.now
        if stream.is_closed or not stream.has_come():
            return
        stream.require(not stream.is_left(self.judge.counts["turns"]) and not (stream.is_shut and now >= end),
                       "it is over, and still there")
        if end is not None:
            stream.require(now < end, f"it is {stream.SILENCE} since {stream.active}, and still there")
            stream.require(now + wait <= end, f"the relay waits until {now + wait}, and it ends at {end}")

    def check_due(self, wait):
        """Requires that mail at an address to which nothing is open, and which isn't left alone, is tried when it is
        due, and that the relay waits no longer than until then. While it connects, while other mail is due, and after
        its clock was set, it looks only once a minute."""
        judge, due, is_quiet = self.judge, {}, not self.judge.was_set
        busy = {link.address for link in judge.links.values()}
        for message, place in judge.custody.queued:
            one = message.places[place]
            if judge.asks.holds(message, place) or judge.asks.may_hold(message):
                is_quiet = False
                continue
            if one.unflushed:
                is_quiet = False
            if message.doubt or one.hop is None or not one.is_sure():
                is_quiet = False
                continue
            address = one.hop[1]
            if address not in busy and not judge.paces.may_be_held(address, judge.now):
                due[address] = min(one.due_surely, due.get(address, one.due_surely))
            elif one.due_surely <= judge.wall:
                is_quiet = False
        is_quiet = is_quiet and all(link.is_connected for link in judge.links.values())
        if len(judge.links) >= MOST_UNANSWERED:
            due = {}
        is_quiet = is_quiet and min(due.values(), default=0) > judge.wall
        self.check_each(due, wait, 0 if is_quiet else LOOK_PAUSE)
        self.knows_next = is_quiet

    def check_each(self, due, wait, slack):
        """Requires the same of the mail of each address, which is due at a time, and may be tried so much later."""
        judge, limits = self.judge, {}
        for address, at in due.items():
            if at > judge.wall:
                most = (at - judge.wall) * 1_000 + slack
            else:
                limit = judge.now + LISTING_PAUSE + (0 if self.knows_next and not judge.was_set else LOOK_PAUSE)
                limits[address] = self.limits.get(address, limit)
                most = limits[address] - judge.now
                require(most > 0, f"mail for {address} is due since {at}, and isn't tried")
            require(wait <= most, f"the relay waits {wait} ms, and mail for {address} is due in {most} ms")
        self.limits = limits
