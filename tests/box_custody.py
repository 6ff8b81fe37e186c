"""Which mail a relay must have queued, by what it acknowledged, by the courses of its attempts, and by the definitions
of custody, due times and reports (relay_book/specs).

A change of which nobody knows whether it was recorded, since the device failed or a reply wasn't written, is in doubt:
it has happened as a whole, or not at all, as soon as one of its effects shows.
"""
from box_envelope import Mail, Recipient
from relay_program import Difference

# In seconds: how long a recipient is tried, after how long it is late, and how long it waits after being deferred.
PATIENCE, LATENESS, FIRST_WAIT, LONGEST_WAIT = 432_000, 14_400, 1_800, 14_400


def wants(notify, word, default):
    """Returns whether NOTIFY asks for reports of this outcome."""
    return default if notify is None else word in notify


def wait_after(laters):
    """Returns how long a recipient waits after it was deferred so often."""
    return min(FIRST_WAIT << (laters - 1), LONGEST_WAIT)


class Place:
    """A recipient of a message: where it goes, and what is known of it. From `due` on it may be tried; `due_surely` is
    later if it isn't known whether it was deferred."""

    def __init__(self, recipient, hop, at):
        self.recipient, self.hop, self.due, self.due_surely = recipient, hop, at, at
        self.is_delayed, self.has_left, self.doubt, self.delay_doubt = False, None, None, False
        # How often it was deferred, and how often at most, if that is in doubt.
        self.laters = self.laters_at_most = 0
        # When it was due and surely due before it was flushed, and how often it may be tried before that.
        self.unflushed, self.tries = None, 0

    def defer(self, at):
        """Lets it be due again, after it was deferred once more."""
        tries = self.tries if self.unflushed and self.unflushed[0] <= at else self.tries - 1
        self.forget_flush()
        self.laters, self.laters_at_most = self.laters + 1, self.laters_at_most + 1
        self.due, self.due_surely = at + wait_after(self.laters), at + wait_after(self.laters_at_most)
        if tries > 0:
            # If it was due when it was flushed, the attempt for that may come after the one that it had anyway.
            self.flush(False, tries)

    def doubt_deferral(self, at):
        """Notes that it may have been deferred once more."""
        self.forget_flush()
        self.laters_at_most += 1
        self.due = min(self.due, at + wait_after(self.laters + 1))
        self.due_surely = max(self.due_surely, at + wait_after(self.laters_at_most))


    def flush(self, is_sure, tries=1):
        """Lets it be due at once, so often more, or notes that it may be."""
        self.unflushed, self.tries = self.unflushed or (self.due, self.due_surely), self.tries + tries
        self.due, self.due_surely = 0, 0 if is_sure else self.due_surely

    def doubt_flush(self):
        """Notes that it may be due only as if it hadn't been flushed."""
        if self.unflushed:
            self.due_surely = self.unflushed[1]

    def forget_flush(self):
        """Lets it be due as if it hadn't been flushed."""
        if self.unflushed:
            self.due, self.due_surely = self.unflushed
            self.unflushed, self.tries = None, 0

    def spool_due(self):
        """Returns from when on it may be due by the spool, flushed or not, and surely is."""
        return self.unflushed or (self.due, self.due_surely)

    def is_sure(self):
        """Returns whether it is known when it is due by the spool."""
        due, surely = self.spool_due()
        return self.doubt is None and due == surely


class Message:
    """A message: from a client, or a report. Its number and its text are None until they are known."""

    def __init__(self, setup, mail, recipients, at):
        self.setup, self.mail, self.at, self.number, self.text = setup, mail, at, None, None
        self.places = [Place(one, setup.hop_of_path(one.path), at) for one in recipients]
        self.running, self.cuts, self.doubt, self.is_logged, self.may_be_void = set(), 0, None, False, False
        # What a report tells of, by path; and of which message; and whether a postmaster has returned that.
        self.told, self.of, self.tells_of_return = None, None, False
        # Of which others it may tell, if it was in doubt which report it is.
        self.may_tell = []

    def doubt_flush(self, hop):
        """Notes that what is left at a next hop may not be tried at once, since an attempt for some of it was made."""
        for one in self.places:
            if one.hop and one.hop[0] == hop:
                one.doubt_flush()

    def is_report(self):
        return self.told is not None

    def set_number(self, number):
        self.number = number

    def set_time(self, at):
        """Sets when it was accepted."""
        self.at = at
        for one in self.places:
            one.due = one.due_surely = at

    def __str__(self):
        return f"message {self.number or 'without a number'} from {self.mail.path.decode('latin-1')}"


class Change:
    """A change in doubt: what it does if it has happened, and if it hasn't."""

    def __init__(self, happens, fails=lambda: None, told=None):
        # What the report tells of that it owes, if it has happened.
        self.happens, self.fails, self.is_settled, self.told = happens, fails, False, told

    def settle(self, has_happened):
        if not self.is_settled:
            self.is_settled = True
            (self.happens if has_happened else self.fails)()


class Custody:
    """All messages of a day, by number and by the lines of their recipients."""

    def __init__(self, setup):
        self.setup, self.numbered, self.nameless, self.by_line, self.next = setup, {}, [], {}, 1
        # What is surely queued: messages and places, in the order in which they were added, so that a script is judged
        # alike each time.
        self.queued = {}

    def add(self, message, doubt=False):
        """Adds a message, which is queued, or may be."""
        for place, one in enumerate(message.places):
            for line in {one.recipient.line(False), one.recipient.line(True)}:
                self.by_line.setdefault(line, []).append((message, place))
        self.nameless.append(message)
        if doubt:
            message.doubt = Change(lambda: self.confirm(message), lambda: self.forget(message))
        else:
            self.confirm(message)

    def reconfigure(self, setup):
        """Lets all mail have the next hops of another configuration."""
        self.setup = setup
        for message in dict.fromkeys([*self.numbered.values(), *self.nameless]):
            message.setup = setup
            for place, one in enumerate(message.places):
                one.hop = setup.hop_of_path(one.recipient.path)
                if one.hop and one.has_left is None and not message.doubt:
                    self.queued[message, place] = True

    def forget_flushes(self):
        """Lets all mail be due as if none had been flushed."""
        for message in {*(message for message, _ in self.queued), *self.nameless}:
            for one in message.places:
                one.forget_flush()

    def confirm(self, message):
        message.doubt = None
        self.queued.update(((message, place), True) for place in range(len(message.places)))

    def forget(self, message):
        """Drops a message that was never accepted."""
        self.nameless.remove(message)
        for place, one in enumerate(message.places):
            for line in {one.recipient.line(False), one.recipient.line(True)}:
                self.by_line[line].remove((message, place))

    def name(self, message, number):
        """Gives a message its number, which no other has."""
        if message.doubt:
            message.may_tell += [(one.told, one.of) for one in self.nameless if one.is_report() and one.doubt
                                 and one.places[0].recipient.path == message.places[0].recipient.path]
            message.doubt.settle(True)
        if message.number == number:
            return
        if message.number is not None or number in self.numbered:
            raise Difference(f"{message} has the number {number}, which is another one's")
        message.set_number(number)
        self.numbered[number] = message
        self.nameless.remove(message)

    def outcome(self, message, verdicts, at, doubt, logged=()):
        """Records the verdicts of an attempt that has ended: a place and a verdict each. Returns the event of each, and
        the report that is surely owed. Where it isn't known whether a place was reported as delayed, the events that
        were logged tell."""
        effects, told, events = [], {}, []
        for index, (place, verdict) in enumerate(verdicts):
            one = message.places[place]
            if one.delay_doubt and list(logged[index:index + 1]) == ["deferred"]:
                one.is_delayed = True
            effects.append((place, verdict, self.effect(message, place, verdict, at, told, events)))
        if doubt:
            change = Change(lambda: self.happen(message, effects, told, at),
                            lambda: self.stay(message, effects), told)
            for place, _, leaves in effects:
                one = message.places[place]
                one.doubt = change if leaves else one.doubt
                one.delay_doubt = one.delay_doubt or "delayed" in told.get(one.recipient.path, ())
                one.doubt_deferral(at)
            if not any(leaves for _, _, leaves in effects) and told:
                self.report(message, told, at, True)
            return events, None
        return events, self.happen(message, effects, told, at)

    def doubt_each(self, message, places, at):
        """Notes that some of these places may have failed, and that a report may tell of these."""
        for place in places:
            one = message.places[place]
            if one.doubt is None:
                one.doubt = Change(lambda place=place: self.leave(message, place, "ended"),
                                   lambda place=place: self.stay(message, [(place, None, None)]))
        if message.mail.path != b"<>" and places:
            self.report(message, {message.places[place].recipient.path: [] for place in places}, at, True)

    def doubt_leaving(self, message, places):
        """Notes that these places may have left, of which nobody is told."""
        effects = [(place, None, "withdrawn") for place in places]
        change = Change(lambda: [self.leave(message, place, way) for place, _, way in effects],
                        lambda: self.stay(message, effects))
        for place in places:
            message.places[place].doubt = change

    def leave(self, message, place, way):
        message.places[place].has_left, message.places[place].doubt = way, None
        self.queued.pop((message, place), None)

    def effect(self, message, place, verdict, at, told, events):
        """Notes the event of a place and the report of it, and returns how it leaves, if it does."""
        one, path = message.places[place], message.places[place].recipient.path
        notify, age = one.recipient.notify, at - message.at
        action, leaves, event = None, None, "deferred"
        if verdict.kind == "sent":
            leaves, event = "relayed", "sent"
            action = "relayed" if not verdict.has_dsn and wants(notify, b"SUCCESS", False) else None
        elif verdict.kind == "failed" or age >= PATIENCE:
            leaves, event = "ended", "failed" if verdict.kind == "failed" else "expired"
            action = "failed" if wants(notify, b"FAILURE", True) else None
        elif age >= LATENESS and wants(notify, b"DELAY", False) and not one.is_delayed:
            action = "delayed"
        if message.mail.path == b"<>":
            action = None
        if action:
            told.setdefault(path, []).append(action)
        events.append((place, "delayed" if action == "delayed" else event))
        return leaves

    def happen(self, message, effects, told, at):
        """Lets recipients leave, or be due again later, and queues the report that is owed. Returns it, or None."""
        for place, _, leaves in effects:
            one = message.places[place]
            one.doubt = None
            if leaves:
                self.leave(message, place, leaves)
            else:
                one.defer(at)
                one.is_delayed = one.is_delayed or "delayed" in told.get(one.recipient.path, ())
        return self.report(message, told, at, False) if told else None

    def stay(self, message, effects):
        for place, _, _ in effects:
            message.places[place].doubt = None

    def report(self, message, told, at, doubt):
        """Queues the report of an outcome, and returns it."""
        report = Message(self.setup, Mail(b"<>", None, None), [Recipient(message.mail.path)], at)
        report.told, report.of = told, message
        self.add(report, doubt)
        if report.places[0].hop is None:
            self.queued.pop((report, 0), None)
        return report

    def find(self, line, fits):
        """Returns the messages and places with this line of RCPT that fit."""
        return [(message, place) for message, place in self.by_line.get(line, ()) if fits(message, place)]

    def settle_queued(self, message, place):
        """Notes that a place is queued now."""
        if message.doubt:
            message.doubt.settle(True)
        if message.places[place].doubt:
            message.places[place].doubt.settle(False)

    def listed(self, lines, next_number):
        """Compares what is queued with what the relay lists: the number, the place and the path of each."""
        found, known = set(), {*self.numbered.values()}
        # Numbers that aren't known come last: what has left of the other messages may owe a report, which has one of
        # them.
        for number, place, path in sorted(lines, key=lambda line: line[0] not in self.numbered):
            message = self.numbered.get(number)
            if message is None:
                self.settle_places(found, known)
                message = self.nameless_for(number, place, path)
            self.require(place < len(message.places) and message.places[place].recipient.path == path,
                         f"{path!r} is queued as recipient {place} of {message}, which has no such recipient")
            self.require(number < next_number, f"message {number} is queued, and the next number is {next_number}")
            found.add((message, place))
        self.require(len(found) == len(lines), "a recipient is queued twice")
        self.require(next_number >= self.next, f"the next number was {self.next}, and is {next_number}")
        self.next = next_number
        self.settle_doubts(found)
        for message, place in found - self.queued.keys():
            one = message.places[place]
            self.require(one.hop is None and one.has_left is None,
                         f"{one.recipient.path!r} of {message} is queued, and has left: {one.has_left}")
        for message, place in self.queued.keys() - found:
            raise Difference(f"{message.places[place].recipient.path!r} of {message} isn't queued, and hasn't left")

    def nameless_for(self, number, place, path):
        """Returns the message without a number that a listed recipient is of."""
        self.settle_reports(path)
        fits = [one for one in self.nameless if place < len(one.places) and one.places[place].recipient.path == path]
        self.require(fits, f"message {number} is queued for {path!r}, which no client sent and no report is for")
        message = min(fits, key=lambda one: one.doubt is not None)
        self.name(message, number)
        return message

    def settle_doubts(self, found):
        """Decides of each change in doubt, by what is queued, whether it has happened."""
        self.settle_places(found, {message for message, _ in self.queued})
        for message in [one for one in self.nameless if one.doubt]:
            message.doubt.settle(False)

    def settle_places(self, found, messages):
        """Decides the same of each change of recipients of these messages."""
        for message, place in list(self.queued):
            change = message.places[place].doubt
            if change and message in messages:
                change.settle((message, place) not in found)

    def settle_reports(self, path):
        """Decides, if no report to a path is there, that a change in doubt has happened which owes one."""
        if not any(one.is_report() and one.places[0].recipient.path == path for one in self.nameless):
            for message, place in list(self.queued):
                if message.mail.path == path and message.places[place].doubt:
                    message.places[place].doubt.settle(True)

    def may_owe(self, path):
        """Returns whether a change in doubt may owe a report to a path."""
        return any(message.mail.path == path and message.places[place].doubt for message, place in self.queued)

    def report_in_doubt(self, path, fits):
        """Returns the report to a path that is owed by a change in doubt, if what it tells of fits: it has happened."""
        for message, place in list(self.queued):
            change = message.places[place].doubt
            if change and message.mail.path == path and change.told and fits(change.told, message):
                change.settle(True)
                return self.nameless[-1]
        return None

    def require(self, holds, what):
        if not holds:
            raise Difference(what)
