"""What a postmaster asks of a relay in a box, as by its control socket: whether the answers are those of relayd(8), and
which mail is held, or flushed."""
import collections

from box_answer import require
from box_clients import date_of
from box_custody import PATIENCE
from box_setup import Setup
from box_withdrawals import Withdrawals

NO_ROUTE, NOT_HELD = "error no route has this next hop", "error it isn't held"
UNWRITTEN = "the file of held mail can't be written"
STILL_EXPIRES = "mail still expires 5 days after it was accepted"
WAITS_ALREADY = "error another reload waits"
# How long after it was asked for a reload takes effect at the latest, and all sessions are ended, in milliseconds.
RELOAD_TIME, SESSION_TIME = 60_000, 59_000
# How many connections to next hops may keep one from an address that hasn't answered.
MOST_UNANSWERED = 48


def lines_of(octets):
    """Returns the lines of an answer: before each but the last one stands a space."""
    require(octets.endswith(b"\n"), f"an answer doesn't end with a line end: {octets!r}")
    lines = octets.decode("ascii").split("\n")[:-1]
    require(all(line.startswith(" ") for line in lines[:-1]) and not lines[-1].startswith(" "),
            f"an answer has a space where none must be, or none: {octets!r}")
    return [line[1:] for line in lines[:-1]] + lines[-1:]


def is_held(held, message, hop):
    """Returns whether the mail of a message for a next hop is held by these scopes."""
    return f"hop {hop[0].decode()}" in held or f"message {message.number}" in held


def is_asked(scope, message, hop):
    """Returns whether the mail of a message for a next hop is of a scope; all is of an empty one."""
    return not scope or is_held({scope}, message, hop)


class Asks:
    """What was asked of a judge's relay."""

    def __init__(self, judge):
        # What is held, as requests name it; whether the file of that can be written; and which addresses must be tried
        # in the next turn.
        self.judge, self.held, self.keeps, self.awaited = judge, frozenset(), True, set()
        # How many connections to each address may be opened for flushed mail that has left, or isn't due any more.
        self.spares = collections.Counter()
        # The text of the configuration's file; the one of the reload that waits, and when that was asked for.
        self.text, self.next_text, self.asked_at = None, None, 0

    def begin(self):
        """Begins with a relay that is started: it holds nothing, and has read the file."""
        self.held, self.awaited, self.next_text = frozenset(), set(), None
        self.judge.reconfigure(Setup(self.text))

    def is_reloading(self):
        return self.next_text is not None

    def forget(self):
        """Begins anew, since the spool is opened again: what is held stays, and what was flushed isn't any more."""
        self.awaited, self.spares = set(), collections.Counter()
        self.judge.custody.forget_flushes()

    def may_be(self, scope, message):
        """Returns whether a scope may be a message whose number isn't known."""
        word, _, number = scope.partition(" ")
        return message.number is None and word == "message" and int(number) not in self.judge.custody.numbered

    def may_hold(self, message):
        """Returns whether a message whose number isn't known may be held by that."""
        return any(self.may_be(scope, message) for scope in self.held)

    def holds(self, message, place):
        hop = message.places[place].hop
        return hop is not None and is_held(self.held, message, hop)

    def take(self, request, answer):
        """Compares the answer to a request, and its line of the log, with what they must be."""
        told = [fields["request"] for event, fields in answer.log if event == "control"]
        require(told == [request], f"`{request}` was asked for, and the log has {told}")
        verb, _, scope = request.partition(" ")
        lines = None if answer.reply is None else lines_of(answer.reply)
        if verb in ("return", "discard"):
            Withdrawals(self.judge).take(verb, scope, lines, answer.log)
        else:
            self.TAKES[verb](self, scope, lines)

    def places(self):
        """Returns all messages and places that are queued, or may be, each with whether it surely is."""
        custody = self.judge.custody
        for message, place in custody.queued:
            yield message, place, not message.doubt and not message.places[place].doubt
        for message in custody.nameless:
            if message.doubt:
                for place in range(len(message.places)):
                    yield message, place, False

    def is_there(self, scope):
        """Returns whether the mail of a scope is there: a route leads to the next hop, or the message is queued. None
        if that isn't known."""
        word, _, name = scope.partition(" ")
        if word == "hop":
            return name.encode() in {hop for hop, _ in self.judge.setup.routes.values()}
        message = self.judge.custody.numbered.get(int(name))
        if message is None:
            return None if self.judge.custody.nameless else False
        if any((message, place) in self.judge.custody.queued and one.doubt is None
               for place, one in enumerate(message.places)):
            return True
        return None if any(one.has_left is None for one in message.places) else False

    def is_missing(self, scope, lines):
        """Returns whether an answer says that the mail of a scope isn't there, which it must be otherwise."""
        word, _, name = scope.partition(" ")
        says = lines == [NO_ROUTE if word == "hop" else f"error message {name} isn't queued"]
        there = self.is_there(scope)
        require(there is None or there != says, f"the mail of `{scope}` is there: {there}, and the answer is {lines}")
        return says

    def take_hold(self, scope, lines):
        if self.is_missing(scope, lines):
            return
        if not self.keeps:
            require(lines == [f"error {UNWRITTEN}"], f"`{scope}` can't be held in the file, and the answer is {lines}")
            return
        word, _, name = scope.partition(" ")
        until = STILL_EXPIRES
        if word == "message":
            message = self.judge.custody.numbered.get(int(name))
            until = message and f"it still expires, on {date_of(message.at + PATIENCE).decode()}"
        front = "held before; " if scope in self.held else "held; "
        require(lines[1:] == ["ok"] and (lines[0] == f"{front}{until}" or not until and lines[0].startswith(front)),
                f"`{scope}` is held until {until}, and the answer is {lines}")
        self.held |= {scope}
        self.judge.counts["held"] += 1
        for message, place, _ in self.places():
            if self.holds(message, place):
                # What was flushed before may not be listed any more.
                message.places[place].doubt_flush()
                self.awaited.discard(message.places[place].hop[1])

    def take_release(self, scope, lines):
        if scope not in self.held:
            require(lines == [NOT_HELD], f"`{scope}` isn't held, and the answer is {lines}")
            return
        wanted = ["released", "ok"] if self.keeps else [f"error released until the relay restarts: {UNWRITTEN}"]
        require(lines == wanted, f"`{scope}` is released, and the answer is {lines}")
        self.held -= {scope}
        self.judge.counts["released"] += 1

    def take_flush(self, scope, lines):
        if scope and self.is_missing(scope, lines):
            return
        judge = self.judge
        found = [(message, place, is_sure) for message, place, is_sure in self.places()
                 if message.places[place].hop and not self.holds(message, place)
                 and (is_asked(scope, message, message.places[place].hop) or self.may_be(scope, message))]
        found = [(message, place, is_sure and message.number is not None) for message, place, is_sure in found]
        least = sum(is_sure for _, _, is_sure in found)
        front, _, count = lines[0].partition("=")
        require(lines[1:] == ["ok"] and front == "flushed recipients" and count.isdigit()
                and least <= int(count) <= len(found),
                f"`{scope}` has {least} to {len(found)} recipients to flush, and the answer is {lines}")
        judge.counts["flushed"] += int(count)
        busy = {link.address for link in judge.links.values()}
        self.spares.update(hop[1] for _, hop in {(message, message.places[place].hop) for message, place, _ in found})
        for message, place, is_sure in found:
            address = message.places[place].hop[1]
            is_sure = is_sure and address not in busy
            message.may_be_void = True
            message.places[place].flush(is_sure)
            judge.paces.probe(address, judge.now)
            if is_sure:
                self.awaited.add(address)

    def takes_spare(self, address):
        """Returns whether a connection to an address may be for mail that was flushed or withdrawn. Mail that was listed
        already when it was flushed is tried twice: the second connection finds nothing to be done."""
        if self.spares[address] <= 0:
            return False
        self.spares[address] -= 1
        return True

    def check_tried(self, answer):
        """Requires, after a turn, that a connection was opened to each address at which mail was flushed before it, and
        to which none was open."""
        judge = self.judge
        tried = {*(address for _, address in answer.dials), *answer.refused}
        may_begin = not judge.ends_all and not judge.waits.is_tight and not self.is_reloading()
        if may_begin and len(judge.links) < MOST_UNANSWERED:
            require(self.awaited <= tried, f"mail for {sorted(self.awaited - tried)} was flushed, and isn't tried")
        self.awaited = set()

    def take_reload(self, _, lines):
        if self.is_reloading():
            require(lines == [WAITS_ALREADY], f"another reload waits, and the answer is {lines}")
            return
        wanted = self.judge.setup.refusal(self.text)
        require(lines == (wanted and [f"error {wanted}"]), f"a reload must get {wanted}, and the answer is {lines}")
        if wanted is None:
            self.next_text, self.asked_at = self.text, self.judge.now
            self.judge.counts["reloads"] += 1

    def has_time(self):
        """Returns whether a reload may wait still."""
        return self.judge.now < self.asked_at + RELOAD_TIME

    def cuts_all(self, answer):
        """Returns whether a reload has taken effect because its time was over: what was still open is closed then."""
        return self.is_reloading() and not answer.is_reloading and not self.has_time()

    def may_cut(self, talk):
        """Returns whether a client may be cut off since a reload waits: it is in no mail transaction, or it is late."""
        is_between = not talk.expected and (not talk.dialogue.in_transaction() or talk.dialogue.skips())
        return self.is_reloading() and (self.judge.now >= self.asked_at + SESSION_TIME or is_between
                                        or talk.told_in == self.judge.counts["turns"])

    def settle_reload(self, answer):
        """Requires, after a turn or a request, that a reload takes effect when no session, no attempt and no connection
        is left, or a minute is over, and not before."""
        judge = self.judge
        if not self.is_reloading():
            require(not answer.is_reloading, "a reload waits that wasn't asked for")
            return
        is_open = bool(judge.links) or any(talk.came_in is not None for talk in judge.talks.values())
        if answer.is_reloading:
            require(judge.ends_all or is_open and self.has_time(), "a reload waits, and nothing is left to wait for")
            has_session = any(talk.is_served() for talk in judge.talks.values())
            until = self.asked_at + (SESSION_TIME if has_session else RELOAD_TIME)
            require(not answer.wait or judge.now + answer.wait <= until,
                    f"the relay waits {answer.wait} ms, and a reload takes effect before")
            return
        require(not is_open, f"a reload has taken effect while connections are open: {[*judge.links]}")
        judge.forget_hops()
        judge.reconfigure(Setup(self.next_text))
        self.next_text = None

    TAKES = {"reload": take_reload, "hold": take_hold, "release": take_release, "flush": take_flush}
