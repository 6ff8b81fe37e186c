"""The outcomes of attempts: which attempt has ended in a turn, by the replies that it has read or by the end of its
connection, and which lines of the log it must have.

A line of the log names its message, so an attempt that has ended before its message showed is known by its lines.
"""
import contextlib

from box_answer import require
from box_asks import is_held
from box_course import FAILED, LATER
from box_custody import PATIENCE
from box_log import attempts_of
from relay_program import Difference

EVENT_KINDS = {"sent": "sent", "failed": "failed", "deferred": "later", "delayed": "later", "expired": "later"}
# Mail on hold is recorded as tried after so many seconds.
OVERDUE = 14_400


def kind_of(told):
    """Returns what the log says of a report that tells of these actions by path (RFC 3464, 2.3.3): the worst of them.
    """
    actions = {action for each in told.values() for action in each}
    return next((kind for kind in ("failed", "delayed", "relayed") if kind in actions), None)


class Outcomes:
    """Records the outcomes of a judge's links in its custody."""

    def __init__(self, judge):
        self.judge, self.custody, self.closed = judge, judge.custody, set()

    def settle_attempts(self, answer):
        """Ends the attempts that have ended in this turn, by their replies and by the lines of the log."""
        told = attempts_of(answer.log)
        if not self.judge.ends_all:
            self.check_refused(answer, told)
        closed = self.closed = set(answer.closes)
        ended = [link for link in self.judge.links.values() if not link.is_settled
                 and (link.has_ended() or link.number in closed or link.is_at_end() or link.is_unseen())]
        # Lines that may be of several attempts are of one whose message is known, that has surely ended, or has begun.
        for link in sorted(ended, key=lambda link: (link.course.message is None,
                                                    not link.has_ended() and link.number not in closed,
                                                    link.began is None)):
            self.settle(link, told, link.number in closed)
        for one in told:
            if not one.is_taken and one.address:
                self.settle_unmade(one, answer)
            elif not one.is_taken:
                self.settle_unroutable(self.known(one), one)
        if self.judge.has_failed:
            self.doubt_unroutable()
            for address in answer.refused:
                self.doubt_all(address, LATER)
            for address in self.judge.paces.ends:
                if self.judge.paces.may_be_held(address, self.judge.now):
                    self.doubt_all(address, LATER, is_late=True)

    def settle(self, link, told, is_closed):
        """Ends an attempt, if it has ended."""
        one = self.told_of(link, told)
        if one is None and not link.has_ended() and not is_closed:
            return
        message = link.course.message
        link.is_settled = True
        if message:
            message.running.discard(link.hop)
        if one is not None:
            if not link.has_ended() and not link.is_at_end() and not one.is_lost() and (
                    not is_closed or self.judge.has_failed and link.is_unseen()):
                asked = link.course.places
                link.end_unseen(self.places_of(message, asked, one)[len(asked):] if asked else ())
            if message is None:
                message = self.known(one)
                # Another attempt that was taken to be for this message isn't.
                self.free(message, one.hop.encode())
            if message.number is None:
                self.custody.name(message, one.number)
            is_sure = sum(other.address == link.address for other in told if not other.is_taken) == 1
            one.is_taken = True
            self.conclude(message, link, one, is_sure)
        elif self.judge.has_failed:
            if message and link.is_unseen() and link.may_have_asked_all():
                # It may have ended, by replies to what isn't seen any more.
                with contextlib.suppress(Difference):
                    link.course.end_unseen()
            self.doubt(link)
        elif not self.judge.ends_all or link.has_ended():
            # A next hop may turn one connection away beside others, and one may fail that began before its next hop was
            # left alone: these have no outcome.
            may_fail = link.began is None and self.judge.paces.may_be_held(link.address, self.judge.now)
            is_shared = link.is_beside or self.is_shared(link.address, link)
            may_be_none = link.course.last is not FAILED and (may_fail or is_shared)
            is_none = may_be_none or link.address in self.judge.unrecorded
            link.require(link.course.mail_line == b"" and is_none,
                         f"an attempt for {message} has ended, and the log has no line for it")
        if message and link.began is not None and (link.course.is_closing or not link.has_ended()):
            message.cuts += 1

    def is_shared(self, address, link=None):
        """Returns whether there may be another connection to an address."""
        return any(one.address == address and one is not link for one in self.judge.links.values())

    def check_refused(self, answer, told):
        """Requires that a connection that was refused has an outcome, and that its next hop is left alone then, unless
        there are others."""
        held = {fields["addr"] for event, fields in answer.log if event == "hop-held"}
        logged = {one.address for one in told} | self.judge.unrecorded
        for address in answer.refused:
            require(address in logged or self.is_shared(address),
                    f"{address} refused a connection, and no line says so")
        for one in told:
            require("connection refused" not in one.reasons or one.address in held,
                    f"{one.address} refused a connection, and isn't left alone")

    def told_of(self, link, told):
        """Returns what the log tells of an attempt, by its message and address."""
        message = link.course.message
        rest = [one for one in told if one.address == link.address and not one.is_taken
                and not (one.is_unmade and not link.may_be_unmade())]
        is_closed = link.number in self.closed and not self.judge.has_failed
        if not message or message.number is None:
            rest = [one for one in rest if one.is_lost() != link.has_ended() or not (is_closed or one.is_lost())]
        if message:
            found = [(other, one) for other in self.alike(link) if other is message or not link.course.has_content
                     for one in rest if one.hop == link.hop.decode() and self.tells_of(one, other)]
            # An attempt that has ended by a reply isn't one whose connection failed, if there are lines of both.
            other, one = min(found, key=lambda both: both[1].is_lost() == link.has_ended(), default=(message, None))
            if other is not message:
                self.exchange(link, other)
            return one
        kinds = {link.verdicts()[1].kind}
        if link.is_unseen() and not link.is_at_end() and not is_closed:
            kinds = {"failed"} if link.may_be_unable() else set()
        found = [one for one in rest if one.is_lost() and link.number in self.closed
                 or all(EVENT_KINDS.get(event) in kinds for event, _ in one.lines)]
        if link.address in self.judge.unrecorded:
            # It may have no lines, and those be another link's.
            found = [one for one in found if self.may_have(one, link.began is not None)]
        # Of several the first that can't be of an attempt of the other kind, which may be another link's otherwise. A
        # connection that has ended isn't one on which the relay has waited for too long.
        has_begun = link.began is not None
        return min(found, key=lambda one: (not self.may_have(one, has_begun),
                                           one.is_lost() and ("timeout" in one.reasons) == link.is_at_end(),
                                           self.may_have(one, not has_begun)), default=None)

    def tells_of(self, told, message):
        """Returns whether lines are, or may be, of a message."""
        if message.number is not None:
            return told.number == message.number
        paths = {one.recipient.path for one in message.places}
        return told.number not in self.custody.numbered and all(path in paths for _, path in told.lines)

    def may_have(self, told, has_begun):
        """Returns whether an attempt may have these recipients: one that has begun is for a few of those that are due,
        and one that hasn't for all."""
        message = self.custody.numbered.get(told.number)
        if told.is_unmade and has_begun:
            return False
        if message is None or self.judge.went_back:
            return True
        there = [one for one in message.places if one.hop and one.hop[0] == told.hop.encode() and one.has_left is None]
        surely, count = sum(one.due_surely <= self.judge.wall for one in there), len(told.lines)
        return count <= self.judge.setup.keys["recipients_per_attempt"] if has_begun else count >= surely

    def known(self, told):
        """Returns the message of a number. One that is in doubt is known by the recipient that the log names."""
        message = self.custody.numbered.get(told.number)
        if message is None:
            path = told.lines[0][1]
            self.custody.settle_reports(path)
            fits = [one for one in self.custody.nameless if any(place.recipient.path == path for place in one.places)]
            require(fits, f"the log names message {told.number} for {path!r}, which isn't known")
            message = fits[0]
            self.custody.name(message, told.number)
        return message

    def conclude(self, message, link, told, is_sure=False, has_expired=False):
        """Records the outcome of an attempt by its lines of the log, which are surely of that link or may be."""
        verdicts, last = link.verdicts() if link else ([], LATER)
        places = self.places_of(message, [place for place, _ in verdicts], told)
        require(not (link and link.course.has_asked_all) or len(places) == len(verdicts),
                f"the log has {len(places)} recipients of {message}, and just {len(verdicts)} were asked for")
        if link and not link.course.places and places:
            link.hop = message.places[places[0]].hop[0]
            if link.began is not None and is_sure:
                link.check_places(message, places, True)
        if (link is None or link.began is None) and places:
            self.require_all(message, places)
        if not has_expired:
            self.require_free(message, link, places)
        for place in places:
            require(message.places[place].due <= self.judge.highest,
                    f"{message.places[place].recipient.path!r} of {message} isn't due before "
                    f"{message.places[place].due}, and was tried")
            self.custody.settle_queued(message, place)
        self.record(message, verdicts + [(place, last) for place in places[len(verdicts):]], told)

    def take_unrecorded(self, fields):
        """Requires a cause for an outcome that wasn't recorded. Memory doesn't run out here, so only a message that
        isn't due any more has none: the clock was set back; or it was withdrawn; or it was flushed, and isn't due yet,
        or another attempt for it was made."""
        message, hop = self.custody.numbered.get(int(fields["message"])), fields["hop"].encode()
        places = message.places if message else []
        there = [one for one in places if one.hop and one.hop[0] == hop and one.has_left is None]
        is_early = all(one.spool_due()[1] > self.judge.wall for one in there)
        links = [link for link in self.judge.links.values() if link.address == fields["addr"]]
        begun = [link for link in links if link.began is not None]
        may_be_void = message.may_be_void if message else any(one.may_be_void for one in self.custody.nameless)
        require(self.judge.went_back or may_be_void and (is_early or len(begun) > ("reason" not in fields)),
                f"an outcome wasn't recorded: {fields}")
        if message:
            message.doubt_flush(hop)

    def require_free(self, message, link, places):
        """Requires that recipients weren't held when their connection was opened, if their next hop has only one."""
        for hop in {message.places[place].hop for place in places} - {None}:
            held = [other.held for other in self.judge.links.values() if other.address == hop[1]] if link else []
            require(any(not is_held(one, message, hop) for one in held or [self.judge.asks.held]),
                    f"{message} was tried at {hop[0].decode()}, and is held")

    def require_all(self, message, places):
        """Requires that all recipients that are due at a next hop share the outcome of a connection that failed."""
        hop = message.places[places[0]].hop
        due = [place for place, one in enumerate(message.places)
               if one.hop == hop and one.has_left is None and one.due_surely <= self.judge.wall]
        is_sure = all(message.places[place].due == message.places[place].due_surely for place in due + places)
        require(places == due or not is_sure or self.judge.went_back or hop[0] in message.running,
                f"the recipients {due} of {message} were due, and the log has {places}")

    def record(self, message, verdicts, told):
        """Records verdicts, which must be those of the log."""
        found = [event for event, _ in told.lines]
        events, report = self.custody.outcome(message, verdicts, self.judge.wall, False, found)
        wanted = [event for _, event in events]
        require(found == wanted, f"the log says {found} of {message}, whose attempt gives {wanted}")
        for event in wanted:
            self.judge.counts[event] += 1
        message.doubt_flush(told.hop.encode())
        self.take_report(message, report, told.report)

    def take_report(self, message, report, fields):
        """Numbers the report that an outcome owes, which is the one that the log has after its lines."""
        if report is None:
            require(fields is None, f"the log has a report of {message}, which owes none")
            return
        require(fields, f"{message} owes a report of {report.told}, and none is logged")
        kind = kind_of(report.told)
        require(fields.get("kind") == kind, f"the report of {message} is {fields.get('kind')}, and not {kind}")
        self.custody.name(report, int(fields["message"]))
        self.judge.counts["reports"] += 1

    def places_of(self, message, asked, told):
        """Returns the places of an outcome: those that were asked for, and after them those that the log names."""
        places, address = [], told.address
        for index, (_, path) in enumerate(told.lines):
            if index < len(asked):
                place = asked[index]
            else:
                found = [place for place, one in enumerate(message.places)
                         if one.recipient.path == path and place not in places and one.has_left is None
                         and (one.hop[1] if one.hop else "") == address and (not places or place > places[-1])]
                # A path may be there more than once: one that is due is tried.
                place = min(found, key=lambda place: message.places[place].due > self.judge.highest, default=None)
            require(place is not None and message.places[place].recipient.path == path,
                    f"the log has {path!r} of {message}, which isn't tried at {address or 'no address'}")
            places.append(place)
        require(len(places) >= len(asked), f"the log has {len(places)} recipients of {message}, and {len(asked)} were "
                                           f"asked for at {address}")
        return places

    def settle_unmade(self, told, answer):
        """Records an outcome of no connection: a refused one, or mail whose next hop has been left alone for long."""
        message = self.known(told)
        refused = told.reasons == {"connection refused"} and told.address in answer.refused
        late = told.reasons == {"unreachable"} and self.is_late(message)
        expired = not told.reasons and self.is_over_held(message, told)
        require((refused or late or expired) and all(EVENT_KINDS[event] == "later" for event, _ in told.lines),
                f"the log says {told.lines} of {message} at {told.address}, where no attempt has ended")
        self.conclude(message, None, told, has_expired=expired)

    def is_over_held(self, message, told):
        """Returns whether recipients that are held have expired, as mail does that isn't: without a connection, and
        without a reason."""
        hops = {one.hop for one in message.places if one.hop and one.hop[0] == told.hop.encode()}
        return (message.at + PATIENCE <= self.judge.wall and {event for event, _ in told.lines} == {"expired"}
                and any(is_held(self.judge.asks.held, message, hop) for hop in hops))

    def settle_unroutable(self, message, told):
        """Records that recipients without a route were given up."""
        places = self.places_of(message, [], told)
        require({event for event, _ in told.lines} == {"no-route"}, f"{message} without an address: {told.lines}")
        _, report = self.custody.outcome(message, [(place, FAILED) for place in places], self.judge.wall, False)
        self.take_report(message, report, told.report)

    def doubt(self, link):
        """Notes an attempt that has ended while the device failed: nobody knows whether its outcome was recorded."""
        message, (verdicts, last) = link.course.message, link.verdicts()
        if message is None:
            self.doubt_all(link.address, FAILED if link.is_unseen() and link.may_be_unable() else last)
            return
        others = [] if link.course.has_content else self.alike(link)[1:]
        for one in [message] + [other for other in others if link.hop not in other.running]:
            places = link.course.places if one is message else link.places_in(one)
            rest = [place for place in link.due_places(one, link.hop) if place not in places]
            if last is FAILED and rest:
                self.custody.doubt_each(one, places + rest, self.judge.wall)
            else:
                found = [(place, verdict) for place, (_, verdict) in zip(places, verdicts)]
                self.custody.outcome(one, found, self.judge.wall, True)

    def doubt_unroutable(self):
        """Notes that mail without a next hop may have been given up."""
        for message in dict.fromkeys(message for message, _ in self.custody.queued):
            places = [place for place, one in enumerate(message.places)
                      if one.hop is None and one.has_left is None and one.doubt is None]
            if places:
                self.custody.outcome(message, [(place, FAILED) for place in places], self.judge.wall, True)

    def is_late(self, message):
        """Returns whether a place of a message has been due for so long that each next hop on hold counts as tried."""
        return any(one.has_left is None and one.spool_due()[0] + OVERDUE < self.judge.wall for one in message.places)

    def doubt_all(self, address, last, is_late=False):
        """Notes that an attempt for any of the mail at an address, or of what is late there, may have ended with this
        verdict."""
        maybe = (one for one in self.custody.nameless if one.doubt)
        for other in dict.fromkeys([*(message for message, _ in self.custody.queued), *maybe]):
            if is_late and not self.is_late(other):
                continue
            hops = (one.hop for one in other.places if one.hop and one.hop[1] == address)
            for hop in dict.fromkeys(hops):
                places = [place for place, one in enumerate(other.places)
                          if one.hop == hop and one.has_left is None and one.doubt is None
                          and one.due <= self.judge.highest]
                if last is FAILED:
                    self.custody.doubt_each(other, places, self.judge.wall)
                else:
                    self.custody.outcome(other, [(place, last) for place in places], self.judge.wall, True)

    def chosen(self, found):
        """Returns the first of several messages and places that a line of RCPT may be of."""
        return min(found, key=lambda one: (one[0].doubt is not None or one[0].places[one[1]].doubt is not None,
                                           one[0].number or 1 << 63, one[1]))

    def holder(self, message, hop):
        """Returns the attempt that runs for a message at a next hop, or None."""
        return next((link for link in self.judge.links.values() if link.course.message is message and link.hop == hop
                     and not link.is_settled), None)

    def may_be(self, link, other):
        """Returns whether an attempt may be for another message, and the attempt for that one for its own."""
        if link.places_in(other) is None:
            return False
        holder = self.holder(other, link.hop)
        return holder is None or not holder.course.has_content and holder.places_in(link.course.message) is not None

    def alike(self, link):
        """Returns the message of an attempt, and those that it may be for as well by the lines so far, before its text
        is known: reports to one sender, or messages with the same paths."""
        message = link.course.message
        found = self.custody.find(link.course.lines[0], lambda other, _: other is not message
                                  and self.may_be(link, other))
        return [message, *dict.fromkeys(other for other, _ in found)]

    def exchange(self, link, other):
        """Notes that an attempt is for another message than it seemed, and one that was taken for that one isn't."""
        message, holder = link.course.message, self.holder(other, link.hop)
        if holder:
            holder.take_message(message)
        else:
            message.running.discard(link.hop)
            other.running.add(link.hop)
        link.take_message(other)

    def free(self, message, hop):
        """Takes another message for that of the attempt which was taken for this one, if it may be. Returns whether it
        may."""
        link = self.holder(message, hop)
        if link and not link.course.has_content:
            for other in self.alike(link)[1:]:
                if hop not in other.running:
                    self.exchange(link, other)
                    return True
        return False

    def choose_again(self, link):
        """Takes another message for that of an attempt, if one has its lines so far. Returns whether one has."""
        others = self.alike(link)[1:]
        if others:
            self.exchange(link, others[0])
        return bool(others)
