"""A client's stream of a relay in a box, and whether the relay answers as the reply table says."""
import collections
import datetime
import functools
import itertools

from box_custody import Message
from box_dialogue import Dialogue, Offer
from relay_program import Difference

CRLF = b"\r\n"
# The sessions at a time; more than these, and a client that is idle has less time; how long a session lasts without
# accepted mail; how long a connection is read after the last reply.
MOST_SESSIONS, CROWD, CROWDED_TIMEOUT, LONGEST_SESSION, LEAVING = 64, 48, 10_000, 1_800_000, 1_000
FULL = b"452 spool full\r\n"
# Replies that show which command they answer (relayd(8), The log).
REFUSED = {b"550 no route": "rcpt", b"553 routed address refused": "rcpt", b"452 too many recipients": "rcpt",
           b"500 unknown command": "unknown"}


class Stream:
    """One connection: what the script has given it, and what the relay did with that."""

    def __init__(self, number, address, now):
        self.number, self.address, self.unread, self.room = number, address, b"", None
        self.has_end = self.is_reset = self.is_shut = self.is_closed = False
        self.opened = self.active = self.base = self.idle_since = self.quiet_since = self.written = now
        # Whether something was read since the last write; whether the relay was stopped, or all connections ended.
        self.has_heard = self.is_ended = False
        self.turn = self.read_in = self.wrote_in = 0

    def require(self, holds, what):
        if not holds:
            raise Difference(f"stream {self.number}, {self.address}: {what}")

    def begin_turn(self, turn):
        """Notes, once a turn, since when the relay has waited before it."""
        if self.turn != turn:
            self.turn, self.idle_since, self.quiet_since = turn, self.base, self.active

    def take(self, count, now):
        """Returns the octets that the relay has read."""
        self.require(count <= len(self.unread), f"it read {count} octets, where {len(self.unread)} were there")
        octets, self.unread = self.unread[:count], self.unread[count:]
        self.base, self.has_heard, self.read_in = self.base if self.has_heard else now, True, self.turn
        self.active = now
        return octets

    def give(self, octets, now):
        """Notes octets that the relay has written."""
        self.require(not self.is_closed, "it wrote to a closed connection")
        self.require(not self.is_shut, "it wrote after it had shut its side down")
        self.require(not self.is_reset, "it wrote to a broken connection")
        if self.room is not None:
            self.require(len(octets) <= self.room, f"it wrote {len(octets)} octets into room for {self.room}")
            self.room -= len(octets)
        self.written, self.wrote_in = now, self.turn
        # Which came first in a turn, what was read or what was written, nobody sees: the earlier deadline counts.
        self.base, self.has_heard, self.active = now, self.read_in == self.turn, now

    def shut(self, now):
        self.is_shut, self.shut_at = True, now

    def has_come(self):
        """Returns whether the relay has accepted it."""
        return True

    def is_left(self, turn):
        """Returns whether it is broken for so long that it must have been closed before."""
        return not self.is_closed and self.is_reset and self.is_known(turn)

    def is_at_end(self):
        """Returns whether nothing is left to be read, and nothing follows."""
        return self.is_reset or self.has_end and not self.unread


@functools.lru_cache(maxsize=256)
def date_of(at):
    """Returns the date and time of so many seconds after 1 January 1970 (RFC 5322, 3.3)."""
    date = datetime.datetime(1970, 1, 1) + datetime.timedelta(seconds=at)
    return date.strftime("%a, %d %b %Y %H:%M:%S +0000").encode()


def trace_line(offer, address, host, number, at):
    """Returns the time stamp line of a message (RFC 5321, 4.4)."""
    return (b"Received: from %b ([%b])\r\n by %b with %b id %d;\r\n %b\r\n"
            % (offer.word, address.encode(), host, offer.protocol, number, date_of(at)))


class ClientMessage(Message):
    """A message that a client has sent whole. Its text is known when its number is."""

    def __init__(self, setup, offer, talk, at):
        super().__init__(setup, offer.mail, offer.recipients, at)
        self.offer, self.talk = offer, talk

    def text_as(self, number, at):
        """Returns its text, if it was accepted under this number at this time."""
        return trace_line(self.offer, self.talk.client, self.setup.host, number, at) + self.offer.content

    def shape(self, number, at):
        """Returns the size of its text, and how many recipients it has."""
        return len(self.text_as(number, at)), len(self.places)

    def set_number(self, number):
        super().set_number(number)
        self.text = self.text_as(number, self.at)


class Talk(Stream):
    """A client's connection."""

    SILENCE = "idle"

    def __init__(self, number, address, setup, now):
        super().__init__(number, address, now)
        self.setup, self.host = setup, setup.host
        self.client = address.partition(":")[0]
        self.dialogue = Dialogue(setup, self.client)
        self.expected = collections.deque([self.dialogue.greeting()])
        # What was written since the last whole reply; messages that aren't accepted yet.
        self.tail, self.is_greeted, self.own_line, self.offers = b"", False, None, collections.deque()
        self.is_cut, self.crowd, self.ended, self.was_crowded, self.is_retired = False, (0, 0), None, None, False
        # Whether it surely had begun a command before this turn.
        self.has_begun = False
        self.total = self.last_count = self.last_place = self.accepted = 0
        self.has_accepted, self.greeted_in, self.tail_since = now, 0, now
        # The turn in which it had the last answer to a message: what follows that may not be used yet.
        self.told_in = None
        # The turn in which it came, and whether a balancer's header said so then.
        self.came_in, self.is_behind = None, False
        # How many replies were written whole, and how many of them refuse something.
        self.answered = self.refused = 0
        # What may refuse something and isn't in the log yet, each with its place among the replies; how many refusals
        # have a line of the log, and how many surely have none; whether its end was noted.
        self.untold, self.told, self.skipped, self.is_counted = collections.deque(), 0, 0, False

    def begin_turn(self, turn):
        if self.turn != turn:
            # It has surely begun to send something if that was read after the last reply.
            self.has_begun = bool(self.dialogue.rest) and self.read_in > self.wrote_in
        super().begin_turn(turn)

    def note_coming(self, now, turn):
        """Notes the turn in which it comes."""
        if self.came_in is None:
            self.came_in, self.has_accepted, self.active = turn, now, now

    def has_come(self):
        return self.came_in is not None

    def is_before(self, other):
        """Returns whether it surely came before another one: in a turn the relay takes those first that have no
        header."""
        if self.came_in != other.came_in:
            return self.came_in < other.came_in
        return not self.is_behind and (other.is_behind or self.number < other.number)

    def own_lines(self):
        """Returns the lines of the relay's own, each with its cause (RFC 5321, 3.1 and 3.8)."""
        if not self.is_greeted:
            return [(b"421 %b too many connections, closing\r\n" % self.host, "too many"),
                    (b"554 %b no service\r\n" % self.host, "no service"),
                    (b"421 %b insufficient system storage, closing\r\n" % self.host, "storage"),
                    (b"421 %b timeout, closing\r\n" % self.host, "timeout")]
        return [(b"421 %b timeout, closing\r\n" % self.host, "timeout"),
                (b"421 %b service stopping, closing\r\n" % self.host, "stopping")]

    def read(self, octets, at):
        """Takes what the relay has read."""
        self.total += len(octets)
        self.last_count, self.last_place = len(octets), self.answered + len(self.expected)
        if self.own_line:
            return
        for reply in self.dialogue.feed(octets):
            if isinstance(reply, Offer):
                reply = ClientMessage(self.setup, reply, self, at)
                self.offers.append(reply)
            if isinstance(reply, ClientMessage) or reply[:1] in b"45":
                self.untold.append((self.answered + len(self.expected), reply))
            self.expected.append(reply)

    # What the log has of it.

    def tell(self, fields, may_skip):
        """Compares a line of the log with the next refusal that it hasn't told of; or, if some may have no line, with
        the next that is such."""
        found = fields["reply"].encode("latin-1"), fields.get("command")
        while True:
            self.drop_accepted()
            self.require(self.untold, "the log tells of more refusals than there are")
            reply = self.untold.popleft()[1]
            reply = (FULL if isinstance(reply, ClientMessage) else reply).strip()
            wanted = reply, "bdat" if reply.endswith(b" bad chunk size, closing") else REFUSED.get(reply)
            if found == wanted:
                break
            self.require(may_skip, f"the log says that it got {fields['reply']!r} to {found[1]}, and the next refusal "
                                   f"is {wanted[0]!r} to {wanted[1]}")
            self.skipped += 1
        self.told += 1

    def drop_accepted(self):
        """Drops messages that were accepted from those that may be refused."""
        while self.untold and isinstance(self.untold[0][1], ClientMessage) and self.untold[0][1].is_logged:
            self.untold.popleft()

    def check_end(self, fields, now, minutes):
        """Compares the line of the log for its end with what was read, accepted and refused."""
        self.ended = now
        octets, messages, rejected = (int(fields[key]) for key in ("octets", "messages", "rejected"))
        self.require(self.total - self.last_count <= octets <= self.total,
                     f"{octets} octets were read by the log, and {self.total} were")
        self.require(messages == self.accepted,
                     f"{messages} messages were accepted by the log, and {self.accepted} were")
        untold = rejected - self.told
        self.require(self.skipped <= untold and rejected >= self.refused and (untold == 0 or minutes.may_skip(self)),
                     f"{rejected} replies refuse something by the log, which has told of {self.told}, and "
                     f"{self.refused} were given")
        for _ in range(untold - self.skipped):
            self.drop_accepted()
            self.require(self.untold, f"{rejected} replies refuse something by the log, and fewer do")
            self.untold.popleft()
        self.count_untold(minutes, untold, untold)
        if octets < self.total:
            # What was read last was read and dropped after the end, or some of it.
            self.untold = collections.deque(one for one in self.untold if one[0] < self.last_place)
        self.drop_accepted()
        self.require(not self.untold or self.may_be_unheard(self.untold[0][0]),
                     f"the log hasn't told what became of {self.untold and self.untold[0][1]}")

    def note_reason(self, reason, asks):
        """Compares why its connection ends with what was asked of the relay."""
        self.is_retired = reason == "stopping"
        self.require(not self.is_retired or asks.may_cut(self), "it was cut off for a reload, and is in a transaction")

    def count_untold(self, minutes, least, most):
        """Notes its end, and how many of its refusals have no line."""
        if not self.is_counted:
            minutes.note_end(self, least, most)
        self.is_counted = True

    def may_be_unheard(self, place):
        """Returns whether the relay may have read what the reply of a place is for, and not used it. In a turn it uses
        a block up to its second message, and nothing while replies wait."""
        return self.told_in == self.turn or any(isinstance(reply, ClientMessage) for reply in
                                                itertools.islice(self.expected, place - self.answered))

    def wrote(self, octets, judge):
        """Compares what was written with the replies that are owed, in order."""
        if not self.tail:
            self.tail_since = self.idle_since
        self.tail += octets
        while self.tail and not self.own_line:
            if not self.expected or not self.take_reply(self.expected[0], judge):
                break
        # What follows of a unit that was begun before these replies isn't its first octet.
        self.has_heard = self.has_heard or bool(self.dialogue.rest or self.expected)
        if self.tail:
            self.compare_rest(judge)

    def take_reply(self, reply, judge):
        """Takes a whole reply, if it was written and is the one that is owed."""
        if isinstance(reply, ClientMessage):
            end = self.tail.find(CRLF) + 2
            if end < 2 or not self.take_answer(self.tail[:end], reply, judge):
                return False
        elif self.tail.startswith(reply):
            end, self.is_greeted = len(reply), True
            self.refused += reply[:1] in b"45"
        else:
            return False
        self.expected.popleft()
        self.answered += 1
        self.tail, self.tail_since = self.tail[end:], self.idle_since
        return True

    def take_answer(self, line, message, judge):
        """Takes the answer to a message: its number, or that the spool is full."""
        if line == FULL:
            self.require(message.number is None, f"452 spool full answers {message}, which the log has as accepted")
            self.offers.remove(message)
            self.told_in = judge.counts["turns"]
            judge.counts["full"] += 1
            self.refused += 1
        elif line.startswith(b"250 queued as ") and line[14:-2].isdigit():
            self.told_in = judge.counts["turns"]
            judge.acknowledged(message, int(line[14:-2]))
        else:
            return False
        return True

    def is_known(self, turn):
        """Returns whether the relay knew it before this turn."""
        return self.is_greeted and self.greeted_in < turn

    def compare_rest(self, judge):
        """Requires that what follows the last whole reply begins the next one, or a line of the relay's own."""
        if self.own_line:
            self.require(False, f"{self.tail[:80]!r} follows {self.own_line!r}")
        wanted = self.expected[0] if self.expected else b""
        if isinstance(wanted, ClientMessage):
            if self.tail.startswith((b"250 queued as ", b"452 spool full")[self.tail[:1] == b"4"][:len(self.tail)]):
                return
            wanted = b"250 queued as N"
        elif wanted.startswith(self.tail):
            return
        for line, cause in self.own_lines():
            if line.startswith(self.tail):
                self.is_cut = True
                if line == self.tail:
                    self.own_line, self.tail = line, b""
                    judge.sessions.own_line(self, cause)
                return
        self.require(False, f"it got {self.tail[:100]!r}, and is owed {wanted[:100]!r}")

    def owes(self):
        """Returns whether a reply to what was read is still owed."""
        return bool(self.expected) and not self.is_cut

    def is_served(self):
        """Returns whether it surely counts as a session: it is greeted, and nothing has ended it yet."""
        return (self.is_greeted and not self.is_cut and self.ended is None and not self.is_closed
                and not self.dialogue.is_closed and not self.has_end and not self.is_reset)

    def closed(self, now, has_failed):
        """Requires a cause for the end of the connection."""
        self.is_closed = True
        if has_failed or self.is_reset or self.is_cut:
            return
        late = self.is_retired or now >= self.opened + min(self.setup.timeout, CROWDED_TIMEOUT)
        if self.owes():
            # One that is turned away, or is late, may leave no room for the line that says so.
            self.require(self.room is not None and (late or not self.is_greeted),
                         f"it was closed, and is owed {self.expected[0]!r}")
        elif not self.dialogue.is_closed and not self.is_at_end():
            self.require(late and self.room is not None, "it was closed without a cause")

    def is_idle(self):
        """Returns whether it surely owes nothing and is owed nothing: it is between commands, or hasn't begun its mail
        data."""
        return not (self.dialogue.rest or self.expected or self.unread or self.tail)

    def deadline(self, is_crowded):
        """Returns when it must be cut off at the latest, since it is idle; or closed, since it doesn't take its last
        octets, or is read for a second after it has taken them."""
        if self.is_shut:
            return self.shut_at + LEAVING
        if self.ended is not None:
            return self.ended + self.setup.timeout
        has_less_time = is_crowded and self.is_served() and self.is_idle() and not self.accepted
        timeout = min(CROWDED_TIMEOUT, self.setup.timeout) if has_less_time else self.setup.timeout
        return min(self.active + timeout, self.has_accepted + LONGEST_SESSION)
