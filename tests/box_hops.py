"""A next hop's stream of a relay in a box: whether what the relay writes is the course of an attempt for queued mail,
and what its outcome is."""
from box_answer import require
from box_asks import is_held
from box_clients import LEAVING, Stream
from box_course import DATA, GREETING, LATER, Course
from box_reports import number_in, tells, tells_of
from relay_program import Difference

# How long the relay waits for a next hop, in milliseconds (RFC 5321, 4.5.3.2, and relayd(8)).
# However its octets come, a reply must be whole within half an hour.
WHOLE_ANSWER = 1_800_000
CONNECTING, COMMAND, DATA_REPLY, CONTENT_ROOM, CONTENT_REPLY = 30_000, 300_000, 120_000, 180_000, 600_000


class Link(Stream):
    """A connection to a next hop, and its attempt."""

    SILENCE = "silent"

    def __init__(self, number, address, judge, is_pending):
        super().__init__(number, address, judge.now)
        self.judge, self.custody, self.setup = judge, judge.custody, judge.setup
        self.course = Course(judge.setup.host, self)
        # Whether it isn't open yet, and whether the relay knows that it is.
        self.is_pending, self.is_connected, self.is_settled = is_pending, False, False
        # The wall clock when it was dialled and when the first octet of the greeting was read, and its latest.
        self.dialled, self.began, self.dialled_in = judge.wall, None, judge.counts["turns"]
        self.hop = None
        # What was held then, and whether others to its address were open.
        self.held = judge.asks.held
        self.is_beside = any(other.address == address for other in judge.links.values())

    def note_connected(self, now):
        """Notes that the relay learns in this turn that it was made: it takes octets now."""
        if not self.is_connected and not self.is_pending and self.room != 0 and not self.is_reset:
            self.is_connected, self.active = True, now

    def read(self, octets, wall):
        self.began = wall if self.began is None else self.began
        self.course.read(octets)

    def wrote(self, octets):
        self.course.wrote(octets)

    def go_on(self):
        """Compares what was written with the course, as far as it is known."""
        try:
            self.course.go_on()
        except Difference as difference:
            self.require(False, str(difference))

    def is_known(self, turn):
        """Returns whether the relay knew it before this turn."""
        return self.dialled_in < turn - 1

    def may_be_unmade(self):
        """Returns whether it may have failed before it was made."""
        return self.is_reset and self.began is None and not self.is_connected

    def is_answering(self):
        """Returns whether it has said something that the relay hasn't read before this turn."""
        return bool(self.unread) or self.read_in == self.judge.counts["turns"]

    def has_ended(self):
        """Returns whether its replies have decided, or are none."""
        return self.course.has_ended or self.course.is_lost()

    def is_unseen(self):
        """Returns whether it may have ended by a QUIT for which there was no room."""
        has_no_room = self.room is not None or self.judge.has_failed
        return has_no_room and self.course.is_asking() and b"\r\n" not in self.course.out

    def may_be_unable(self):
        """Returns whether the next hop may be unable to take the text."""
        return self.course.question == self.course.ask_mail and not self.course.has_chunking

    def end_unseen(self, places=()):
        """Ends by such a QUIT, after these recipients, whose lines aren't seen yet either."""
        try:
            self.course.end_unseen(places)
        except Difference as difference:
            self.require(False, str(difference))

    def verdicts(self):
        """Returns the verdicts of the recipients that were asked for, and the one of those that weren't."""
        if self.course.has_ended:
            return self.course.verdicts(), self.course.last
        return [(place, LATER) for place in self.course.places], LATER

    def drop(self):
        """Notes that its attempt is over, without an outcome."""
        if self.course.message:
            self.course.message.running.discard(self.hop)
        self.is_settled = True

    # What the course asks.

    def is_due(self, message, place):
        """Returns whether a place may be tried on this connection."""
        one = message.places[place]
        return (one.hop is not None and one.hop[1] == self.address and one.has_left is None
                and one.due <= max(self.began, self.dialled) and not is_held(self.held, message, one.hop))

    def mail(self, course, line):
        """Requires that a message that is due here has this line of MAIL."""
        for message, place in self.custody.queued:
            if self.is_due(message, place) and message.mail.line(course.has_dsn) == line:
                return
        for message in self.custody.nameless:
            if message.doubt and message.mail.line(course.has_dsn) == line:
                return
        if line == b"MAIL FROM:<>\r\n" and any(one.places[place].doubt for one, place in self.custody.queued):
            return
        self.require(False, f"{line!r} is of no message that is due there")

    def recipient(self, course):
        """Finds the place of the last line of RCPT, and decides at the first one which message it is of. A later one
        may show that it is of another."""
        line, outcomes = course.lines[-1], self.judge.outcomes
        if course.message is None:
            found = self.custody.find(line, lambda message, place: self.is_free(message, place, line))
            if not found:
                self.custody.settle_reports(line[8:line.find(b">") + 1])
                found = self.custody.find(line, lambda message, place: self.is_free(message, place, line))
            found = found or self.freed(line)
            self.require(found, f"{line!r} is of no recipient that is due there: {self.why_not(course, line)}")
            course.message, place = outcomes.chosen(found)
            self.hop = course.message.places[place].hop[0]
            course.message.running.add(self.hop)
        else:
            place = self.next_place(course.message, course.places, line)
        if place is not None:
            course.places.append(place)
        else:
            self.require(outcomes.choose_again(self),
                         f"{line!r} is of no recipient of {course.message} that is due there")
        if len(outcomes.alike(self)) == 1 and not self.may_be_other_report():
            self.settle_queued()

    def may_be_other_report(self):
        """Returns whether its message is a report in doubt, and may be another one that a change in doubt owes."""
        message = self.course.message
        return message.is_report() and message.doubt and self.custody.may_owe(message.places[0].recipient.path)

    def settle_queued(self):
        """Notes that its recipients are queued."""
        for place in self.course.places:
            self.custody.settle_queued(self.course.message, place)

    def freed(self, line):
        """Returns a recipient that another attempt was taken to be for, which may be for another message."""
        for message, place in self.custody.find(line, lambda message, place: self.fits(message, place, line)):
            if self.judge.outcomes.free(message, message.places[place].hop[0]):
                return [(message, place)]
        return []

    def fits(self, message, place, line):
        """Returns whether a place of a message may be the first one here, and a line of RCPT is for it."""
        course = self.course
        return (message.mail.line(course.has_dsn) == course.mail_line and self.is_due(message, place)
                and message.places[place].recipient.line(course.has_dsn) == line)

    def is_free(self, message, place, line):
        """Returns whether it fits, and no other attempt for it runs."""
        return self.fits(message, place, line) and message.places[place].hop[0] not in message.running

    def next_place(self, message, places, line):
        """Returns the place of a message that a line of RCPT is for after these, or None."""
        return next((place for place, one in enumerate(message.places)
                     if place not in places and self.is_due(message, place) and one.hop[0] == self.hop
                     and one.recipient.line(self.course.has_dsn) == line), None)

    def places_in(self, message):
        """Returns the places of a message that the lines so far may be for, or None."""
        places = []
        if message.mail.line(self.course.has_dsn) != self.course.mail_line:
            return None
        for line in self.course.lines:
            places.append(self.next_place(message, places, line))
        return None if None in places else places

    def take_message(self, message):
        """Goes on as an attempt for another message that has the lines so far."""
        self.course.message, self.course.places = message, self.places_in(message)

    def why_not(self, course, line):
        """Returns what is known of the recipients with a line of RCPT."""
        found = self.custody.find(line, lambda message, place: True)
        states = [f"{message} is {one.has_left or 'queued'}, due at {one.due}, now {self.began}, "
                  f"{'tried' if message.running else 'not tried'}"
                  for message, place in found for one in [message.places[place]]]
        return "; ".join(states) or "nobody sent it"

    def due_places(self, message, hop):
        """Returns the places of a message that were surely due when the attempt began."""
        began = self.judge.wall if self.began is None else self.began
        surely = [place for place, one in enumerate(message.places)
                  if one.hop and one.hop[0] == hop and one.has_left is None and one.due_surely <= began]
        return surely

    def portions(self, message):
        """Returns how many recipients of a message an attempt may have."""
        most, found = self.setup.keys["recipients_per_attempt"], set()
        for _ in range(message.cuts + 1):
            found.add(most)
            most = max(most // 2, 1)
        return found

    def may_have_asked_all(self):
        """Returns whether no recipient may be left to be asked for."""
        message, places = self.course.message, self.course.places
        return len(places) in self.portions(message) or {*self.due_places(message, self.hop)} <= {*places}

    def asked_all(self, course):
        """Requires that the recipients are the first ones that are due there, and as many as there may be. Returns the
        text that follows, if it is known which message it is."""
        is_known = len(self.judge.outcomes.alike(self)) == 1
        self.check_places(course.message, course.places, is_known)
        return course.message.text if is_known else None

    def check_places(self, message, places, is_known):
        """Requires that places are the first ones that are due, and as many as there may be, where it is known that
        they are the message's."""
        self.require(places == sorted(places), f"the recipients of {message} aren't in order: {places}")
        due = self.due_places(message, self.hop)
        if any(message.places[place].doubt or message.places[place].due != message.places[place].due_surely
               for place in {*due, *places}) or self.judge.went_back or not is_known:
            return
        portions = self.portions(message)
        self.require(places == due[:len(places)] and (len(places) in portions or
                                                      len(places) == len(due) and len(due) < max(portions)),
                     f"the recipients {places} of {message} were tried, and {due} were due, "
                     f"{sorted(portions)} at a time")

    def rcpt_line(self, course, place):
        """Returns the line of RCPT of a place of its message."""
        return course.message.places[place].recipient.line(course.has_dsn)

    def cannot_send(self, course):
        """Notes QUIT after EHLO or HELO: the text needs CHUNKING, which isn't offered."""
        self.require(not course.has_chunking, "it wrote QUIT before MAIL to a next hop that offers CHUNKING")

    def content(self, course, text):
        """Takes a text that isn't known before it is sent: that of a report, or of one of several messages."""
        message = course.message
        alike = [message] if self.is_settled else self.judge.outcomes.alike(self)
        fits = [one for one in alike if self.is_text(one, text)]
        if not fits and message.is_report():
            path = message.places[0].recipient.path
            report = self.custody.report_in_doubt(path, lambda told, of: tells_of(told, of, text))
            fits = [report] if report and self.is_text(report, text) else []
        self.require(fits, f"{message} is sent as {text[:2000]!r}, and must "
                           + (f"tell of {message.told}" if message.is_report() else f"be {message.text!r}"))
        if message not in fits:
            self.judge.outcomes.exchange(self, fits[0])
        self.custody.name(course.message, number_in(course.message, text))
        course.message.text = text
        self.settle_queued()

    def is_text(self, message, text):
        """Returns whether a text is a message's. One without a number may have any that no other has."""
        number = number_in(message, text)
        if message.text is not None:
            return message.text == text
        if number is None or self.custody.numbered.get(number, message) is not message:
            return False
        if message.is_report():
            return message.number in (None, number) and tells(message, text)
        return message.text_as(number, message.at) == text

    # How long it may wait.

    def patience(self, otherwise):
        """Returns how long the relay waits for what it waits for now, where `otherwise` is for what isn't known, since
        there is no room for it."""
        if not self.is_connected:
            return CONNECTING
        waits = self.course.waits
        if self.course.is_sending():
            return CONTENT_ROOM
        if self.course.has_content:
            return CONTENT_REPLY
        if not waits:
            return otherwise
        return DATA_REPLY if waits[0] == DATA else COMMAND

    def deadline(self, _):
        """Returns when the relay must give it up at the latest, or close it after it has ended."""
        if self.is_settled:
            return self.shut_at + LEAVING if self.is_shut else None
        return self.active + self.patience(COMMAND)

    def closed(self, now, has_failed):
        """Requires a cause for the end of a connection whose attempt hasn't ended."""
        self.is_closed = True
        # A next hop that takes no more connections says so by the first digit of its greeting.
        course = self.course
        is_turned_away = course.is_turned_away or (course.waits and course.waits[0] == GREETING
                                                   and course.replies.begins_with(b"4"))
        is_void = self.address in self.judge.unrecorded and not course.mail_line
        may_leave_out = has_failed or self.is_reset or is_turned_away or is_void or self.room is not None
        self.require(not course.has_ended or not course.expected or may_leave_out,
                     f"it was closed, and {course.expected!r} isn't written")
        if not (has_failed or self.has_ended() or self.is_at_end() or is_turned_away or is_void):
            self.begin_turn(self.judge.counts["turns"])
            self.require(now >= self.quiet_since + self.patience(DATA_REPLY) or now >= self.written + WHOLE_ANSWER,
                         f"it was closed after {now - self.quiet_since} ms, while {[*course.waits]} is awaited")


class Paces:
    """Which next hops have answered since the relay began, and how long each is left alone (relay_limits/specs)."""

    def __init__(self):
        self.answered, self.answered_now, self.holds, self.ends = set(), set(), {}, {}

    def has_answered(self, address):
        return address in self.answered

    def answer(self, address):
        """Notes that a next hop has said something: it isn't on hold any more."""
        self.answered.add(address)
        self.answered_now.add(address)
        if address in self.holds:
            self.holds[address] = 0, self.holds[address][1]

    def hold(self, address, seconds, now):
        """Requires that a next hop is left alone for a minute first, and then twice as long each time, up to half an
        hour."""
        before = self.holds.get(address, (0, 0))
        wanted = {min(2 * before[1], 1_800)}
        if before[0] == 0 or address in self.answered_now:
            wanted.add(60)
        require(seconds in wanted, f"{address} is left alone for {seconds} s, after {before[1]} s")
        self.holds[address] = now + seconds * 1_000, seconds
        self.ends[address] = now + seconds * 1_000

    def probe(self, address, now):
        """Notes that an attempt may be made at once at a next hop that is left alone."""
        if address in self.holds:
            self.holds[address] = min(self.holds[address][0], now), self.holds[address][1]
            self.ends[address] = min(self.ends[address], now)

    def may_be_held(self, address, now):
        """Returns whether a next hop may be left alone still: one may go on in connections that were open before, and
        its hold not end by that."""
        return self.ends.get(address, 0) > now

    def check_dial(self, address, now):
        until = self.holds.get(address, (0, 0))[0]
        require(now >= until, f"it connects to {address}, which is left alone for {until - now} ms more")
