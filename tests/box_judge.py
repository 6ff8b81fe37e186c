"""Judges a day of a relay in a box by its script and by what the relay answered: dialogues by the reply table, courses
by the verdict table, and custody by the list of changes. It knows nothing else, so it judges a saved script again.

A line of the script that begins with `#!` asks for a check: `#! drained` requires an empty queue.
"""
from box_answer import Answer, octets_of, require
from box_arrivals import Arrival
from box_asks import Asks
from box_clients import Talk
from box_custody import Custody
from box_hops import Link, Paces
from box_minutes import Minutes
from box_outcomes import Outcomes
from box_script import Script
from box_sessions import Sessions
from box_setup import Setup
from box_waits import Waits

# The longest wait between two turns, in milliseconds, and how often a relay may say that it has more to do and do
# nothing.
LONGEST_WAIT, MOST_IDLE = 60_000, 200
# How many connections may be open at a time only for their last octets.
MOST_LEAVERS = 64
# What is counted, to show that days have all of it.
COUNTS = ["turns", "accepted", "full", "sent", "deferred", "delayed", "failed", "expired", "reports", "turned away",
          "cut off", "turns in a crowd", "behind balancers", "headers refused", "failures", "replies cut off", "stops",
          "held", "released", "flushed", "reloads", "returned", "discarded"]


class Judge(Script):
    """Takes the lines of a script and the answers to them, in order."""

    def __init__(self):
        super().__init__()
        self.outcomes = self.paces = self.minutes = None
        self.sessions, self.asks = Sessions(self), Asks(self)
        self.is_running, self.idle, self.has_failed = False, 0, False
        # Of the turn that is judged.
        self.touched, self.unrecorded, self.ends_all, self.headers = {}, set(), False, 0
        self.counts = dict.fromkeys(COUNTS, 0)

    def answered(self, line, lines):
        """Takes a line and the lines of its answer."""
        command, *words = line.split(" ")
        return getattr(self, "after_" + command)(lines, *words)

    def after_begin(self, lines, config):
        self.setup = Setup(octets_of(config).decode())
        self.custody = Custody(self.setup)
        self.outcomes, self.paces, self.waits = Outcomes(self), Paces(), Waits(self)
        self.minutes = Minutes(self)
        self.asks = Asks(self)
        self.asks.text = octets_of(config).decode()
        self.forget_streams()
        self.may_fail, self.is_running, self.went_back, self.was_set = False, len(lines) == 1, False, False
        require(lines == ["done 1"], f"a relay isn't begun: {lines}")

    def after_stop(self, lines, pick):
        self.end_all()
        self.asks.begin()
        self.minutes = Minutes(self)
        self.may_fail = False
        self.counts["stops"] += 1
        require(len(lines) == 1 and lines[0].startswith("done "), f"a relay isn't started again: {lines}")
        self.is_running = True
        following = int(lines[0][5:])
        known = max(self.custody.numbered, default=0)
        require(known < following and self.custody.next <= following,
                f"after a stop the next number is {following}, after {known} and {self.custody.next}")

    def after_queue(self, lines):
        if not self.is_running:
            return
        listed = []
        for line in lines[:-1]:
            word, number, place, path = line.split(" ")
            require(word == "queued", f"the queue has a line `{line}`")
            octets = octets_of(path)
            listed.append((int(number), int(place), octets if octets[:1] == b"<" else b"<" + octets + b">"))
        self.custody.listed(listed, int(lines[-1].split(" ")[1]))

    def end_all(self):
        """Ends all connections, since the relay is stopped or its device has failed."""
        for talk in self.talks.values():
            self.forget_talk(talk)
            talk.offers.clear()
            talk.is_closed = talk.is_ended = True
        for link in self.links.values():
            link.drop()
            link.is_closed = link.is_ended = True
        for arrival in self.arrivals.values():
            arrival.is_closed = arrival.is_ended = True
        self.talks, self.arrivals, self.links, self.peers = {}, {}, {}, {}
        self.forget_hops()

    def forget_hops(self):
        """Begins without what the relay knew of next hops, since its spool is opened again."""
        self.paces = Paces()
        self.waits.forget()
        self.asks.forget()

    def forget_talk(self, talk):
        """Notes what isn't known of a client whose connection is closed: whether its last messages were recorded, if
        the device has failed; and how many of its refusals have no line, if there is none for its end."""
        self.doubt_offers(talk)
        least = max(talk.skipped, talk.refused - talk.told)
        talk.count_untold(self.minutes, least, talk.skipped + len(talk.untold))

    def doubt_offers(self, talk):
        """Notes that messages of a client may have been recorded in this turn, if the device has failed in it."""
        for message in talk.offers:
            if self.has_failed and not message.is_logged:
                message.set_time(self.wall)
                self.custody.add(message, doubt=True)

    def after_turn(self, lines):
        answer = Answer(lines)
        self.counts["turns"] += 1
        self.note_failure(answer)
        require(answer.fault is not None or answer.wait is not None and answer.wait <= LONGEST_WAIT,
                f"it waits {answer.wait} ms")
        self.watch_progress(answer)
        self.touched, self.paces.answered_now = {}, set()
        self.sessions.begin_turn()
        self.note_beginnings()
        require(not self.asks.is_reloading() or not answer.dials and not answer.refused,
                f"it connects to a next hop while a reload waits: {answer.dials}")
        early = {address for address in {*(one for _, one in answer.dials), *answer.refused}
                 if not self.has_due(address)}
        self.take_reads(answer)
        for address in [*(address for _, address in answer.dials), *answer.refused]:
            self.paces.check_dial(address, self.now)
        if self.has_failed:
            self.counts["replies cut off"] += sum(link.is_answering() for link in self.links.values())
        self.take_accepted(answer)
        self.take_writes(answer)
        self.take_events(answer)
        for talk in self.talks.values():
            if not talk.is_greeted and not talk.own_line:
                self.sessions.note_crowd(talk)
        self.outcomes.settle_attempts(answer)
        for address in early:
            require(self.has_due(address) or address in answer.refused or self.has_failed
                    or self.asks.takes_spare(address),
                    f"it connects to {address}, for which no mail is due")
        self.take_closes(answer)
        if not self.has_failed:
            for _, address in answer.dials:
                self.check_attempts(address)
            if answer.wait:
                self.waits.check(answer.wait)
            self.asks.check_tried(answer)
        self.end_turn(answer)
        return answer

    def after_ask(self, lines, *words):
        answer = Answer(lines)
        self.note_failure(answer)
        # When its device fails, clients that wait are refused.
        refuses = self.has_failed or not answer.writes and not answer.shuts
        require(refuses and not (answer.dials or answer.refused or answer.reads),
                f"it was asked for something, and has used connections: {lines}")
        self.touched = {}
        self.take_writes(answer)
        self.asks.take(" ".join(words), answer)
        self.take_events(answer)
        for link in [link for link in self.links.values() if link.number in answer.closes]:
            link.drop()
        self.take_closes(answer)
        self.end_turn(answer)
        return answer

    def note_failure(self, answer):
        """Notes whether the device has failed, and whether all connections are closed."""
        events = {event for event, _ in answer.log}
        self.has_failed = bool(answer.fault) or "device-failed" in events
        # After a failure, and when there is room again, all connections are closed.
        self.ends_all = self.has_failed or "shortage-ended" in events or self.asks.cuts_all(answer)
        self.counts["failures"] += self.has_failed
        require(not self.has_failed or self.may_fail, f"the device failed, where none of its calls did: {answer.log}")

    def end_turn(self, answer):
        if self.has_failed or answer.fault:
            self.end_all()
        elif self.ends_all:
            self.asks.forget()
        if not answer.fault:
            self.asks.settle_reload(answer)
        self.is_running = answer.fault is None
        if answer.clock:
            self.set_clock(*answer.clock)

    def note_beginnings(self):
        """Notes which clients come in this turn, and which connections the relay now knows to be made."""
        if not self.asks.is_reloading():
            for arrival in self.arrivals.values():
                arrival.note_coming(self.now)
            for talk in self.talks.values():
                talk.note_coming(self.now, self.counts["turns"])
        self.headers = len(self.arrivals)
        for link in self.links.values():
            link.note_connected(self.now)

    def watch_progress(self, answer):
        """Requires that a relay that says it has more to do does something now and then."""
        has_done = any((answer.dials, answer.refused, answer.reads, answer.writes, answer.closes, answer.log))
        self.idle = 0 if has_done or answer.wait else self.idle + 1
        require(self.idle < MOST_IDLE, f"it had more to do {MOST_IDLE} times, and did nothing")

    def take_reads(self, answer):
        """Takes new connections, and what was read of all."""
        for number, address in answer.dials:
            require(number == len(self.streams), f"the connection to {address} has the number {number}")
            link = Link(number, address, self, self.modes.get(address) == "wait")
            self.streams.append(link)
            self.links[number] = link
        for number, count in answer.reads:
            stream = self.stream(number)
            stream.begin_turn(self.counts["turns"])
            octets = stream.take(count, self.now)
            self.touched[stream] = True
            if isinstance(stream, Arrival):
                self.take_header(stream, octets)
                continue
            stream.read(octets, self.wall)
            if isinstance(stream, Link):
                self.paces.answer(stream.address)

    def take_header(self, arrival, octets):
        """Takes what was read of a balancer's connection, and its client, if the header is whole."""
        arrival.require(arrival.comes, "it was read while a reload waits")
        talk, rest = arrival.read(octets, self)
        if talk:
            self.counts["behind balancers"] += 1
            del self.arrivals[arrival.number]
            self.add_client(talk)
            talk.note_coming(self.now, self.counts["turns"])
            talk.begin_turn(self.counts["turns"])
            if rest:
                talk.read(rest, self.wall)

    def has_due(self, address):
        """Returns whether mail is due for an address, or may be."""
        for message, place in self.custody.queued:
            one = message.places[place]
            is_due = one.hop and one.hop[1] == address and one.due <= self.highest
            if one.doubt or is_due and not self.asks.holds(message, place):
                return True
        return any(one.doubt for one in self.custody.nameless)

    def check_attempts(self, address):
        """Requires that few attempts run."""
        running = [link for link in self.links.values() if not link.is_settled]
        require(len(running) <= 64, "more than 64 attempts run")
        most = self.setup.keys["attempts_per_hop"] if self.paces.has_answered(address) else 1
        require(sum(link.address == address for link in running) <= most, f"more than {most} attempts run at {address}")

    def take_accepted(self, answer):
        """Numbers the messages that the log has as accepted, each the next one of its client."""
        for event, fields in answer.log:
            if event != "accepted" or "client" not in fields:
                continue
            talk, number = self.peers.get(fields["client"]), int(fields["message"])
            shape = int(fields["size"]), int(fields["recipients"])
            # Those before it that have another shape must be answered by 452.
            message = next((one for one in talk.offers if one.shape(number, self.wall) == shape and not one.is_logged),
                           None) if talk else None
            require(message, f"message {number} was accepted as {fields}, and the client has sent none that is so")
            message.is_logged = True
            talk.accepted, talk.has_accepted = talk.accepted + 1, self.now
            message.set_time(self.wall)
            self.accept(message, number)

    def accept(self, message, number):
        self.custody.add(message)
        self.custody.name(message, number)
        self.counts["accepted"] += 1

    def acknowledged(self, message, number):
        """Takes `250 queued as N`."""
        require(message.is_logged or self.has_failed, f"message {number} was acknowledged, and not logged as accepted")
        if message.number is None:
            self.accept(message, number)
        require(message.number == number, f"{message} was acknowledged as {number}")
        message.talk.offers.remove(message)

    def take_writes(self, answer):
        for number, octets in answer.writes:
            stream = self.stream(number)
            stream.begin_turn(self.counts["turns"])
            stream.give(octets, self.now)
            self.touched[stream] = True
            if isinstance(stream, Talk):
                was_greeted = stream.is_greeted
                stream.wrote(octets, self)
                if stream.is_greeted and not was_greeted:
                    stream.greeted_in = self.counts["turns"]
                    self.sessions.check_welcome(stream)
            elif isinstance(stream, Arrival):
                stream.wrote(octets, self)
            else:
                stream.wrote(octets)
        for stream in self.touched:
            if isinstance(stream, Link):
                stream.go_on()
        for number in answer.shuts:
            self.stream(number).shut(self.now)

    def take_events(self, answer):
        """Compares the other lines of the log with what is known: the end of a client, and next hops on hold."""
        self.unrecorded = set()
        self.minutes.begin_turn()
        for event, fields in answer.log:
            if event == "client-end" and "messages" in fields and fields["client"] in self.peers:
                self.sessions.note_end(self.peers[fields["client"]])
                self.peers[fields["client"]].note_reason(fields["reason"], self.asks)
                self.peers[fields["client"]].check_end(fields, self.now, self.minutes)
            elif event == "client-end" and "balancer" in fields:
                arrival = next((one for one in self.arrivals.values() if one.address == fields["balancer"]), None)
                require(arrival, f"the log tells of a balancer's connection that isn't there: {fields}")
                arrival.tell(fields["reason"], self)
                self.counts["headers refused"] += 1
            elif event == "rejected" and "count" in fields:
                self.minutes.count(fields["client"].partition(":")[0], int(fields["count"]))
            elif event == "rejected":
                talk = self.peers.get(fields["client"])
                require(talk, f"the log tells of a client that isn't there: {fields}")
                talk.tell(fields, self.minutes.may_skip(talk))
                self.minutes.tell(talk.client)
            elif event == "unrecorded":
                self.outcomes.take_unrecorded(fields)
                self.unrecorded.add(fields["addr"])
            elif event == "hop-back":
                self.paces.answer(fields["addr"])
            elif event == "hop-held":
                self.paces.hold(fields["addr"], int(fields["retry_in"].rstrip("s")), self.now)
        self.minutes.end_turn()

    # The end of a turn.

    def is_full_of_leavers(self):
        """Returns whether there may be so many connections with their last octets that there is no room for another."""
        leavers = sum(talk.ended is not None or talk.is_cut for talk in self.talks.values())
        return leavers + sum(link.is_settled for link in self.links.values()) > MOST_LEAVERS

    def take_closes(self, answer):
        is_full = self.is_full_of_leavers()
        for number in answer.closes:
            stream = self.stream(number)
            if stream.is_ended:
                continue
            stream.require(not stream.is_closed, "it was closed twice")
            # When a reload takes effect, headers that aren't whole are waited for no longer.
            is_dropped = isinstance(stream, Arrival) and self.asks.is_reloading() and not answer.is_reloading
            stream.closed(self.now, self.ends_all or is_dropped or is_full and stream.room is not None)
            if isinstance(stream, Talk):
                stream.require(self.ends_all or not stream.is_greeted or stream.ended is not None,
                               "it was closed, and the log has no line for its end")
                self.forget_talk(stream)
                self.talks.pop(number, None)
                self.peers.pop(stream.address, None)
            elif isinstance(stream, Arrival):
                self.arrivals.pop(number, None)
            else:
                self.links.pop(number, None)
