"""Mail that a postmaster returns or discards at a relay in a box: which of it must leave, the answers, the lines of the
log, and the reports that are owed (relayd(8))."""
from box_answer import require
from box_course import FAILED
from box_log import attempts_of

DONE = {"return": "returned", "discard": "discarded"}
REFUSED = "unknown", "busy", "full"
BY_THE_POSTMASTER = {"by the postmaster"}


def names_of(text):
    """Returns the messages that a request names, each with its places."""
    named = (word.split(":") for word in text.split(" "))
    return [(int(number), [*map(int, places.split(","))]) for number, places in named]


class Withdrawals:
    """What was withdrawn of the mail of a judge's relay."""

    def __init__(self, judge):
        self.judge, self.custody, self.outcomes = judge, judge.custody, judge.outcomes
        # The reports that this request owes.
        self.reports = set()

    def take(self, verb, text, lines, log):
        """Compares the answer to a request and its lines of the log, and lets what was withdrawn leave."""
        names, told = names_of(text), {one.number: one for one in attempts_of(log)}
        require({*told} <= {number for number, _ in names}, f"{names} are named, and the log tells of {[*told]}")
        refused, count = self.read(verb, names, lines)
        for number, places in names:
            if number in told:
                require(number not in refused,
                        f"message {number} was {DONE[verb]} by the log, and the answer says {refused.get(number)}")
                self.withdraw(verb, number, places, told[number])
            elif number in refused:
                self.check_refused(number, places, refused[number])
            else:
                require(lines is None, f"message {number} was {DONE[verb]}, and the log has no line for it")
                self.doubt(verb, number, places)
        done = sum(len(places) for number, places in names if number in told)
        require(count in (None, done), f"{done} recipients were {DONE[verb]}, and the answer has {count}")

    def read(self, verb, names, lines):
        """Returns the messages that an answer says were refused, with the reason, and how many recipients weren't."""
        if lines is None:
            return {}, None
        words = [line.split(" ") for line in lines[:-2]]
        numbers = [number for number, _ in names]
        require(lines[-1] == "ok" and all(len(each) == 2 and each[0].isdigit() and int(each[0]) in numbers
                                          and each[1] in REFUSED for each in words),
                f"the answer to {verb} {names} is {lines}")
        front, _, count = lines[-2].partition(" recipients=")
        require(front == DONE[verb] and count.isdigit(), f"the answer to {verb} {names} is {lines}")
        return {int(number): reason for number, reason in words}, int(count)

    def are_queued(self, number, places):
        """Returns whether these places of a message are queued; None if that isn't known."""
        message = self.custody.numbered.get(number)
        if message is None:
            return None if self.custody.nameless else False
        if any(place >= len(message.places) or message.places[place].has_left is not None for place in places):
            return False
        is_sure = all((message, place) in self.custody.queued for place in places) and not message.doubt
        return True if is_sure and all(message.places[place].doubt is None for place in places) else None

    def links(self, message):
        """Returns the attempts that may be for a message."""
        addresses = {one.hop[1] for one in message.places if one.hop}
        return [link for link in self.judge.links.values() if link.address in addresses and not link.is_settled
                and (link.course.message is None or message in self.outcomes.alike(link))]

    def check_refused(self, number, places, reason):
        message, are_queued = self.custody.numbered.get(number), self.are_queued(number, places)
        if reason == "unknown":
            require(are_queued is not True, f"{places} of message {number} are queued, and were refused as unknown")
        else:
            require(are_queued is not False, f"{places} of message {number} aren't queued, and the answer is {reason}")
        if reason == "busy":
            require(message is None or self.links(message), f"message {number} was refused as busy, and isn't tried")
        elif reason == "full":
            has_limit = self.judge.waits.is_tight or self.judge.setup.has_small_spool()
            require(has_limit, f"message {number} was refused since the spool is full, and it isn't")

    def withdraw(self, verb, number, places, told):
        """Lets places of a message leave, as the log says."""
        custody = self.custody
        message = custody.numbered.get(number) or self.outcomes.known(told)
        require(self.are_queued(number, places) is not False, f"{places} of {message} were withdrawn, and had left")
        for place in places:
            custody.settle_queued(message, place)
        paths = [message.places[place].recipient.path for place in places]
        if number in self.reports:
            # The log names no paths of a report that the same request owes.
            paths = [b"" for _ in places]
        require(told.lines == [(DONE[verb], path) for path in paths] and told.reasons == BY_THE_POSTMASTER
                and not told.hop and not told.address,
                f"{paths} of {message} are {DONE[verb]}, and the log has {told.lines}")
        for link in self.links(message):
            asked = {*link.course.places} if link.course.message is message else set()
            link.require(not asked & {*places} or len(self.outcomes.alike(link)) > 1,
                         f"it has been asked for {places} of {message}, which were {DONE[verb]} meanwhile")
        # It may be listed already, or a connection for it be open.
        message.may_be_void = True
        self.judge.asks.spares.update({message.places[place].hop[1] for place in places if message.places[place].hop})
        self.judge.counts[DONE[verb]] += len(places)
        report = None
        if verb == "return":
            _, report = custody.outcome(message, [(place, FAILED) for place in places], self.judge.wall, False)
        for place in places:
            custody.leave(message, place, "withdrawn")
        self.outcomes.take_report(message, report, told.report)
        if report:
            report.tells_of_return = True
            self.reports.add(report.number)

    def doubt(self, verb, number, places):
        """Notes that places of a message may have left: the device has failed meanwhile."""
        message = self.custody.numbered.get(number)
        require(self.judge.has_failed, f"{verb} has no answer")
        if message is None or self.are_queued(number, places) is False:
            return
        free = [place for place in places if message.places[place].doubt is None]
        if verb == "return":
            self.custody.outcome(message, [(place, FAILED) for place in free], self.judge.wall, True)
        else:
            self.custody.doubt_leaving(message, free)
