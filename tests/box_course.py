"""What an attempt must write to a next hop after which replies, and the verdict of each recipient: the course and the
verdict table of the definitions (relay_course/specs), written again from these.

A course learns from what is written which message it is for, and to which recipients: it asks a `Finder` for them.
"""
import collections

from relay_program import Difference

CRLF = b"\r\n"
QUIT = b"QUIT\r\n"
# The most octets of a reply's line without its CR LF, and the most lines of a reply.
LONGEST_LINE, MOST_LINES = 2046, 100
GREETING, EHLO, HELO, MAIL, RCPT, DATA, CONTENT = "greeting EHLO HELO MAIL RCPT DATA content".split()


class Replies:
    """Cuts replies from octets in any pieces, up to the first line that is none."""

    def __init__(self):
        self.rest, self.code, self.lines, self.is_faulty = b"", 0, [], False

    def feed(self, octets):
        """Returns the replies that become whole, each a code and the texts of its lines."""
        text, at, found = self.rest + octets, 0, []
        while not self.is_faulty:
            end = text.find(CRLF, at)
            if end < 0:
                self.is_faulty = len(text) - at >= LONGEST_LINE + 2
                break
            self.take_line(text[at:end], found)
            at = end + 2
        self.rest = text[at:]
        return found

    def begins_with(self, digit):
        """Returns whether the reply that isn't whole yet begins with a digit."""
        return (b"%d" % self.code if self.lines else self.rest)[:1] == digit

    def take_line(self, line, found):
        """Takes a line, and adds its reply to those found if it is the last one."""
        code, mark = line[:3], line[3:4]
        if len(code) < 3 or code[0] not in b"2345" or not code.isdigit() or mark not in (b"", b" ", b"-"):
            self.is_faulty = True
        elif self.lines and int(code) != self.code or len(line) > LONGEST_LINE or len(self.lines) >= MOST_LINES:
            self.is_faulty = True
        else:
            self.code = int(code)
            self.lines.append(line[4:])
            if mark != b"-":
                found.append((self.code, self.lines))
                self.lines = []


def with_dots(text):
    """Returns a text of lines as it is sent after DATA."""
    return (CRLF + text).replace(b"\r\n.", b"\r\n..")[2:] + b".\r\n"


class Verdict:
    """What a reply, or the lack of one, says of a recipient: `sent`, with whether the next hop offers DSN, `failed`, or
    `later`."""

    def __init__(self, kind, has_dsn=False):
        self.kind, self.has_dsn = kind, has_dsn


LATER, FAILED = Verdict("later"), Verdict("failed")


def verdict_of_rcpt(code, last):
    """Returns the verdict of a recipient whose RCPT has this reply, where `last` is that of the end."""
    if code < 300:
        return last
    return FAILED if code >= 500 and code != 552 else LATER


class Course:
    """The course of an attempt at a next hop. `finder` has `mail(line)`, which refuses a line of MAIL that no message
    has; `recipient(course)`, which finds the place of the last line of RCPT; and `asked_all(course)`, which is told
    that no recipient follows. It sets `message`, whose `text` is known or None, and `places`."""

    def __init__(self, host, finder):
        self.host, self.finder = host, finder
        self.replies, self.waits, self.queue = Replies(), collections.deque([GREETING]), collections.deque()
        # What must be written: at once, and after a text that isn't known yet.
        self.expected, self.after_text, self.out, self.question = b"", b"", b"", None
        self.has_pipelining = self.has_chunking = self.has_dsn = False
        self.in_group = self.has_asked_all = self.is_turned_away = self.is_closing = False
        self.mail_line, self.message, self.text = b"", None, None
        # The lines of RCPT, the places that they are for, and the codes of their replies.
        self.lines, self.places, self.rcpt_codes = [], [], []
        self.has_ended, self.last, self.content_code, self.has_content = False, None, None, False

    def read(self, octets):
        """Takes octets that were read from the next hop."""
        if not self.has_ended:
            self.queue.extend(self.replies.feed(octets))

    def wrote(self, octets):
        """Takes octets that were written to the next hop."""
        self.out += octets

    def is_lost(self):
        """Returns whether it ends without a reply to what waits, since octets were read that are none."""
        return self.replies.is_faulty and not self.queue and not self.has_ended

    def go_on(self):
        """Goes on as far as the replies and what was written lead, and compares."""
        while True:
            self.compare()
            while self.in_group and self.ask_recipient():
                self.question = None
            if self.question == self.ask_mail_data and self.queue and not self.has_ended:
                # A reply that comes before the end of the text settles the attempt, and the text still follows.
                self.take_reply(*self.queue.popleft())
            elif self.question:
                if self.expected or not self.question():
                    break
            elif self.queue and self.waits and not self.has_ended:
                self.take_reply(*self.queue.popleft())
            else:
                break
        if self.out and not self.question and not (self.in_group and b"RCPT".startswith(self.out[:4])):
            raise Difference(f"it wrote {self.out[:80]!r} to a next hop that "
                             + ("got QUIT" if self.has_ended else f"owes a reply to {self.waits[0]}"))

    def compare(self):
        """Compares what was written with what is expected, as far as both are there."""
        count = min(len(self.out), len(self.expected))
        if self.out[:count] != self.expected[:count]:
            raise Difference(f"it wrote {self.out[:80]!r} to a next hop, and not {self.expected[:80]!r}")
        self.out, self.expected = self.out[count:], self.expected[count:]

    def command(self, octets, waited):
        self.expected += octets
        self.waits.append(waited)

    def end(self, last):
        """Ends with QUIT; recipients whose RCPT doesn't decide have the last verdict."""
        if self.question == self.ask_mail_data:
            self.after_text = QUIT
        else:
            self.expected += QUIT
        self.has_ended, self.in_group, self.last = True, False, last

    def verdicts(self):
        """Returns the place and the verdict of each recipient, after the end."""
        codes = self.rcpt_codes + [200] * (len(self.places) - len(self.rcpt_codes))
        return [(place, verdict_of_rcpt(code, self.last)) for place, code in zip(self.places, codes)]

    def take_reply(self, code, lines):
        """Does what the table says of a reply to what waits first."""
        waited, kind = self.waits.popleft(), code // 100
        self.is_turned_away = waited == GREETING and kind == 4
        # A next hop that closes the connection says so (RFC 5321, 3.8). RCPT may be sent with MAIL.
        self.is_closing = self.is_closing or code == 421 and waited in (MAIL, RCPT, DATA, CONTENT)
        last = FAILED if kind == 5 else LATER
        if waited == GREETING and kind == 2:
            self.command(b"EHLO " + self.host + CRLF, EHLO)
        elif waited == EHLO and kind == 5:
            self.command(b"HELO " + self.host + CRLF, HELO)
        elif waited in (EHLO, HELO) and kind == 2:
            if waited == EHLO:
                self.read_extensions(lines[1:])
            self.question = self.ask_mail
        elif waited == MAIL and kind == 2:
            self.next_recipient()
        elif waited == RCPT:
            self.rcpt_codes.append(code)
            self.next_recipient()
        elif waited == DATA and kind == 3:
            self.waits.append(CONTENT)
            self.write_content()
        elif waited == CONTENT:
            self.content_code = code
            self.end(Verdict("sent", self.has_dsn) if kind == 2 else last)
        else:
            self.end(last)

    def read_extensions(self, lines):
        words = {line.partition(b" ")[0].upper() for line in lines}
        self.has_pipelining, self.has_chunking = b"PIPELINING" in words, b"CHUNKING" in words
        self.has_dsn = b"DSN" in words

    def next_recipient(self):
        if not self.waits:
            self.question = self.ask_next

    def ask_mail(self):
        """Reads the line of MAIL, and in the same group those of RCPT; or QUIT, where the text can't be sent."""
        if self.out and QUIT.startswith(self.out[:6]):
            self.end_unseen()
            return True
        line = self.cut_line()
        if line is None:
            return False
        self.finder.mail(self, line)
        self.mail_line, self.question, self.in_group = line, None, self.has_pipelining
        self.waits.append(MAIL)
        return True

    def ask_recipient(self):
        """Reads a line of RCPT, if it is the next one and whole."""
        if not self.out.startswith(b"RCPT") or CRLF not in self.out:
            return False
        self.lines.append(self.cut_line())
        self.finder.recipient(self)
        self.waits.append(RCPT)
        return True

    def ask_next(self):
        """Reads the next RCPT, or begins the content, or ends."""
        if not self.out or b"RCPT".startswith(self.out[:4]) and CRLF not in self.out:
            return False
        self.question = None
        if self.ask_recipient():
            return True
        if not self.places:
            raise Difference(f"it wrote {self.out[:80]!r} to a next hop before any RCPT")
        self.begin_content()
        return True

    def begin_content(self):
        """Begins the content, or ends if all recipients were refused."""
        self.in_group, self.has_asked_all = False, True
        self.text = self.finder.asked_all(self)
        if all(code >= 300 for code in self.rcpt_codes):
            self.end(LATER)
        elif self.text is None:
            self.question = self.ask_unknown_content
        else:
            self.begin_text(self.text)
            self.has_content = self.waits[-1] == CONTENT

    def ask_unknown_content(self):
        """Reads how a text is begun that isn't known."""
        if self.out and b"DATA\r\n".startswith(self.out[:6]):
            self.question = None
            self.command(b"DATA\r\n", DATA)
            return True
        head, _, text = self.out.partition(CRLF)
        if head.startswith(b"BDAT ") and CRLF in self.out:
            size = int(head.split(b" ")[1])
            if len(text) < size:
                return False
            self.question = None
            self.finder.content(self, text[:size])
            self.command(b"BDAT %d LAST\r\n" % size + text[:size], CONTENT)
            self.has_content = True
            return True
        if b"BDAT".startswith(self.out[:4]):
            return False
        raise Difference(f"it wrote {self.out[:80]!r} to a next hop, and not a content")

    def write_content(self):
        """Expects the mail data, or reads it if it isn't known."""
        if self.text is not None:
            self.expected += with_dots(self.text) + self.after_text
            self.has_content = True
        else:
            self.question = self.ask_mail_data

    def ask_mail_data(self):
        end = -2 if self.out.startswith(b".\r\n") else self.out.find(b"\r\n.\r\n")
        if end == -1:
            return False
        self.question = None
        self.text = (CRLF + self.out[:end + 2]).replace(b"\r\n.", CRLF)[2:]
        self.finder.content(self, self.text)
        self.write_content()
        return True

    def owes(self):
        """Returns whether something must be written before anything else is read."""
        return bool(self.expected or self.question)

    def is_sending(self):
        """Returns whether some of the content is still to be written, whether its text is known or not."""
        if self.question == self.ask_unknown_content:
            return self.out.startswith(b"BDAT")
        return self.question == self.ask_mail_data or self.has_content and bool(self.expected)

    def is_asking(self):
        """Returns whether it depends on what is written next whether it ends with QUIT."""
        return self.question in (self.ask_mail, self.ask_next, self.ask_unknown_content)

    def end_unseen(self, places=()):
        """Ends with a QUIT that isn't written yet, after the lines of these recipients, which aren't either."""
        if self.question == self.ask_mail:
            self.finder.cannot_send(self)
            self.end(FAILED)
            self.question = None
            return
        if self.question == self.ask_next:
            for place in places:
                self.ask_unseen(place)
            self.question = None
            self.begin_content()
        if self.question:
            self.question = None
            self.begin_text(self.message.text)
        while self.queue and self.waits and not self.has_ended:
            self.take_reply(*self.queue.popleft())
        if not self.has_ended:
            raise Difference("an attempt has ended whose recipients were accepted, without their content")

    def ask_unseen(self, place):
        """Asks for a recipient whose line isn't written yet, and takes the reply."""
        self.lines.append(self.finder.rcpt_line(self, place))
        self.places.append(place)
        self.command(self.lines[-1], RCPT)
        if self.queue:
            self.take_reply(*self.queue.popleft())

    def begin_text(self, text):
        """Expects the beginning of a content. The text of a report, which may be unknown, ends with a line end."""
        if text and not text.endswith(CRLF):
            self.command(b"BDAT %d LAST\r\n" % len(text) + text, CONTENT)
        else:
            self.command(b"DATA\r\n", DATA)

    def cut_line(self):
        """Takes a whole line of what was written, or returns None."""
        end = self.out.find(CRLF)
        if end < 0:
            return None
        line, self.out = self.out[:end + 2], self.out[end + 2:]
        return line
