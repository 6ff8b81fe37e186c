"""What a relay must answer to what a client sends: the reply table of RFC 5321 and RFC 3030, with the profile of the
definitions (relay_server/specs, relay_lines/specs), written again from these.

`Dialogue.feed` takes the octets of a client in any pieces, and returns the replies to the units that are whole: octets,
or an `Offer`, whose reply is the relay's choice.
"""
from box_envelope import Refused, consists_of, is_host_word, read_bdat, read_mail, read_rcpt

CRLF = b"\r\n"
PRINTABLE = bytes(range(32, 127))
# The most octets of a command line without its CR LF, and the most recipients.
LONGEST_LINE, MOST_RECIPIENTS = 2046, 100
# The states between commands.
FRESH, GREETED, OPEN, GATHERING, SPENT = range(5)
BAD_ARGUMENT = b"501 bad argument\r\n"
BAD_SEQUENCE = b"503 bad sequence\r\n"
NO_RECIPIENTS = b"554 no valid recipients\r\n"
TOO_LARGE = b"552 content too large\r\n"
DONE = b"250 OK\r\n"


class Offer:
    """A whole message of a client: who offers it, its envelope and its content."""

    def __init__(self, word, protocol, mail, recipients, content):
        self.word, self.protocol, self.mail, self.recipients = word, protocol, mail, recipients
        self.content = content


def received_count(content):
    """Returns how many lines of the header section begin with `Received:`."""
    header = (CRLF + content).partition(CRLF + CRLF)[0]
    return header.lower().count(CRLF + b"received:")


def has_bare_end(content):
    """Returns whether a CR or an LF stands alone."""
    rest = content.replace(CRLF, b"")
    return b"\r" in rest or b"\n" in rest


def without_dots(text):
    """Returns the content of mail data, which is without its last line."""
    return (CRLF + text).replace(b"\r\n.", CRLF)[2:]


def cut_mail_data(text, at):
    """Returns the content of the mail data that begins at an index, and the index after its last line; None if it isn't
    whole."""
    if text.startswith(b".\r\n", at):
        return b"", at + 3
    end = text.find(b"\r\n.\r\n", at)
    return (without_dots(text[at:end + 2]), end + 5) if end >= 0 else None


class Dialogue:
    """The dialogue with one client, whose address decides what it may send."""

    def __init__(self, setup, address):
        self.setup, self.host = setup, setup.host
        self.takes_any, self.takes_routed = setup.takes_any(address), setup.takes_routed(address)
        self.rest, self.state, self.is_closed, self.receiving = b"", FRESH, False, False
        self.word = self.protocol = self.mail = None
        self.recipients, self.content = [], b""

    def greeting(self):
        return b"220 " + self.host + b" ESMTP relay ready\r\n"

    def in_transaction(self):
        return self.receiving or self.state in (OPEN, GATHERING)

    def skips(self):
        """Returns whether it has a part of a chunk that is of no content: no recipient was accepted, or it is too
        large. Its transaction is over, though the reply comes after the chunk."""
        line, found, _ = self.rest.partition(CRLF)
        size = self.chunk_of(line) if found and not self.receiving else 0
        return size > 0 and (not self.recipients or len(self.content) + size > self.setup.max_content)

    def feed(self, octets):
        """Returns the replies to the units that become whole with these octets."""
        text, at, replies = self.rest + octets, 0, []
        while not self.is_closed:
            if self.receiving:
                found = cut_mail_data(text, at)
                if found is None:
                    break
                content, at = found
                self.receiving = False
                replies.append(self.after_data(content))
                continue
            end = text.find(CRLF, at)
            if end < 0:
                break
            chunk = self.chunk_of(text[at:end])
            if len(text) < end + 2 + chunk:
                break
            replies.append(self.after_line(text[at:end], text[end + 2:end + 2 + chunk]))
            at = end + 2 + chunk
        self.rest = text[at:]
        return replies

    def chunk_of(self, line):
        """Returns how many octets follow a line at once."""
        if len(line) > LONGEST_LINE or line[:4].upper() != b"BDAT":
            return 0
        word, _, argument = line.rstrip(b" \t").partition(b" ")
        found = read_bdat(argument.lstrip(b" ")) if word.upper() == b"BDAT" else None
        return found[0] if found else 0

    def after_line(self, line, chunk):
        """Returns the reply to a command line, with the octets of its chunk."""
        if len(line) > LONGEST_LINE:
            return self.bad_size() if line[:5].upper() == b"BDAT " else b"500 line too long\r\n"
        text = line.rstrip(b" \t")
        word, _, argument = text.partition(b" ")
        verb = word.upper()
        if verb != b"BDAT" and not consists_of(text, PRINTABLE):
            return b"500 bad octet in line\r\n"
        if verb in (b"EXPN", b"TURN"):
            return b"502 not implemented\r\n"
        command = self.COMMANDS.get(verb)
        if command is None:
            return b"500 unknown command\r\n"
        try:
            return command(self, argument.lstrip(b" "), chunk)
        except Refused as refused:
            return refused.args[0]

    def bad_size(self):
        self.is_closed = True
        return b"421 " + self.host + b" bad chunk size, closing\r\n"

    def hello(self, argument, protocol):
        if not is_host_word(argument):
            return BAD_ARGUMENT
        self.word, self.protocol = argument, protocol
        self.end_transaction()
        if protocol == b"SMTP":
            return b"250 " + self.host + CRLF
        return b"250-" + self.host + b"\r\n250-PIPELINING\r\n250-CHUNKING\r\n250 DSN\r\n"

    def end_transaction(self):
        self.state, self.mail, self.recipients, self.content = GREETED, None, [], b""

    def helo(self, argument, _):
        return self.hello(argument, b"SMTP")

    def ehlo(self, argument, _):
        return self.hello(argument, b"ESMTP")

    def mail_from(self, argument, _):
        if argument[:5].upper() != b"FROM:":
            return BAD_ARGUMENT
        mail = read_mail(argument[5:])
        if self.state != GREETED:
            return BAD_SEQUENCE
        self.state, self.mail = OPEN, mail
        return b"250 sender OK\r\n"

    def rcpt_to(self, argument, _):
        if argument[:3].upper() != b"TO:":
            return BAD_ARGUMENT
        recipient, parts = read_rcpt(argument[3:])
        if self.state != OPEN:
            return BAD_SEQUENCE
        if len(self.recipients) >= MOST_RECIPIENTS:
            return b"452 too many recipients\r\n"
        if parts and not self.takes_routed and (parts[0] or any(octet in b"%!@" for octet in parts[1])):
            return b"553 routed address refused\r\n"
        if self.setup.hop_of(parts[2] if parts else self.host, self.takes_any) is None:
            return b"550 no route\r\n"
        self.recipients.append(recipient)
        return b"250 recipient OK\r\n"

    def data(self, argument, _):
        if argument:
            return BAD_ARGUMENT
        if self.state != OPEN:
            return BAD_SEQUENCE
        if not self.recipients:
            return NO_RECIPIENTS
        self.receiving = True
        return b"354 end with a line of one period\r\n"

    def bdat(self, argument, chunk):
        found = read_bdat(argument)
        if found is None:
            return self.bad_size()
        if self.state not in (OPEN, GATHERING):
            return BAD_SEQUENCE
        if not self.recipients:
            self.state = SPENT
            return NO_RECIPIENTS
        self.state, self.content = GATHERING, self.content + chunk
        if len(self.content) > self.setup.max_content:
            self.state = SPENT
            return TOO_LARGE
        return self.after_content(self.content) if found[1] else b"250 chunk OK\r\n"

    def rset(self, argument, _):
        if argument:
            return BAD_ARGUMENT
        if self.state != FRESH:
            self.end_transaction()
        return DONE

    def quit(self, argument, _):
        if argument:
            return BAD_ARGUMENT
        self.is_closed = True
        return b"221 " + self.host + b" closing\r\n"

    def after_data(self, content):
        """Returns the reply to mail data that is whole."""
        if len(content) > self.setup.max_content:
            self.end_transaction()
            return TOO_LARGE
        return self.after_content(content)

    def after_content(self, content):
        """Returns the reply to a content that isn't too large, or its offer; the transaction is over."""
        offer = Offer(self.word, self.protocol, self.mail, self.recipients, content)
        self.end_transaction()
        if received_count(content) >= 100:
            return b"554 too many Received fields\r\n"
        if self.setup.refuses_bare:
            if has_bare_end(content):
                return b"554 bare line end in content\r\n"
            if b"\0" in content:
                return b"554 NUL in content\r\n"
        return offer

    COMMANDS = {
        b"HELO": helo, b"EHLO": ehlo, b"MAIL": mail_from, b"RCPT": rcpt_to, b"DATA": data, b"BDAT": bdat,
        b"RSET": rset, b"QUIT": quit, b"NOOP": lambda *_: DONE,
        b"VRFY": lambda *_: b"252 not verified\r\n", b"HELP": lambda *_: b"214 see RFC 5321\r\n",
    }
