"""What follows `MAIL FROM:`, `RCPT TO:` and `BDAT` (RFC 5321, 4.1.1 and 4.1.2; RFC 3461, 4; RFC 3030, 2), by the
definitions of relay_envelope and relay_lines: what is accepted, and the reply to what isn't.
"""

CRLF = b"\r\n"
LETTERS = b"ABCDEFGHIJKLMNOPQRSTUVWXYZabcdefghijklmnopqrstuvwxyz"
DIGITS = b"0123456789"
DOMAIN = LETTERS + DIGITS + b"-._"
LITERAL = DOMAIN + b":"
PLAIN = bytes(octet for octet in range(33, 127) if octet not in b'<>"\\')
XCHAR = bytes(octet for octet in range(33, 127) if octet not in b"+=")
HEXADECIMAL = b"0123456789ABCDEF"
# The most octets of a path with its brackets.
LONGEST_PATH = 256
OUTCOMES = (b"SUCCESS", b"FAILURE", b"DELAY")
BAD_PATH = b"501 bad path\r\n"
BAD_VALUE = b"501 bad parameter value\r\n"
REPEATED = b"501 parameter given twice\r\n"
UNKNOWN_PARAMETER = b"555 unknown parameter\r\n"


class Mail:
    """What MAIL says: the reverse path with its brackets, RET and ENVID as they are forwarded, or None."""

    def __init__(self, path, ret, envid):
        self.path, self.ret, self.envid = path, ret, envid

    def line(self, dsn):
        """Returns the line of MAIL for a server that offers DSN or doesn't."""
        line = b"MAIL FROM:" + self.path
        if dsn and self.ret:
            line += b" RET=" + self.ret
        if dsn and self.envid is not None:
            line += b" ENVID=" + self.envid
        return line + CRLF


class Recipient:
    """What RCPT says: the path with its brackets, NOTIFY as a tuple of words (NEVER alone among them) or None, ORCPT or
    None."""

    def __init__(self, path, notify=None, orcpt=None):
        self.path, self.notify, self.orcpt = path, notify, orcpt

    def line(self, dsn):
        """Returns the line of RCPT for a server that offers DSN or doesn't."""
        line = b"RCPT TO:" + self.path
        if dsn and self.notify is not None:
            line += b" NOTIFY=" + b",".join(self.notify)
        if dsn and self.orcpt is not None:
            line += b" ORCPT=" + self.orcpt
        return line + CRLF


class Refused(Exception):
    """A fault of an envelope's text; its argument is the reply."""


def consists_of(text, octets):
    """Returns whether each octet of a text is one of these."""
    return not text.translate(None, octets)


def is_host_word(text):
    """Returns whether a text is the word of HELO: a domain or an address literal."""
    if not 1 <= len(text) <= 255:
        return False
    return consists_of(text, DOMAIN) or is_literal(text)


def is_literal(text):
    return len(text) >= 2 and text[:1] == b"[" and text[-1:] == b"]" and consists_of(text[1:-1], LITERAL)


def row_length(text, start, stop):
    """Returns where the row of plain octets and quoted strings that begins at `start` meets its first plain `stop`, or
    -1 if it doesn't."""
    at = start
    while at < len(text):
        octet = text[at]
        if octet == stop:
            return at
        if octet == 34:
            at += 1
            while at < len(text) and text[at] != 34:
                if text[at] == 92:
                    at += 1
                if at >= len(text) or not 32 <= text[at] <= 126:
                    return -1
                at += 1
            if at >= len(text):
                return -1
        elif octet not in PLAIN:
            return -1
        at += 1
    return -1


def is_row(text):
    """Returns whether a text is a row of plain octets and quoted strings."""
    return row_length(text + b">", 0, 62) == len(text)


def split_mailbox(body):
    """Returns the source route, the local part and the domain of a path's body, or None."""
    route = b""
    if body[:1] == b"@":
        colon = row_length(body, 1, 58)
        if colon < 0:
            return None
        route, body = body[:colon + 1], body[colon + 1:]
    local, at, domain = body.rpartition(b"@")
    if not at or not local or not is_row(local):
        return None
    if not (domain and consists_of(domain, DOMAIN)) and not is_literal(domain):
        return None
    return route, local, domain


def read_path(text):
    """Returns the body of the path that a text begins with, its parts (None for `<>` and the postmaster), and what
    follows; refuses a text that begins with none."""
    text = text.lstrip(b" ")
    end = row_length(text, 1, 62) if text[:1] == b"<" else -1
    if end < 0 or (end + 1 < len(text) and text[end + 1] != 32):
        raise Refused(BAD_PATH)
    body = text[1:end]
    if not body or body.upper() == b"POSTMASTER":
        return body, None, text[end + 1:]
    parts = split_mailbox(body)
    if parts is None or len(body) + 2 > LONGEST_PATH:
        raise Refused(BAD_PATH)
    return body, parts, text[end + 1:]


def is_readable_xtext(text):
    """Returns whether a text is xtext that stands for printable octets."""
    at = 0
    while at < len(text):
        if text[at] == 43:
            pair = text[at + 1:at + 3]
            if len(pair) < 2 or not consists_of(pair, HEXADECIMAL) or not 32 <= int(pair, 16) <= 126:
                return False
            at += 3
        elif text[at] in XCHAR:
            at += 1
        else:
            return False
    return True


def read_ret(value):
    return value.upper() if value.upper() in (b"FULL", b"HDRS") else None


def read_envid(value):
    return value if 1 <= len(value) <= 100 and is_readable_xtext(value) else None


def read_notify(value):
    if value.upper() == b"NEVER":
        return (b"NEVER",)
    words = value.upper().split(b",")
    if len(set(words)) < len(words) or not set(words) <= set(OUTCOMES):
        return None
    return tuple(word for word in OUTCOMES if word in words)


def read_orcpt(value):
    kind, _, address = value.partition(b";")
    fits = len(value) <= 500 and kind and consists_of(kind, LETTERS + DIGITS + b"-")
    return value if fits and address and is_readable_xtext(address) else None


def read_parameters(text, readers):
    """Returns the value of each keyword, or None; the first fault from left to right refuses the text."""
    values = dict.fromkeys(readers)
    for word in text.split(b" "):
        if not word:
            continue
        keyword, _, value = word.partition(b"=")
        keyword = keyword.upper()
        if keyword not in readers:
            raise Refused(UNKNOWN_PARAMETER)
        if values[keyword] is not None:
            raise Refused(REPEATED)
        values[keyword] = readers[keyword](value)
        if values[keyword] is None:
            raise Refused(BAD_VALUE)
    return values


MAIL_READERS = {b"RET": read_ret, b"ENVID": read_envid}
RCPT_READERS = {b"NOTIFY": read_notify, b"ORCPT": read_orcpt}


def read_mail(text):
    """Returns what follows the colon of MAIL FROM, or refuses it."""
    body, parts, rest = read_path(text)
    if body and parts is None:
        raise Refused(BAD_PATH)
    given = read_parameters(rest, MAIL_READERS)
    return Mail(b"<" + body + b">", given[b"RET"], given[b"ENVID"])


def read_rcpt(text):
    """Returns what follows the colon of RCPT TO, and the parts of its path, or refuses it."""
    body, parts, rest = read_path(text)
    if not body:
        raise Refused(BAD_PATH)
    given = read_parameters(rest, RCPT_READERS)
    return Recipient(b"<" + body + b">", given[b"NOTIFY"], given[b"ORCPT"]), parts


def read_bdat(argument):
    """Returns the size of a chunk and whether it is the last, or None."""
    digits, space, rest = argument.partition(b" ")
    if space and rest.lstrip(b" ").upper() != b"LAST":
        return None
    if not 1 <= len(digits) <= 10 or not consists_of(digits, DIGITS) or int(digits) >= 2 ** 32:
        return None
    return int(digits), bool(space)
