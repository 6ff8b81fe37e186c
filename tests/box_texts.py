"""What clients of a day send: commands and messages, valid or not, chosen by chance.

A message's paths have a number of their own, so that one who sees a recipient knows whose it is.
"""

DOMAINS = [b"a.example"] * 4 + [b"b.example"] * 3 + [b"c.example"] * 2 + [b"A.Example", b"d.example", b"[192.0.2.77]"]
OTHER_COMMANDS = [
    b"NOOP", b"noop x", b"RSET", b"VRFY a", b"HELP", b"EXPN a", b"TURN", b"XXXX", b"", b" NOOP", b"NOOP\t",
    b"RSET x", b"DATA x", b"QUIT x", b"DATA", b"HELO", b"HELO a_b", b"EHLO [IPv6:::1]", b"HELO a b", b"EHLO [x",
    b"MAIL", b"MAIL FROM:<>", b"MAIL FROM:<a@b> RET=X", b"MAIL FROM:<a@b> SIZE=1", b"MAIL FROM:<a@b>x",
    b"MAIL FROM:<postmaster>", b"MAIL FROM: <a@b> ENVID=+41 ENVID=x", b"MAIL FROM:a@b", b"MAIL TO:<a@b>",
    b"MAIL FROM:<@x:a@b>", b"RCPT TO:<>", b"RCPT TO:<a>", b"RCPT TO:<a@b c>", b"RCPT TO:<@a@b>", b"RCPT FROM:<a@b>",
    b"RCPT TO:<u@a.example> NOTIFY=", b"RCPT TO:<u@a.example> NOTIFY=NEVER,DELAY", b"RCPT TO:<u@a.example> ORCPT=a",
    b"RCPT TO:<u@a.example> NOTIFY=DELAY NOTIFY=DELAY", b"RCPT TO:<u@a.example> X", b"RCPT TO:<u@nowhere.example>",
    b"MAIL FROM:<" + b"x" * 260 + b"@b>", b"NOOP " + b"x" * 2039, b"NOOP " + b"x" * 2042, b"BDATx", b"N\xd6\xd6P",
    b"EHLO " + b"x" * 255, b"HELO " + b"x" * 256, b"NOOP \rx\n", b"RCPT TO:<\"q\\\" >\"@a.example>",
    b"MAIL FROM:<a@b> RET=FULL ret=HDRS", b"MAIL FROM:<a@b>  ", b"STARTTLS", b"AUTH PLAIN", b"PROXY TCP4 1.2.3.4",
]
LAST_COMMANDS = [b"BDAT", b"BDAT x", b"BDAT 4294967296", b"BDAT 1 LAS", b"BDAT 00000000001", b"BDAT " + b"1" * 2045]
LINES = [b"hi", b"", b".", b"..", b".x", b"Subject: t", b"Received: x", b"x" * 76, b"\xe4\xf6", b"a b ", b"QUIT"]
ODD_LINES = [b"a\rb", b"a\nb", b"\0", b"\n.", b"\r", b"x" * 998]


class Texts:
    """Makes what clients send, with a number for each message."""

    def __init__(self, chance, recipients):
        """Begins with a source of chance, and with how many recipients a message has at most."""
        self.chance, self.most, self.count = chance, recipients, 0

    def content(self):
        """Returns a content, mostly of a few lines."""
        chance = self.chance
        kind = chance.random()
        if kind < 0.04:
            return b""
        if kind < 0.07:
            return b"Received: x\r\n" * chance.choice([98, 99, 100, 101]) + b"\r\nhi\r\n"
        lines = [chance.choice(LINES) for _ in range(chance.choice([1, 2, 3, 5, 9]))]
        if kind < 0.15:
            lines.insert(chance.randint(0, len(lines)), chance.choice(ODD_LINES))
        if kind > 0.96:
            lines.append(b"y" * 70 + b"\r\n" + b"z" * 70 * chance.choice([1, 9, 60]))
        header = b"Subject: m%d\r\n\r\n" % self.count if kind < 0.8 else b""
        return header + b"\r\n".join(lines) + b"\r\n"

    def recipient(self, place):
        """Returns the line of RCPT of a recipient."""
        chance = self.chance
        if chance.random() < 0.06:
            return chance.choice([b"RCPT TO:<Postmaster>", b"RCPT TO:<u%%v@a.example>", b"rcpt to: <r@nowhere.example>",
                                  b"RCPT TO:<@x.example:u@a.example>", b'RCPT TO:<"a@b"@b.example>',
                                  b"RCPT TO:<x@z.example>"])
        line = b"RCPT TO:<r%d.%d@%b>" % (self.count, place, chance.choice(DOMAINS))
        kind = chance.random()
        if kind < 0.35:
            line += b" NOTIFY=" + chance.choice([b"NEVER", b"SUCCESS", b"FAILURE", b"DELAY", b"delay,success",
                                                 b"SUCCESS,FAILURE,DELAY", b"FAILURE,DELAY"])
        if kind > 0.9 or kind < 0.05:
            line += b" ORCPT=rfc822;o+2B%d@x" % place
        return line

    def sender(self):
        """Returns the line of MAIL of a message."""
        chance = self.chance
        kind = chance.random()
        if kind < 0.12:
            path = b"<>"
        else:
            path = b"<s%d@%b>" % (self.count, chance.choice([b"a.example", b"b.example", b"back.example",
                                                             b"nowhere.example"]))
        line = chance.choice([b"MAIL FROM:", b"MAIL FROM:", b"mail from: "]) + path
        if kind > 0.7:
            line += b" RET=" + chance.choice([b"FULL", b"HDRS", b"full"])
        if kind > 0.8:
            line += b" ENVID=q+2B%d" % self.count
        return line

    def message(self):
        """Returns the parts of a transaction, between which a client that doesn't pipeline waits."""
        chance = self.chance
        self.count += 1
        parts = [self.sender() + b"\r\n"]
        for place in range(chance.choice([1, 1, 1, 2, 2, 3, 4, self.most])):
            parts.append(self.recipient(place) + b"\r\n")
        if chance.random() < 0.08:
            parts.insert(chance.randint(0, len(parts)), self.command())
        content = self.content()
        if chance.random() < 0.3:
            parts += self.chunks(content)
        else:
            if chance.random() < 0.9 and content and not content.endswith(b"\r\n"):
                content += b"\r\n"
            dotted = (b"\r\n" + content).replace(b"\r\n.", b"\r\n..")[2:]
            parts += [b"DATA\r\n", dotted + b".\r\n"]
        return parts

    def chunks(self, content):
        """Returns a content as chunks, which needn't end in a line end."""
        chance = self.chance
        if chance.random() < 0.3:
            content = content[:-2]
        cuts = sorted(chance.randint(0, len(content)) for _ in range(chance.choice([0, 0, 1, 2])))
        pieces = [content[begin:end] for begin, end in zip([0, *cuts], [*cuts, len(content)])]
        parts = [b"BDAT %d\r\n" % len(piece) + piece for piece in pieces]
        if chance.random() < 0.2:
            return parts + [b"BDAT 0 LAST\r\n"]
        return parts[:-1] + [b"bdat %d  last\r\n" % len(pieces[-1]) + pieces[-1]]

    def command(self):
        return self.chance.choice(OTHER_COMMANDS) + b"\r\n"

    def session(self):
        """Returns the parts of a session, and how it ends: a word of `quit`, `end`, `reset`, `silence` and `bad`."""
        chance = self.chance
        parts = []
        if chance.random() < 0.95:
            parts.append(chance.choice([b"EHLO c.example\r\n", b"EHLO c.example\r\n", b"HELO c\r\n",
                                        b"ehlo [127.0.0.1]\r\n"]))
        for _ in range(chance.choice([0, 1, 1, 1, 1, 2, 2, 3])):
            if chance.random() < 0.12:
                parts.append(self.command())
            parts += self.message()
        while chance.random() < 0.15:
            parts.append(self.command())
        ending = chance.choices(["quit", "end", "reset", "silence", "bad"], [12, 4, 2, 2, 1])[0]
        if ending == "quit":
            parts.append(chance.choice([b"QUIT\r\n", b"QUIT\r\n", b"quit \r\n", b"QUIT\r\nNOOP\r\n"]))
        elif ending == "bad":
            parts.append(chance.choice(LAST_COMMANDS) + b"\r\n")
        elif chance.random() < 0.3:
            last = parts.pop() if parts else b"NOOP\r\n"
            parts.append(last[:chance.randint(0, len(last))])
        return parts, ending
