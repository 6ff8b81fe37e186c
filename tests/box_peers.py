"""Clients and next hops of a day in a box, which act by chance."""

OFFERS = [b"PIPELINING", b"CHUNKING", b"DSN"]
# What a next hop may do wrong, where it isn't good, and how often.
WRONGS = {"none": 8, "later": 4, "refuse": 5, "close": 2, "reset": 2, "hang": 1, "broken": 1, "closing": 2, "early": 1}
BROKEN = [b"hello\r\n", b"2x0 a\r\n", b"199 a\r\n", b"600 a\r\n", b"250-a\r\n251 b\r\n", b"250", b"250_a\r\n", b"\r\n",
          b"25\r\n", b"250-a\r\n" * 100 + b"250 b\r\n", b"250 " + b"x" * 2043 + b"\r\n", b"250 " + b"x" * 2050]
COMPLETIONS = [b"250 ok\r\n", b"250 ok\r\n", b"250\r\n", b"251 a b\r\n", b"250-a\r\n250-b\r\n250 c\r\n", b"250 \r\n",
               b"250 2.1.5 \xe4\r\n", b"299 a\rb\nc\r\n", b"250 " + b"x" * 2042 + b"\r\n"]
LATERS = [b"450 busy\r\n", b"451-a\r\n451 b\r\n", b"452 full\r\n", b"421 no\r\n", b"499\r\n", b"354 odd\r\n",
          b"552 big\r\n"]
REFUSALS = [b"550 no such user\r\n", b"550-5.1.1 a\r\n550 5.1.1 b\r\n", b"554 no\r\n", b"599\r\n",
            b"553 " + b"q" * 400 + b"\r\n"]


class Client:
    """A client: it sends the parts of its session, in pieces, and ends in its way."""

    def __init__(self, chance, number, parts, ending):
        self.chance, self.number, self.ending = chance, number, ending
        self.pipelines = chance.random() < 0.5
        self.cuts = chance.random() < 0.25
        self.parts = [b"".join(parts)] if self.pipelines else parts
        self.rest, self.next, self.answered, self.is_over, self.is_gone = b"", 0, True, False, False
        self.is_narrow = False

    def act(self, lines):
        """Adds what it does now to the lines of the script."""
        chance = self.chance
        if not self.rest and self.next < len(self.parts):
            if not self.answered and chance.random() < 0.9:
                return
            self.rest, self.answered = self.parts[self.next], False
            self.next += 1
        if self.rest:
            count = len(self.rest)
            if self.cuts:
                count = chance.randint(1, count) if chance.random() < 0.7 else 1
            lines.append(f"input {self.number} {self.rest[:count].hex()}")
            self.rest = self.rest[count:]
            if self.ending == "reset" and chance.random() < 0.1:
                self.reset(lines)
        elif not self.is_over:
            self.end(lines)

    def end(self, lines):
        """Ends in its way, once all was sent."""
        self.is_over = True
        if self.ending == "reset":
            self.reset(lines)
        elif self.ending == "end" or self.ending in ("quit", "bad") and self.chance.random() < 0.3:
            lines.append(f"end {self.number}")

    def reset(self, lines):
        self.is_over = self.is_gone = True
        lines.append(f"reset {self.number}")

    def finish(self, lines):
        """Ends its input, if it hasn't, and reads all."""
        if not self.is_gone:
            if self.is_narrow:
                lines.append(f"room {self.number} -")
                self.is_narrow = False
            if not self.is_over:
                lines.append(f"end {self.number}")
            self.is_over = True


class Hop:
    """A next hop at the end of a connection: it reads commands and replies to them."""

    def __init__(self, chance, number, is_good, is_pending):
        self.chance, self.number, self.is_pending = chance, number, is_pending
        self.wrong = "none" if is_good else chance.choices([*WRONGS], [*WRONGS.values()])[0]
        # The reply at which it does what is wrong; for recipients that may be each.
        self.at = chance.choice(["greeting", "EHLO", "HELO", "MAIL", "RCPT", "RCPT", "DATA", "content", "content"])
        self.offers = OFFERS if is_good else [one for one in OFFERS if chance.random() < 0.8]
        self.no_ehlo = not is_good and chance.random() < 0.1
        self.cuts = not is_good and chance.random() < 0.2
        self.text, self.state, self.left, self.out = b"", "command", 0, b""
        self.ends, self.is_gone, self.hangs = None, False, False
        self.reply("greeting", b"220 hop\r\n")

    def hear(self, octets):
        """Takes what the relay has written."""
        self.text += octets
        while self.text:
            if self.state == "command":
                line, found, rest = self.text.partition(b"\r\n")
                if not found:
                    return
                self.text = rest
                self.command(line)
            elif self.state == "data":
                end = -2 if self.text.startswith(b".\r\n") else self.text.find(b"\r\n.\r\n")
                if end == -1:
                    return
                self.text, self.state = self.text[end + 5:], "command"
                self.reply("content", None)
            else:
                if len(self.text) < self.left:
                    return
                self.text, self.state = self.text[self.left:], "command"
                self.reply("content", None)

    def command(self, line):
        verb = line[:4]
        if verb == b"EHLO":
            if self.no_ehlo:
                self.reply("EHLO", b"502 no\r\n")
            else:
                lines = [b"hop", *self.offers]
                self.reply("EHLO", b"".join(b"250%c%b\r\n" % (b"- "[index == len(lines) - 1], one)
                                            for index, one in enumerate(lines)))
        elif verb == b"HELO":
            self.reply("HELO", b"250 hop\r\n")
        elif verb == b"DATA":
            if self.reply("DATA", b"354 go\r\n"):
                self.state = "data"
        elif verb == b"BDAT":
            self.state, self.left = "chunk", int(line.split(b" ")[1])
        elif verb == b"QUIT":
            self.out += b"221 bye\r\n"
            self.ends = self.ends or "end"
        else:
            self.reply(verb.decode("latin-1"), None)

    def reply(self, what, octets):
        """Replies to a command, or does what is wrong. Returns whether it was accepted."""
        chance, wrong = self.chance, self.wrong
        octets = octets or chance.choice(COMPLETIONS)
        if self.ends:
            return False
        if wrong == "none" or what != self.at or what == "RCPT" and chance.random() < 0.5:
            self.out += octets
            return True
        if wrong in ("later", "refuse"):
            self.out += chance.choice(LATERS if wrong == "later" else REFUSALS)
            return wrong == "later" and self.out.endswith(b"354 odd\r\n")
        if wrong == "closing":
            self.out, self.ends = self.out + b"421 closing\r\n", "end"
        elif wrong == "broken":
            self.out += chance.choice(BROKEN)
        elif wrong == "early":
            self.out += octets + chance.choice(COMPLETIONS)
            return True
        elif wrong == "hang":
            self.hangs, self.wrong = True, "none"
            self.held = octets
            return True
        else:
            self.out += octets[:chance.randint(0, len(octets))] if chance.random() < 0.4 else b""
            self.ends = "end" if wrong == "close" else "reset"
        return False

    def act(self, lines):
        """Adds what it does now to the lines of the script."""
        if self.out:
            count = len(self.out)
            if self.cuts and self.chance.random() < 0.8:
                count = self.chance.randint(1, count)
            lines.append(f"input {self.number} {self.out[:count].hex()}")
            self.out = self.out[count:]
        if self.ends and not self.out:
            lines.append(f"{self.ends} {self.number}")
            self.is_gone = True

    def be_good(self, lines):
        """Replies from now on."""
        if self.is_pending:
            self.is_pending = False
            lines.append(f"connected {self.number}")
        self.wrong, self.cuts = "none", False
        if self.hangs:
            self.hangs, self.out = False, self.held
