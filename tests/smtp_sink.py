"""An SMTP server in Python that keeps what it gets, octet for octet, for tests of a client. Its manners say what it
offers, what it refuses and where it hangs up; it notes each violation of the protocol by the client as a breach.
"""
import dataclasses
import socket
import socketserver
import threading
import time

CRLF = b"\r\n"


class HungUp(Exception):
    """The connection has ended, from either side."""


@dataclasses.dataclass
class Manners:
    """How a sink behaves; by default it accepts everything."""

    # The words of the EHLO reply. With none of them in it, EHLO itself is still taken.
    offers: tuple = ("PIPELINING", "CHUNKING", "DSN")
    # The reply to the RCPT of a path, with its brackets, where it isn't 250.
    refusals: dict = dataclasses.field(default_factory=dict)
    # The reply to a content.
    content_reply: str = "250 taken"
    # The unit that isn't answered, and after which the connection is closed: "connection", "EHLO", "MAIL",
    # "RCPT", "DATA", "some content" (the beginning of a dot text) or "content" (all of it).
    hangs_up_at: str = ""
    # How long it waits before each read, in seconds, and the most octets of a read.
    pause: float = 0
    read_size: int = 1 << 18
    # The size of its receive buffer, in octets; 0 leaves it to the system.
    receive_buffer: int = 0


@dataclasses.dataclass
class Taken:
    """A transaction whose mail data came whole."""

    # What stood after `MAIL FROM:` and after each `RCPT TO:` that was answered 250.
    mail: bytes
    recipients: list
    content: bytes
    by_chunks: bool
    # QUIT came after its reply, so that was heard.
    was_heard: bool = False


class Reader:
    """Reads lines and octets from a socket."""

    def __init__(self, link, manners):
        self.socket, self.manners, self.held = link, manners, bytearray()

    def more(self):
        time.sleep(self.manners.pause)
        octets = self.socket.recv(self.manners.read_size)
        if not octets:
            raise HungUp
        self.held += octets

    def take(self, size):
        while len(self.held) < size:
            self.more()
        octets = bytes(self.held[:size])
        del self.held[:size]
        return octets

    def up_to(self, end):
        """Returns what comes before these octets, and removes both."""
        looked = 0
        while (place := self.held.find(end, looked)) < 0:
            looked = max(0, len(self.held) - len(end))
            self.more()
        octets = self.take(place)
        self.take(len(end))
        return octets

    def dot_text(self):
        """Returns the mail data of a DATA command: only CR LF ends a line, and the first period of each is removed."""
        while len(self.held) < 3:
            self.more()
        if self.held.startswith(b".\r\n"):
            self.take(3)
            return b""
        lines = self.up_to(b"\r\n.\r\n").split(CRLF)
        return b"".join((line[1:] if line.startswith(b".") else line) + CRLF for line in lines)


class Conversation(socketserver.BaseRequestHandler):
    """One connection to a sink."""

    def handle(self):
        self.sink, self.manners = self.server.sink, self.server.sink.manners
        # Two replies one after another wait for no acknowledgement.
        self.request.setsockopt(socket.IPPROTO_TCP, socket.TCP_NODELAY, 1)
        self.reader = Reader(self.request, self.manners)
        self.mail, self.recipients, self.chunks = None, [], b""
        # The last message that it has taken.
        self.last = None
        self.sink.greets.wait()
        try:
            self.reply("connection", "220 sink.example ready")
            while self.command(self.reader.up_to(CRLF)):
                pass
        except (HungUp, ConnectionError):
            pass
        self.sink.closed()

    def reply(self, unit, text):
        if self.manners.hangs_up_at == unit:
            raise HungUp
        self.request.sendall(text.encode() + CRLF)

    def command(self, line):
        """Answers a command. Returns whether the connection goes on."""
        verb = line.split(b" ")[0].split(b":")[0].upper().decode()
        self.sink.heard(line)
        if verb not in ("BDAT", "QUIT") and "PIPELINING" not in self.manners.offers and self.reader.held:
            self.sink.breach(f"{verb} came with more after it, and PIPELINING isn't offered")
        if verb == "QUIT":
            if self.last:
                self.last.was_heard = True
            self.reply("QUIT", "221 closing")
            return False
        answer = getattr(self, f"on_{verb.lower()}", None)
        if answer is None:
            self.sink.breach(f"an unknown command: {line!r}")
            self.reply(verb, "500 unknown command")
        else:
            answer(line)
        return True

    def on_ehlo(self, line):
        texts = ["sink.example", *self.manners.offers]
        lines = [f"250-{text}" for text in texts[:-1]] + [f"250 {texts[-1]}"]
        self.reply("EHLO", "\r\n".join(lines))

    def on_helo(self, line):
        self.reply("HELO", "250 sink.example")

    def on_mail(self, line):
        self.mail, self.recipients, self.chunks = line[len(b"MAIL FROM:"):], [], b""
        self.reply("MAIL", "250 sender taken")

    def on_rcpt(self, line):
        told = line[len(b"RCPT TO:"):]
        path = told.split(b" ")[0].decode()
        answer = self.manners.refusals.get(path, "250 recipient taken")
        if answer.startswith("250"):
            self.recipients.append(told)
        self.reply("RCPT", answer)

    def on_data(self, line):
        if self.reader.held:
            self.sink.breach("octets came after DATA before its reply")
        if not self.recipients:
            self.reply("DATA", "554 no recipients")
            return
        self.reply("DATA", "354 go on")
        if self.manners.hangs_up_at == "some content":
            self.reader.take(1)
            raise HungUp
        self.taken(self.reader.dot_text(), False)

    def on_bdat(self, line):
        if "CHUNKING" not in self.manners.offers:
            self.sink.breach("BDAT came, and CHUNKING isn't offered")
        words = line.split()
        self.chunks += self.reader.take(int(words[1]))
        if not self.recipients:
            self.reply("DATA", "554 no recipients")
        elif words[-1].upper() == b"LAST":
            self.taken(self.chunks, True)
        else:
            self.reply("BDAT", "250 chunk taken")

    def on_rset(self, line):
        self.mail, self.recipients, self.chunks = None, [], b""
        self.reply("RSET", "250 reset")

    def on_noop(self, line):
        self.reply("NOOP", "250 ok")

    def taken(self, content, by_chunks):
        """The message counts as accepted before its reply, which may be lost on its way."""
        self.last = Taken(self.mail, self.recipients, content, by_chunks)
        self.sink.keep(self.last, self.manners.content_reply)
        self.reply("content", self.manners.content_reply)
        self.mail, self.recipients, self.chunks = None, [], b""


class Listener(socketserver.ThreadingTCPServer):
    allow_reuse_address = True
    daemon_threads = True
    request_queue_size = 128

    def handle_error(self, request, client_address):
        self.sink.breach("the sink itself failed")
        super().handle_error(request, client_address)


class Sink:
    """A sink on a port of this address, which listens as soon as it is made, until `close`."""

    def __init__(self, port=0, manners=None, address="127.0.0.1"):
        self.manners = manners or Manners()
        self.messages, self.commands, self.breaches = [], [], []
        self.connections, self.changed = 0, threading.Condition()
        self.greets = threading.Event()
        self.greet()
        self.listener = Listener((address, port), Conversation)
        if self.manners.receive_buffer:
            # Each connection has the listener's.
            self.listener.socket.setsockopt(socket.SOL_SOCKET, socket.SO_RCVBUF, self.manners.receive_buffer)
        self.listener.sink = self
        self.port = self.listener.server_address[1]
        self.thread = threading.Thread(target=self.listener.serve_forever, args=(0.02,), daemon=True)
        self.thread.start()

    def __enter__(self):
        return self

    def __exit__(self, *failure):
        self.close()

    def hold_greetings(self):
        """Greets no connection before `greet`."""
        self.greets.clear()

    def greet(self):
        """Greets the connections that are there, and each later one."""
        self.greets.set()

    def close(self):
        self.greet()
        self.listener.shutdown()
        self.listener.server_close()
        self.thread.join()

    def heard(self, line):
        self.commands.append(line)

    def breach(self, text):
        self.breaches.append(text)

    def keep(self, message, answer):
        """Keeps mail data, unless it is refused."""
        if answer.startswith("2"):
            with self.changed:
                self.messages.append(message)
                self.changed.notify_all()

    def closed(self):
        with self.changed:
            self.connections += 1
            self.changed.notify_all()

    def wait_for(self, count, seconds):
        """Returns whether so many messages have come in that time."""
        with self.changed:
            return self.changed.wait_for(lambda: len(self.messages) >= count, seconds)

    def take_all(self):
        """Returns the messages since the last call."""
        with self.changed:
            messages, self.messages = self.messages, []
        return messages
