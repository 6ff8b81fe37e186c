"""Clients, next hops and process statistics for the rows that run `relayd run` (tests/run.py)."""
import contextlib
import multiprocessing
import os
import pathlib
import re
import smtplib
import socket
import socketserver
import struct
import subprocess
import sys
import tempfile
import threading
import time

from relay_program import Difference, PATIENCE, Relay, Slow, preload, same
from smtp_sink import Listener, Sink

# What has to be prompt may take so many times as long, since others may be at work on the machine.
TIMES = float(os.environ.get("TIMES", "2"))
# How often a row is run that is too slow while the host takes more than this share of the processors' time.
ROUNDS, CALM = 5, 0.05
# How much longer a reply may take beside others' work, and a message to a hop that is there, in seconds.
PROMPT, SOON = 0.1 * TIMES, 1.0 * TIMES
TOO_MANY = b"421 relay.example too many connections, closing\r\n"
TIMEOUT = b"421 relay.example timeout, closing\r\n"
NO_SERVICE = b"554 relay.example no service\r\n"
TEXT = b"Subject: side by side\r\n\r\ntext\r\n.\r\n"


class Field:
    """A folder, a sink, and relays whose mail for example.org goes to the sink."""

    def __init__(self, program, folder):
        self.program, self.folder, self.sink = program, folder, Sink()

    def relay(self, name="relay", host="relay.example", more=None, **limits):
        """Makes a relay with a new spool, and with these routes and limits."""
        routes = {"example.org": ("next.example", self.sink.port), **(more or {})}
        relay = Relay(self.program, self.folder / name, routes, host, **limits)
        relay.run("init")
        return relay

    def arrived(self, count, seconds=PATIENCE):
        """Returns so many messages, which must arrive in that time."""
        if not self.sink.wait_for(count, seconds):
            raise Slow(f"{count} messages at the sink: not within {seconds} seconds")
        messages = self.sink.take_all()
        same("messages at the sink", len(messages), count)
        return messages

    def close(self):
        self.sink.close()
        same("breaches at the sink", self.sink.breaches, [])


def shim(field, name, relay, **environment):
    """Runs the relay's programs with a shim from now on."""
    preload(relay, field.folder, name, **environment)


class Clocks:
    """The clocks of a relay, which a test sets."""

    def __init__(self, field, relay):
        self.files = {name: field.folder / f"{relay.folder.name}-{name}" for name in ("SHIFT", "ADVANCE")}
        self.seconds = dict.fromkeys(self.files, 0)
        shim(field, "run_clocks", relay, **{name: str(file) for name, file in self.files.items()})

    def advance(self, seconds):
        """Advances both clocks."""
        self.add("ADVANCE", seconds)

    def set_by(self, seconds):
        """Sets the wall clock only, forward or back."""
        self.add("SHIFT", seconds)

    def add(self, name, seconds):
        self.seconds[name] += seconds
        # By a new name, so that nobody reads half a file.
        written = self.files[name].with_suffix(".new")
        written.write_text(str(self.seconds[name]))
        os.replace(written, self.files[name])

    def now(self):
        """Returns the relay's wall clock, in seconds."""
        return time.time() + sum(self.seconds.values())


def lines_of(relay, text):
    """Returns the lines of the log that contain a text, without findings in the configuration. A thread of the relay
    writes the log: a line without an end is one of which only a part is written."""
    *lines, _ = relay.log.read_text().split("\n")
    return [line for line in lines if text in line and not line.startswith(f"{relay.file}:")]


class Client:
    """A client on a connection of its own, from a local address, that reads one reply after another."""

    def __init__(self, relay, address="127.0.0.1"):
        self.link = socket.create_connection(("127.0.0.1", relay.port), PATIENCE, (address, 0))
        self.replies = self.link.makefile("rb")

    def __enter__(self):
        return self

    def __exit__(self, *failure):
        self.replies.close()
        self.link.close()

    def reply_lines(self):
        """Returns the lines of a reply, without their ends."""
        lines = [self.replies.readline()]
        while lines[-1][3:4] == b"-":
            lines.append(self.replies.readline())
        return [line.decode().rstrip("\r\n") for line in lines]

    def reply(self):
        """Returns the last line of a reply."""
        return self.reply_lines()[-1]

    def say(self, octets):
        self.link.sendall(octets)
        return self.reply()

    def begin(self):
        """Reads the greeting, and sends EHLO."""
        same("the greeting", self.reply()[:4], "220 ")
        same("the reply to EHLO", self.say(b"EHLO client.example\r\n")[:4], "250 ")

    def ask_for_text(self, path="b@example.org"):
        same("the reply to MAIL", self.say(b"MAIL FROM:<a@example.org>\r\n")[:4], "250 ")
        same("the reply to RCPT", self.say(f"RCPT TO:<{path}>\r\n".encode())[:4], "250 ")
        same("the reply to DATA", self.say(b"DATA\r\n")[:4], "354 ")

    def offer(self, path="b@example.org", text=TEXT):
        """Offers a message. Returns the reply to it."""
        self.ask_for_text(path)
        return self.say(text)

    def hand_in(self, path="b@example.org", text=TEXT):
        """Submits a message. Returns its queue number."""
        return number_of(self.offer(path, text))

    def rest(self):
        """Returns what is still to come until the connection ends, which may be no reset."""
        return self.replies.read()


def number_of(reply):
    if not reply.startswith("250 queued as "):
        raise Difference(f"a message is answered {reply}")
    return int(reply.split()[-1])


@contextlib.contextmanager
def clients_of(relay, count, address="127.0.0.1"):
    """Returns so many clients that were greeted, in order."""
    with contextlib.ExitStack() as stack:
        clients = []
        for _ in range(count):
            clients.append(stack.enter_context(Client(relay, address)))
            clients[-1].begin()
        yield clients


@contextlib.contextmanager
def beside(work):
    """Runs something in the background of the block; an event tells it when to end."""
    done = threading.Event()
    thread = threading.Thread(target=work, args=(done,))
    thread.start()
    try:
        yield
    finally:
        done.set()
        thread.join()


@contextlib.contextmanager
def in_a_process(work, *arguments):
    """Runs something in a process of its own for as long as the block runs. A thread would share the interpreter with
    the block, which would then be measured too."""
    process = multiprocessing.get_context("fork").Process(target=work, args=arguments, daemon=True)
    process.start()
    try:
        yield process
    finally:
        process.kill()
        process.join()


@contextlib.contextmanager
def hop_that_hangs(greeting=b""):
    """A listener that accepts connections and writes nothing, or nothing after its greeting. Returns its port, and what
    it has accepted so far."""
    with contextlib.ExitStack() as stack:
        listener, taken = stack.enter_context(socket.create_server(("127.0.0.1", 0), backlog=128)), []
        listener.settimeout(0.05)

        def take(done):
            while not done.is_set():
                with contextlib.suppress(TimeoutError):
                    taken.append(stack.enter_context(listener.accept()[0]))
                    taken[-1].sendall(greeting)

        with beside(take):
            yield listener.getsockname()[1], taken


@contextlib.contextmanager
def hop_that_falls_silent(*replies):
    """A listener that gives these replies on each connection, the first at once and each further one after octets have
    come, and then writes and reads nothing. Returns its port."""
    with contextlib.ExitStack() as stack:
        listener = stack.enter_context(socket.socket())
        # So the system takes little for it.
        listener.setsockopt(socket.SOL_SOCKET, socket.SO_RCVBUF, 1 << 14)
        listener.bind(("127.0.0.1", 0))
        listener.listen()
        listener.settimeout(0.05)

        def answer(link):
            for number, reply in enumerate(replies):
                if number > 0:
                    link.recv(1 << 16)
                link.sendall(reply + b"\r\n")

        def take(done):
            while not done.is_set():
                with contextlib.suppress(TimeoutError):
                    link = stack.enter_context(listener.accept()[0])
                    link.settimeout(PATIENCE)
                    answer(link)

        with beside(take):
            yield listener.getsockname()[1]


class Answering(socketserver.BaseRequestHandler):
    """A next hop's connection in these rows."""

    def handle(self):
        with contextlib.suppress(OSError):
            self.server.answer(self.request)


@contextlib.contextmanager
def hop_that(answer, port=0):
    """A next hop that serves its connections with this function, side by side, at this port or a free one. Returns its
    port."""
    with Listener(("127.0.0.1", port), Answering) as listener:
        listener.answer = answer
        thread = threading.Thread(target=listener.serve_forever, args=(0.02,))
        thread.start()
        try:
            yield listener.server_address[1]
        finally:
            listener.shutdown()
            thread.join()


def reset(link):
    """Closes a connection by a reset."""
    link.setsockopt(socket.SOL_SOCKET, socket.SO_LINGER, struct.pack("ii", 1, 0))
    link.close()


def slowest(client, count, path="b@example.org"):
    """Returns the longest wait for a 250 among so many messages, in seconds."""
    waits = []
    for _ in range(count):
        client.ask_for_text(path)
        begun = time.monotonic()
        number_of(client.say(TEXT))
        waits.append(time.monotonic() - begun)
    return max(waits)


def no_later(client, alone, count, what):
    """Reads a client's replies, and checks that they come no later than without the others, within the limit."""
    wait = slowest(client, count)
    if wait > alone + PROMPT:
        raise Slow(f"a message waits {wait:.3f} s for its 250 beside {what}, and {alone:.3f} s without")


def resident(process):
    """Returns the memory of a process, in octets (VmRSS)."""
    text = pathlib.Path(f"/proc/{process.pid}/status").read_text()
    return int(re.search(r"VmRSS:\s+(\d+) kB", text)[1]) * 1024


def worked(process):
    """Returns the processor time of a process so far, in seconds."""
    fields = pathlib.Path(f"/proc/{process.pid}/stat").read_text().rsplit(")", 1)[1].split()
    return (int(fields[11]) + int(fields[12])) / os.sysconf("SC_CLK_TCK")


def switches(process):
    """Returns how often a process has gone to sleep so far."""
    text = pathlib.Path(f"/proc/{process.pid}/status").read_text()
    return int(re.search(r"^voluntary_ctxt_switches:\s+(\d+)", text, re.M)[1])


def comes_to_rest(process, what):
    """Checks that a process does next to nothing for a second, once its work is done."""
    ends = time.monotonic() + PATIENCE
    spent = 1
    while spent > 0.1:
        if time.monotonic() > ends:
            raise Slow(f"relayd run uses {spent:.2f} s of a second {what}")
        before = worked(process)
        time.sleep(1)
        spent = worked(process) - before


def greeted(relay):
    with Client(relay) as client:
        return client.reply().startswith("220 ")


class Feeder(threading.Thread):
    """Submits messages with their numbers as subjects, until the relay is gone. Keeps those that got a 250, with their
    queue numbers."""

    def __init__(self, relay, place):
        super().__init__()
        self.relay, self.place, self.answered = relay, place, {}

    def run(self):
        with contextlib.suppress(OSError, smtplib.SMTPException):
            with smtplib.SMTP("127.0.0.1", self.relay.port, "client.example", PATIENCE) as client:
                client.ehlo()
                for token in range(self.place, self.place + 10000):
                    client.mail("a@example.org")
                    client.rcpt("b@example.org")
                    code, text = client.data(b"Subject: %d\r\n\r\n%b\r\n" % (token, b"x" * 4000))
                    if code == 250:
                        self.answered[token] = int(text.split()[-1])


def token_of(message):
    return int(re.search(rb"\r\nSubject: (\d+)\r\n", message.content)[1])


def tokens_at(sink):
    return {token_of(message) for message in list(sink.messages)}


def repeats_at(sink):
    """Returns how many messages came again although the sink knew that its reply had arrived: no relay may relay these
    again."""
    repeats, unasked, heard, seen = 0, [], set(), set()
    for message in list(sink.messages):
        token = token_of(message)
        repeats += token in seen
        if token in heard:
            unasked.append(token)
        seen.add(token)
        if message.was_heard:
            heard.add(token)
    return repeats, unasked


def play_rows(name, rows):
    """Runs the rows that the command line names after the program, or all, each in a folder of its own. Ends at the
    first difference.

    What a row asks of waits and rates, no relay can keep while the host runs other machines on the processors of this
    one. So a row that is too slow then is run up to ROUNDS times, in a calm minute if one comes. Any other difference,
    such as a lost message, ends it at once."""
    program, *names = sys.argv[1:]
    rows = [row for row in rows if not names or row.__name__ in names]
    for row in rows:
        begun = time.monotonic()
        for number in range(ROUNDS):
            with Processors() as processors:
                fault = fault_of(row, program)
            if not fault:
                break
            text = f"{type(fault).__name__}: {fault}"
            is_slow = isinstance(fault, (Slow, TimeoutError, subprocess.TimeoutExpired))
            if not is_slow or processors.taken <= CALM or number == ROUNDS - 1:
                sys.exit(f"{name}: {row.__name__}: {text}")
            print(f"{name}: {row.__name__}: again, since the host took {processors.taken:.0%} of the processors: "
                  f"{text}")
            wait_for_calm()
        if names:
            print(f"{name}: {row.__name__}: {time.monotonic() - begun:.1f} s")
    print(f"{name}: {len(rows)} rows, each as it has to be")


def fault_of(row, program):
    """Runs a row in a folder of its own. Returns its fault, or None."""
    with tempfile.TemporaryDirectory() as folder:
        field = Field(os.path.realpath(program), pathlib.Path(folder))
        try:
            row(field)
            field.close()
        except (Difference, OSError, subprocess.SubprocessError, smtplib.SMTPException) as fault:
            return fault
    return None


class Processors:
    """What share of a block's processor time the host took for other machines: `steal` in proc(5)."""

    def __enter__(self):
        self.begun = self.times()
        return self

    def __exit__(self, *failure):
        passed = [now - then for now, then in zip(self.times(), self.begun)]
        self.taken = passed[7] / max(sum(passed), 1)

    def times(self):
        """Returns the times of all processors since the machine was started, without those of guests."""
        return [int(word) for word in pathlib.Path("/proc/stat").read_text().split()[1:9]]


def wait_for_calm():
    """Waits until the host takes next to nothing for five seconds, for ten minutes at most."""
    ends = time.monotonic() + 600
    while time.monotonic() < ends:
        with Processors() as processors:
            time.sleep(5)
        if processors.taken <= CALM:
            return
