"""A relayd in a folder of its own, for tests: its configuration, its subcommands, and `serve` or `run` in the
background; a running `relayd play`; shims for calls of the C library."""
import collections
import contextlib
import os
import pathlib
import random
import select
import signal
import socket
import subprocess
import sys
import time

HERE = pathlib.Path(__file__).resolve().parent

# How long anything may take that ought to be over at once, in seconds.
PATIENCE = 20

# The sockets that keep ports for this test: the latest ones, since a process has only so many descriptors.
KEPT = collections.deque(maxlen=500)

# What a subcommand that locks the spool ends with where another process holds the lock: its status, and its lines.
LOCKED = (1, "relayd: device\nrelayd: another relayd holds the spool: stop it, or wait until it ends")


class Difference(Exception):
    """Something differs from what is expected."""


class Slow(Difference):
    """Something takes longer than it may."""


def shown(value):
    """Returns a value as text, without its middle if it is long."""
    text = repr(value)
    return text if len(text) < 1000 else f"{text[:500]} [...] {text[-400:]}"


def same(what, found, wanted):
    if found != wanted:
        raise Difference(f"{what}: {shown(found)}, and not {shown(wanted)}")


def until(what, holds, seconds=PATIENCE):
    """Waits until a condition holds."""
    ends = time.monotonic() + seconds
    while not holds():
        if time.monotonic() > ends:
            raise Slow(f"{what}: not within {seconds} seconds")
        time.sleep(0.01)


def run_main(name, main):
    """Calls a test's main function with the command line's arguments. Prints a difference with the test's name."""
    try:
        main(*sys.argv[1:])
    except Difference as difference:
        sys.exit(f"{name}: {difference}")


def built(name, folder):
    """Builds a shim for calls of the C library, once in a folder, from its source beside this file. Returns its path.
    """
    library = pathlib.Path(folder) / f"{name}.so"
    if not library.exists():
        subprocess.run(["cc", "-shared", "-fPIC", "-O1", "-o", library, HERE / f"{name}.c"], check=True)
    return library


def preload(relay, folder, name, **environment):
    """Runs a relay's programs with a shim, built in this folder, from now on."""
    relay.environment.update(LD_PRELOAD=str(built(name, folder)), **environment)


def free_port(is_kept=True):
    """Returns a port of 127.0.0.1 that nobody listens on, of those that the system doesn't assign by itself. Another
    test isn't given it before this one ends, unless it isn't kept. Connections to it are refused, and whoever reuses
    addresses, as a relay and a sink do, may listen there."""
    while True:
        port, probe = random.randrange(10_000, 32_768), socket.socket()
        with contextlib.suppress(OSError):
            probe.bind(("127.0.0.1", port))
            # Only after it is bound: of two probes that reuse addresses, both would be.
            probe.setsockopt(socket.SOL_SOCKET, socket.SO_REUSEADDR, 1)
            if is_kept:
                KEPT.append(probe)
            return port


def is_listening(port):
    """Returns whether somebody listens there. Makes no connection, which would use up a round of `serve`."""
    wanted = f"0100007F:{port:04X}"
    lines = pathlib.Path("/proc/net/tcp").read_text().splitlines()[1:]
    return any(line.split()[1] == wanted and line.split()[3] == "0A" for line in lines)


class Play:
    """A running `relayd play`: each line is answered before the next is written."""

    def __init__(self, program):
        self.process = subprocess.Popen(
            [program, "play"], stdin=subprocess.PIPE, stdout=subprocess.PIPE, text=True, bufsize=1)

    def __enter__(self):
        return self

    def __exit__(self, *_):
        self.process.stdin.close()
        self.process.wait(PATIENCE)
        self.process.stdout.close()

    def tell(self, line):
        """Writes a line, which stays in the buffer until an answer is read."""
        self.process.stdin.write(line + "\n")

    def answer(self):
        """Returns the next line of output, with its end; empty if the play has ended."""
        self.process.stdin.flush()
        return self.process.stdout.readline()

    def say(self, line):
        """Writes a line and returns the one line of its answer."""
        self.tell(line)
        return self.answer().rstrip("\n")


class Relay:
    """A relay with its spool in a folder. Its routes lead from a domain to a next hop's name and port, and to its
    address if that isn't 127.0.0.1."""

    def __init__(self, program, folder, routes, host="relay.example", **limits):
        self.program, self.folder = str(pathlib.Path(program).resolve()), pathlib.Path(folder)
        self.host, self.limits, self.port = host, limits, free_port()
        self.folder.mkdir(exist_ok=True)
        self.file, self.spool = self.folder / "relayd.toml", self.folder / "relay.spool"
        self.second, self.log = self.folder / "relay.spool.2", self.folder / "log"
        self.environment = dict(os.environ)
        self.route(routes)

    def route(self, routes):
        """Writes the configuration with these routes."""
        lines = [f'host = "{self.host}"', f'listen = "127.0.0.1:{self.port}"', f'spool = "{self.spool}"']
        lines += [f"{key} = {value}" for key, value in self.limits.items()]
        lines += ["[routes]"]
        for domain, (name, port, *address) in routes.items():
            host = address[0] if address else "127.0.0.1"
            lines.append(f'"{domain}" = {{ name = "{name}", at = "{host}:{port}" }}')
        self.file.write_text("\n".join(lines) + "\n")

    def forget(self):
        """Removes the spool's files."""
        self.spool.unlink(missing_ok=True)
        self.second.unlink(missing_ok=True)

    def words(self, *words):
        return [self.program, words[0], "--config", str(self.file), *words[1:]]

    def ended(self, seconds, *words):
        return subprocess.run(self.words(*words), capture_output=True, timeout=seconds, env=self.environment)

    def run(self, *words):
        """Returns the lines that a subcommand prints. It must succeed, and print nothing else."""
        ended = self.ended(120, *words)
        same(f"relayd {' '.join(words)}", (ended.returncode, ended.stderr), (0, b""))
        return ended.stdout.decode().splitlines()

    def logged(self, *words):
        """Returns the lines that a subcommand prints, and those of its log. It must succeed."""
        ended = self.ended(120, *words, "--log")
        same(f"relayd {' '.join(words)} --log", ended.returncode, 0)
        return ended.stdout.decode().splitlines(), ended.stderr.decode().splitlines()

    def refused(self, *words):
        """Returns the status and the fault line of a subcommand, which prints nothing else but findings in its
        configuration."""
        ended = self.ended(PATIENCE, *words)
        same(f"relayd {' '.join(words)} prints", ended.stdout, b"")
        lines = [line for line in ended.stderr.decode().splitlines() if not line.startswith(f"{self.file}:")]
        return ended.returncode, "\n".join(lines)

    def held(self):
        """Returns the output of `list`, as tuples of number, place, path and due time."""
        rows = [line.split(" ") for line in self.run("list")]
        return [(int(row[0]), int(row[1]), " ".join(row[2:-1]), int(row[-1])) for row in rows]

    def start(self, *words):
        """Starts `serve`, and waits until it listens."""
        command, pipe = self.words("serve", *words), subprocess.PIPE
        process = subprocess.Popen(command, stdout=pipe, stderr=pipe, env=self.environment)
        ends = time.monotonic() + PATIENCE
        while not is_listening(self.port):
            if process.poll() is not None or time.monotonic() > ends:
                process.kill()
                raise Difference(f"relayd serve doesn't listen: {process.communicate()}")
            time.sleep(0.002)
        return process

    @contextlib.contextmanager
    def serving(self, *words, log=None):
        """Runs `serve` in the background; its rounds must be used up within the block. The list has its lines then, and
        `log`, if it is given, those of its log."""
        process, lines = self.start(*words, *[] if log is None else ["--log"]), []
        try:
            yield lines
            out, errors = process.communicate(timeout=PATIENCE)
            if log is not None:
                log += errors.decode().splitlines()
                errors = b""
            same("relayd serve ends", (process.returncode, errors), (0, b""))
            lines += out.decode().splitlines()
        finally:
            process.kill()
            process.wait()
            process.stdout.close()
            process.stderr.close()

    def begin(self, *words, **options):
        """Starts `run`, and waits until it is ready; its log goes to a file, or where the options say."""
        with self.log.open("ab") as log:
            options = {"stdout": subprocess.PIPE, "stderr": log, "env": self.environment, **options}
            process = subprocess.Popen(self.words("run", *words), **options)
        ready = select.select([process.stdout], [], [], PATIENCE)[0]
        line = process.stdout.readline() if ready else b""
        if line != f"ready {self.host} 127.0.0.1:{self.port}\n".encode():
            process.kill()
            raise Difference(f"relayd run isn't ready: {process.wait()}, {line}, {self.log.read_bytes()[-500:]}")
        return process

    @contextlib.contextmanager
    def running(self, *words, **options):
        """Runs `run` in the background. It must run to the end of the block, where a signal ends it at once."""
        process = self.begin(*words, **options)
        try:
            yield process
            same("relayd run goes on", process.poll(), None)
            process.terminate()
            same("a signal ends relayd run", process.wait(PATIENCE), -signal.SIGTERM)
            same("relayd run prints after `ready`", process.stdout.read(), b"")
        finally:
            process.kill()
            process.wait()
            process.stdout.close()
