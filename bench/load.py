#!/usr/bin/env python3
"""Measures relayd over 127.0.0.1: one line per figure, medians of interleaved runs, beside bare syncs on the same disk
in the same runs, and beside Postfix if tests/interop.sh has unpacked it.

    bench/load.py build/relayd [FIGURE ..]

The figures are kept, workers, run, connections, large, push and bounded; all where none is given.
DISK (build) is the folder whose device is measured, RUNS (5) how many runs a median is of, QUEUE (10000) how many
messages a push sends, MANY (100000) how many messages go through one spool for the figure bounded, PACKAGES
(build/interop) where Postfix is looked for. The client is bench/client.c and the next hop bench/sink.c; what they take
counts. With FLOOR=1 the same is measured of bench/floor.c, a relay that does the least:
what it doesn't reach, no relay does on this machine. With SYNC_WAIT each sync takes so many microseconds more, the bare
ones too: many a machine's disk answers a sync from a cache, which no disk does that keeps what it has synced.
"""
import contextlib
import os
import pathlib
import statistics
import subprocess
import sys
import tempfile
import threading
import time

HERE = pathlib.Path(__file__).resolve().parent
sys.path.insert(0, str(HERE.parent / "tests"))
sys.dont_write_bytecode = True

from mail_servers import Postfix, can_make_rooms
from relay_program import Difference, Relay, same

RUNS = int(os.environ.get("RUNS", 5))
QUEUE = int(os.environ.get("QUEUE", 10000))
MANY = int(os.environ.get("MANY", 100000))
# How many of those come at one connection.
AT_ONCE = 1000
# What a message of 1,024 octets adds to the spool, and what an outcome of one place does.
ACCEPT, OUTCOME = 1196, 43


def built(name, folder):
    """Builds a C program of this folder, once. Returns its path."""
    program = folder / name
    if not program.exists():
        subprocess.run(["cc", "-O2", "-pthread", "-o", program, HERE / f"{name}.c"], check=True)
    return program


class Client:
    """bench/client.c, which submits `count` messages of `size` octets, on one connection or one each."""

    def __init__(self, folder, port, count, size, way):
        words = [built("client", folder), str(port), str(count), str(size), way]
        self.process = subprocess.Popen(words, stdin=subprocess.PIPE, stdout=subprocess.PIPE, text=True)

    def line(self):
        line = self.process.stdout.readline()
        if not line:
            raise Difference("the client gave up")
        return line

    def begin(self):
        self.process.stdin.write("\n")
        self.process.stdin.flush()

    def moments(self):
        """Returns when its messages began, and when the last got its 250. The connection stays open."""
        begun, ended = map(float, self.line().split())
        return begun, ended

    def seconds(self):
        """Returns how long the messages take."""
        [(begun, ended)] = hand_in([self])
        return ended - begun

    def close(self):
        self.process.communicate()


def bare_pairs(folder, sizes):
    """Returns the seconds for pairs of syncs after writes at the end of a bare file, as a spool's append makes them."""
    file = folder / "bare"
    handle = os.open(file, os.O_CREAT | os.O_TRUNC | os.O_WRONLY, 0o600)
    begun, place = time.perf_counter(), 0
    for octets in sizes:
        os.pwrite(handle, b"\0" * octets, place)
        os.fdatasync(handle)
        os.pwrite(handle, b"\1", place)
        os.fdatasync(handle)
        place += octets
    ended = time.perf_counter()
    os.close(handle)
    file.unlink()
    return ended - begun


class Sink:
    """bench/sink.c, built and started. It ends after so many messages."""

    def __init__(self, folder, count):
        self.process = subprocess.Popen([built("sink", folder), str(count)], stdout=subprocess.PIPE)
        self.port = int(self.process.stdout.readline())

    def wait(self):
        same("the sink's end", self.process.wait(600), 0)
        self.process.stdout.close()


class Floor(Relay):
    """bench/floor.c in place of a relay."""

    def route(self, routes):
        super().route(routes)
        [(_, self.hop)] = routes.values()

    def words(self, *words):
        return [self.program, words[0], str(self.port), str(self.hop), str(self.spool), *words[1:]]


class HoldingPostfix(Postfix):
    """Postfix that puts accepted mail on hold, and so tries no delivery."""

    def files(self):
        files = super().files()
        files["etc/postfix/main.cf"] += "smtpd_data_restrictions = check_sender_access static:HOLD\n"
        files["etc/postfix/main.cf"] += "in_flow_delay = 0\n"
        return files


class ReleasingPostfix(Postfix):
    """Postfix that takes mail off hold, and delivers it."""

    def files(self):
        files = super().files()
        # It opens its output anew for its log, as a user who may not write this one.
        release = "postfix check\npostsuper -H ALL > /dev/null\n"
        files["start"] = files["start"].replace("postfix check\n", release)
        return files


def hand_in(clients):
    """Starts clients once each is ready, and returns the times of each."""
    for client in clients:
        client.line()
    for client in clients:
        client.begin()
    return [client.moments() for client in clients]


def hand_in_side_by_side(folder, port, clients, count, size):
    """Returns when the first of so many messages on each of so many parallel connections began, the seconds from there
    to the last reply of all, and how much longer the slowest connection took than the median."""
    handing = [Client(folder, port, count, size, "kept") for _ in range(clients)]
    moments = hand_in(handing)
    for client in handing:
        client.close()
    begun, seconds = min(begun for begun, _ in moments), [ended - begun for begun, ended in moments]
    return begun, max(ended for _, ended in moments) - begun, max(seconds) / statistics.median(seconds)


class Bench:
    """A folder on the measured disk, and the relay that is measured there: relayd, or the floor."""

    def __init__(self, program, folder, make=Relay):
        self.program, self.folder, self.make, self.count, self.floor = program, folder, make, 0, None

    def add_floor(self):
        """Makes the floor beside the relay, in a folder on the same disk."""
        folder = self.folder / "floors"
        folder.mkdir()
        self.floor = Bench(built("floor", folder), folder, Floor)

    def new_relay(self, port, **limits):
        self.count += 1
        folder = self.folder / f"relay{self.count}"
        relay = self.make(self.program, folder, {"out.example": ("next.example", port)}, **limits)
        relay.run("init")
        return relay

    def kept(self, count, size):
        """Returns the seconds of so many messages on one connection. The relay is killed then, before it relays them.
        """
        relay = self.new_relay(9)
        process = relay.start()
        client = Client(self.folder, relay.port, count, size, "kept")
        seconds = client.seconds()
        process.kill()
        process.communicate()
        client.close()
        same("messages in the spool", len(relay.held()), count)
        return seconds, relay

    def side_by_side(self, workers, count, size):
        """Returns the seconds of so many messages on each of so many parallel connections, to the last reply of all,
        and how much longer the slowest of them took than the median. The relay is killed then."""
        relay = self.new_relay(9)
        return self.handed_in(relay, relay.start("--workers", str(workers)), workers, count, size)

    def run_side_by_side(self, sessions, count, size):
        """The measure of `side_by_side`, for `run`, which keeps what it accepts: nobody listens at its next hop."""
        relay = self.new_relay(9, sessions_per_client=64)
        return self.handed_in(relay, relay.begin("--quiet"), sessions, count, size)

    def handed_in(self, relay, process, sessions, count, size):
        """Returns the seconds and the spread of `side_by_side`, for a process of a relay, which is killed then."""
        _, seconds, spread = hand_in_side_by_side(self.folder, relay.port, sessions, count, size)
        process.kill()
        process.communicate()
        same("messages in the spool", len(relay.held()), sessions * count)
        return seconds, spread

    def run_passing_on(self, sessions, count, size):
        """Returns the seconds of so many messages on each of so many connections, from the first octet until `run` has
        relayed all of them to a sink, on as many connections at a time as Postfix makes."""
        amount = sessions * count
        sink = Sink(self.folder, amount)
        relay = self.new_relay(sink.port, sessions_per_client=64, attempts_per_hop=20)
        process = relay.begin("--quiet")
        begun, _, _ = hand_in_side_by_side(self.folder, relay.port, sessions, count, size)
        sink.wait()
        ended = time.monotonic()
        process.kill()
        process.communicate()
        return ended - begun

    def one_a_connection(self, count, size):
        """Returns the seconds of so many connections with a message each, and of relaying each message after it."""
        sink = Sink(self.folder, count)
        relay = self.new_relay(sink.port)
        with relay.serving("--rounds", str(count)) as lines:
            begun = time.perf_counter()
            client = Client(self.folder, relay.port, count, size, "each")
            client.seconds()
            client.close()
        ended = time.perf_counter()
        sink.wait()
        same("lines of serve", len(lines), count)
        return ended - begun

    def pushed(self, count, size):
        """Returns the seconds of a push of so many queued messages."""
        relay = self.kept(count, size)[1]
        sink = Sink(self.folder, count)
        relay.route({"out.example": ("next.example", sink.port)})
        begun = time.perf_counter()
        lines = relay.run("push")
        ended = time.perf_counter()
        sink.wait()
        same("lines of push", len(lines), count)
        return ended - begun

    def bounded(self, size):
        """Returns the seconds of MANY messages that come AT_ONCE on a connection and are relayed after it, and the
        greatest size of both files of the spool meanwhile."""
        sink = Sink(self.folder, MANY)
        relay, rounds, most, ended = self.new_relay(sink.port), MANY // AT_ONCE, 0, threading.Event()

        def watch():
            nonlocal most
            while not ended.wait(0.005):
                most = max(most, relay.spool.stat().st_size + relay.second.stat().st_size)

        watcher = threading.Thread(target=watch)
        process, begun = relay.start("--rounds", str(rounds)), time.perf_counter()
        watcher.start()
        reader = threading.Thread(target=process.stdout.read)
        reader.start()
        for _ in range(rounds):
            client = Client(self.folder, relay.port, AT_ONCE, size, "kept")
            client.seconds()
            client.close()
        same("the end of serve", process.wait(600), 0)
        seconds = time.perf_counter() - begun
        ended.set()
        watcher.join()
        reader.join()
        sink.wait()
        same("what is held", relay.run("list"), [])
        return seconds, most

    def postfix_spool(self):
        """Returns a folder for a queue of Postfix."""
        self.count += 1
        spool = self.folder / f"postfix{self.count}"
        spool.mkdir()
        return spool

    def postfix_kept(self, packages, count, size, spool):
        """The measure of `kept`, for Postfix, whose queue is on the measured disk."""
        with contextlib.closing(HoldingPostfix(packages, 9, 9, spool)) as server:
            client = Client(self.folder, server.port, count, size, "kept")
            seconds = client.seconds()
            client.close()
        return seconds

    def postfix_side_by_side(self, packages, clients, count, size):
        """The measure of `side_by_side`, for Postfix, without the spread."""
        with contextlib.closing(HoldingPostfix(packages, 9, 9, self.postfix_spool())) as server:
            return hand_in_side_by_side(self.folder, server.port, clients, count, size)[1]

    def postfix_passing_on(self, packages, clients, count, size):
        """The measure of `run_passing_on`, for Postfix."""
        sink = Sink(self.folder, clients * count)
        with contextlib.closing(Postfix(packages, sink.port, 9, self.postfix_spool())) as server:
            begun, _, _ = hand_in_side_by_side(self.folder, server.port, clients, count, size)
            sink.wait()
            return time.monotonic() - begun

    def postfix_pushed(self, packages, count, size):
        """Returns the seconds from when Postfix listens to the end of its delivery of so many queued messages, on
        parallel connections."""
        spool = self.postfix_spool()
        self.postfix_kept(packages, count, size, spool)
        sink = Sink(self.folder, count)
        with contextlib.closing(ReleasingPostfix(packages, sink.port, 9, spool)):
            begun = time.perf_counter()
            sink.wait()
            ended = time.perf_counter()
        return ended - begun


def interleaved(*measures):
    """Returns the seconds of each in each run: a list per run."""
    return [[measure() for measure in measures] for _ in range(RUNS)]


def median_of(runs, of):
    return statistics.median(of(run) for run in runs)


def tell(name, figure, unit, *ratios):
    beside = ", ".join(f"{ratio:.2f} of {label}" for ratio, label in ratios)
    print(f"{name:<52} {figure:12.0f} {unit}   {beside}", flush=True)


def tell_beside(bench, name, amount, unit, measure, bare, label, postfix=None):
    """Measures the relay, bare syncs, and the floor and Postfix if they are available, in interleaved runs. A ratio is
    the median of the runs' own ratios, since a disk that is slow for a while is so for both."""
    floor = bench.floor
    measures = [lambda: measure(bench), bare]
    measures += [lambda: measure(floor)] if floor else []
    measures += [postfix] if postfix else []
    runs = interleaved(*measures)
    ratios = [(median_of(runs, lambda run: run[1] / run[0]), label)]
    ratios += [(median_of(runs, lambda run: run[2] / run[0]), "the floor")] if floor else []
    ratios += [(median_of(runs, lambda run: run[-1] / run[0]), "Postfix")] if postfix else []
    tell(name, amount / median_of(runs, lambda run: run[0]), unit, *ratios)
    if floor:
        beside = median_of(runs, lambda run: run[1] / run[2]), label
        tell("  the floor of that", amount / median_of(runs, lambda run: run[2]), unit, beside)


def tell_kept(bench, packages):
    def postfix():
        return bench.postfix_kept(packages, 500, 1024, bench.postfix_spool())

    tell_beside(bench, "serve: messages of 1 KiB at a kept session", 500, "messages/s",
                lambda relays: relays.kept(500, 1024)[0], lambda: bare_pairs(bench.folder, [ACCEPT] * 500),
                "two bare syncs", postfix if packages else None)


def tell_side_by_side(name, amount, ours, measures):
    """Measures so many messages by relayd, with seconds and spread, beside each of these measures."""
    spreads = []

    def seconds_of_ours():
        seconds, spread = ours()
        spreads.append(spread)
        return seconds

    runs = interleaved(seconds_of_ours, *measures.values())
    ratios = [(median_of(runs, lambda run: run[at] / run[0]), label) for at, label in enumerate(measures, 1)]
    tell(name, amount / median_of(runs, lambda run: run[0]), "messages/s", *ratios)
    print(f"  the slowest session took {max(spreads):.2f} times the median at most", flush=True)


def measures_beside(bench, packages, sessions, count):
    """Returns the measures to compare with: bare syncs, Postfix if it is available, and at one session the floor, which
    serves one at a time."""
    amount = sessions * count
    measures = {"two bare syncs": lambda: bare_pairs(bench.folder, [ACCEPT] * amount)}
    if sessions == 1 and bench.floor:
        measures["the floor"] = lambda: bench.floor.kept(amount, 1024)[0]
    if packages:
        measures["Postfix"] = lambda: bench.postfix_side_by_side(packages, sessions, count, 1024)
    return measures


def tell_workers(bench, packages):
    for workers, count in ((1, 500), (8, 100), (64, 25)):
        measures = measures_beside(bench, packages, workers, count)
        if workers == 1:
            measures["serve"] = lambda: bench.kept(count, 1024)[0]
        tell_side_by_side(f"serve --workers {workers}: messages of 1 KiB at kept sessions", workers * count,
                          lambda: bench.side_by_side(workers, count, 1024), measures)


def tell_run(bench, packages):
    """Measures `run` beside `serve` with as many workers, and the others; and what it relays meanwhile."""
    for sessions, count in ((1, 2000), (8, 100), (64, 25)):
        serve = {f"serve --workers {sessions}": lambda: bench.side_by_side(sessions, count, 1024)[0]}
        tell_side_by_side(f"run: messages of 1 KiB at {sessions} kept sessions", sessions * count,
                          lambda: bench.run_side_by_side(sessions, count, 1024),
                          serve | measures_beside(bench, packages, sessions, count))
        tell_passing_on(bench, packages, sessions, count)


def tell_passing_on(bench, packages, sessions, count):
    measures = [lambda: bench.run_passing_on(sessions, count, 1024)]
    if packages:
        measures.append(lambda: bench.postfix_passing_on(packages, sessions, count, 1024))
    runs = interleaved(*measures)
    ratios = [(median_of(runs, lambda run: run[1] / run[0]), "Postfix")] if packages else []
    tell("  and handed on meanwhile, to the last", sessions * count / median_of(runs, lambda run: run[0]), "messages/s",
         *ratios)


def tell_one_a_connection(bench, _packages):
    tell_beside(bench, "serve: messages of 1 KiB, one a connection, sent on", 300, "messages/s",
                lambda relays: relays.one_a_connection(300, 1024),
                lambda: bare_pairs(bench.folder, [ACCEPT, OUTCOME] * 300), "four bare syncs")


def tell_large(bench, _packages):
    tell_beside(bench, "serve: messages of 1 MiB at a kept session", 30 * 1.048576, "MB/s",
                lambda relays: relays.kept(30, 1048576)[0],
                lambda: bare_pairs(bench.folder, [1048576 + 172] * 30), "two bare syncs")


def tell_push(bench, packages):
    def postfix():
        return bench.postfix_pushed(packages, QUEUE, 1024)

    tell_beside(bench, f"push: {QUEUE:,} queued messages of 1 KiB", QUEUE, "messages/s",
                lambda relays: relays.pushed(QUEUE, 1024), lambda: bare_pairs(bench.folder, [OUTCOME] * QUEUE),
                "two bare syncs", postfix if packages else None)


def tell_bounded(bench, _packages):
    """Measures one run: what counts is how large the files get."""
    seconds, most = bench.bounded(100)
    tell(f"serve: {MANY:,} messages of 100 octets, sent on", MANY / seconds, "messages/s")
    print(f"  the most octets of both files of the spool meanwhile {most:12d} octets", flush=True)


FIGURES = {
    "kept": tell_kept,
    "workers": tell_workers,
    "run": tell_run,
    "connections": tell_one_a_connection,
    "large": tell_large,
    "push": tell_push,
    "bounded": tell_bounded,
}


def begin_again(folder):
    """Starts this program again, with bench/slow_syncs.c loaded into everything that it starts."""
    shim = folder / "slow_syncs.so"
    subprocess.run(["cc", "-O2", "-shared", "-fPIC", "-o", shim, HERE / "slow_syncs.c"], check=True)
    os.environ["LD_PRELOAD"] = str(shim)
    os.execv(sys.executable, [sys.executable, *sys.argv])


def postfix_packages():
    """Returns where Postfix is, if its time can be measured. It starts its own programs without our shim."""
    packages = pathlib.Path(os.environ.get("PACKAGES", "build/interop")).resolve()
    if "SYNC_WAIT" in os.environ:
        print("load: without Postfix, whose syncs can't be made to wait")
        return None
    if not (packages / "postfix.ready").exists() or not can_make_rooms():
        print("load: without Postfix, which tests/interop.sh unpacks and the superuser starts")
        return None
    return packages


def main():
    if "SYNC_WAIT" in os.environ and "LD_PRELOAD" not in os.environ:
        begin_again(pathlib.Path("build").resolve())
    program, names = os.path.realpath(sys.argv[1]), sys.argv[2:] or list(FIGURES)
    tellers = [FIGURES[name] for name in names]
    packages = postfix_packages()
    with tempfile.TemporaryDirectory(prefix="load.", dir=os.environ.get("DISK", "build")) as folder:
        bench = Bench(program, pathlib.Path(folder).resolve())
        if "FLOOR" in os.environ:
            bench.add_floor()
        for tell_figure in tellers:
            tell_figure(bench, packages)


main()
