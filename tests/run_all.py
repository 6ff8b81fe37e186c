#!/usr/bin/env python3
"""Runs the test scripts, all or those named, in parallel, and prints a line for each with its seconds. The output of
each is in build/tests/; that of a script that fails is printed too.

    tests/run_all.py [--lanes N] [--junit FILE] [--list] [--with FILE] [--without FILE] .. [NAME ..]

A NAME is a script's name without its suffix, with or without its arguments, as --list prints them; --with and --without
choose the scripts that run a program, as build/relayd, or don't. Each script listens at a free port, and works in a
folder of its own. Scripts that compare how long clients wait run one at a time, and the others beside them at a lower
priority, in N lanes, by default one for every two processors. TIMES (10) is how much longer such a wait may take. Exits
with 1 if a script fails.
"""
import argparse
import collections
import os
import pathlib
import signal
import subprocess
import sys
import threading
import time
import xml.etree.ElementTree as ElementTree

TOP = pathlib.Path(__file__).resolve().parent.parent
LOGS = TOP / "build/tests"
RELAYD = "build/relayd"
ROWS = "build/relay_rows_tests"
BOX = "build/relay_box_tests"
# How long a script may run, in seconds.
LONGEST = 3600

Script = collections.namedtuple("Script", "words is_timed", defaults=[False])

# In the order in which they begin: the main job first, then each thing by itself. The words name a script and what it
# is given.
SCRIPTS = [
    Script(["tests/one_line_at_a_time.sh", RELAYD]),
    Script(["tools/tour.py", RELAYD]),
    Script(["tools/demo.py"]),
    Script(["tests/standard_streams.py", RELAYD]),
    Script(["tests/closed_streams.py", RELAYD]),
    Script(["tests/want_of_descriptors.py", RELAYD]),
    Script(["tests/fault_lines.sh", RELAYD]),
    Script(["tests/exit_statuses.py", RELAYD]),
    Script(["tests/check.py", RELAYD]),
    Script(["tests/two_relays.py", RELAYD]),
    Script(["tests/run.py", RELAYD], is_timed=True),
    Script(["tests/run_log.py", RELAYD], is_timed=True),
    Script(["tests/status_page.py", RELAYD], is_timed=True),
    Script(["tests/run_hops.py", RELAYD], is_timed=True),
    Script(["tests/run_proxy.py", RELAYD], is_timed=True),
    Script(["tests/run_control.py", RELAYD], is_timed=True),
    Script(["tests/run_mail.py", RELAYD], is_timed=True),
    Script(["tests/run_faults.py", RELAYD], is_timed=True),
    Script(["tests/run_load.py", RELAYD], is_timed=True),
    Script(["tests/run_without_memory.py", RELAYD], is_timed=True),
    Script(["tests/run_groups.py", RELAYD]),
    Script(["tests/unit_file.sh", RELAYD]),
    Script(["tests/documents.py"]),
    Script(["tests/edits_that_must_fail.py"]),
    Script(["tests/links.py", RELAYD]),
    Script(["tests/failing_calls.py", RELAYD]),
    Script(["tests/workers.py", RELAYD]),
    Script(["tests/workers_without_memory.py", RELAYD]),
    Script(["bench/crashes.py", RELAYD, "64"]),
    Script(["tests/compaction.py", RELAYD]),
    Script(["tests/looks_at_the_queue.py", RELAYD]),
    Script(["tests/plays.py", RELAYD]),
    Script(["tests/plays_without_memory.py", RELAYD]),
    Script(["tests/random_plays.py", RELAYD]),
    Script(["tests/stops_in_plays.py", RELAYD]),
    Script(["tests/hostile_octets.py", RELAYD]),
    Script(["tests/without_memory.py", "sessions", RELAYD]),
    Script(["tests/records_of_a_generator.py", ROWS]),
    Script(["tests/without_memory.py", "books", ROWS]),
    Script(["tests/dialogues_of_a_node.py", ROWS]),
    Script(["tests/attempts_of_a_node.py", ROWS]),
    Script(["tests/bodies_of_a_node.py", ROWS]),
    Script(["tests/errands_of_nodes.py", ROWS]),
    Script(["tests/without_memory.py", "nodes", RELAYD]),
    Script(["tests/spool_on_a_file.py", RELAYD]),
    Script(["tests/reports_read_by_python.py", ROWS]),
    Script(["tests/days_in_a_box.py", "--selftest"]),
    Script(["tests/days_in_a_box.py", BOX]),
    Script(["tests/networks_in_a_box.py", BOX]),
]

Result = collections.namedtuple("Result", "name seconds fault output")


def stem_of(script):
    return pathlib.Path(script.words[0]).stem


def name_of(script):
    """Returns a script's name and its arguments, without those that name a program."""
    return " ".join([stem_of(script), *(word for word in script.words[1:] if "/" not in word)])


def is_named(script, names):
    return not names or name_of(script) in names or stem_of(script) in names


def is_chosen(script, told):
    """Returns whether the words that this program was started with choose a script."""
    by_program = not told.program or told.program in script.words
    return is_named(script, told.names) and by_program and not set(told.no_programs) & set(script.words)


class Running:
    """The scripts that are left, and those that are running, which end with this program."""

    def __init__(self, scripts):
        self.left, self.processes, self.results = list(scripts), set(), []
        self.is_timed_one_running, self.has_stopped = False, False
        self.changed = threading.Condition()

    def next(self):
        """Takes the next script that may run now, waiting for one if there is none; returns None if none is left."""
        with self.changed:
            while self.left and not self.has_stopped:
                for script in self.left:
                    if not (script.is_timed and self.is_timed_one_running):
                        self.left.remove(script)
                        self.is_timed_one_running = self.is_timed_one_running or script.is_timed
                        return script
                self.changed.wait()
            return None

    def note(self, script, result):
        """Takes the result of a script, and prints its line."""
        with self.changed:
            self.is_timed_one_running = self.is_timed_one_running and not script.is_timed
            self.results.append(result)
            print(f"{'FAILED' if result.fault else 'ok':6}  {result.name:28}{result.seconds:8.1f} s", flush=True)
            lines = result.output.splitlines()
            if result.fault:
                print("".join(f"    {line}\n" for line in [*lines, result.fault]), flush=True)
            else:
                print("".join(f"    {line}\n" for line in lines if ": again, " in line), end="", flush=True)
            self.changed.notify_all()

    def run(self, script):
        """Runs a script to its end. Returns its result."""
        begun, fault = time.monotonic(), ""
        log = LOGS / f"{name_of(script).replace(' ', '_')}.log"
        with log.open("wb") as out:
            try:
                process = subprocess.Popen(words_of(script), cwd=TOP, stdin=subprocess.DEVNULL, stdout=out,
                                           stderr=subprocess.STDOUT, start_new_session=True)
                self.processes.add(process)
                try:
                    status = process.wait(LONGEST)
                    fault = f"ended with {status}" if status else ""
                except subprocess.TimeoutExpired:
                    fault = f"didn't end within {LONGEST} seconds"
                finally:
                    kill(process)
                    self.processes.discard(process)
            except OSError as error:
                fault = str(error)
        return Result(name_of(script), time.monotonic() - begun, fault, log.read_text(errors="replace"))

    def work(self):
        """A lane: one script after another."""
        while script := self.next():
            self.note(script, self.run(script))

    def stop(self):
        with self.changed:
            self.has_stopped = True
            self.changed.notify_all()
        for process in list(self.processes):
            kill(process)


def words_of(script):
    return script.words if script.is_timed else ["nice", "-n", "10", *script.words]


def kill(process):
    """Kills a script and the processes that it has started."""
    try:
        os.killpg(process.pid, signal.SIGKILL)
    except ProcessLookupError:
        pass
    process.wait()


def run_scripts(scripts, lanes):
    """Runs scripts in so many lanes. Returns their results, in the order in which they ended."""
    LOGS.mkdir(parents=True, exist_ok=True)
    running = Running(scripts)
    threads = [threading.Thread(target=running.work) for _ in range(lanes)]
    signal.signal(signal.SIGTERM, lambda *_: sys.exit(1))
    try:
        for thread in threads:
            thread.start()
        for thread in threads:
            thread.join()
    finally:
        running.stop()
    return running.results


def printable(text):
    """Returns a text without characters that XML doesn't allow."""
    return "".join(it if it in "\t\n\r" or it >= " " and it not in "\ufffe\uffff" else "\ufffd" for it in text)


def write_junit(file, results, seconds):
    failed = sum(bool(result.fault) for result in results)
    suite = ElementTree.Element("testsuite", name="tests", tests=str(len(results)), failures=str(failed), errors="0",
                                time=f"{seconds:.1f}")
    for result in results:
        case = ElementTree.SubElement(suite, "testcase", classname="tests", name=result.name,
                                      time=f"{result.seconds:.1f}")
        if result.fault:
            ElementTree.SubElement(case, "failure", message=result.fault).text = printable(result.output)
        else:
            ElementTree.SubElement(case, "system-out").text = printable(result.output)
    ElementTree.ElementTree(suite).write(file, encoding="utf-8", xml_declaration=True)


def main():
    summary, usage = __doc__.split("\n\n")[::2]
    parser = argparse.ArgumentParser(description=summary, epilog=usage)
    parser.add_argument("--lanes", type=int, default=max(1, (os.cpu_count() or 2) // 2), metavar="N",
                        help="how many run side by side")
    parser.add_argument("--junit", metavar="FILE", help="write the results there, as JUnit's XML")
    parser.add_argument("--list", action="store_true", help="print the names, and run nothing")
    parser.add_argument("--with", dest="program", metavar="FILE", help="run only the scripts that run this program")
    parser.add_argument("--without", dest="no_programs", action="append", default=[], metavar="FILE",
                        help="run none that runs this one")
    parser.add_argument("names", nargs="*", metavar="NAME")
    told = parser.parse_args()
    unknown = [name for name in told.names if not any(is_named(script, [name]) for script in SCRIPTS)]
    if unknown:
        parser.error(f"no script is named {', '.join(unknown)}: --list prints the names")
    scripts = [script for script in SCRIPTS if is_chosen(script, told)]
    if told.list:
        print("\n".join(map(name_of, scripts)))
        return 0
    os.environ.setdefault("TIMES", "10")
    begun = time.monotonic()
    results = run_scripts(scripts, max(1, told.lanes))
    seconds = time.monotonic() - begun
    if told.junit:
        write_junit(told.junit, results, seconds)
    failed = [result.name for result in results if result.fault]
    outcome = f"failed: {', '.join(failed)}" if failed else "all ok"
    print(f"run_all: {len(results)} scripts in {seconds:.0f} s, {outcome}")
    return 1 if failed else 0


if __name__ == "__main__":
    sys.exit(main())
