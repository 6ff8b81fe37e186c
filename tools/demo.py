#!/usr/bin/env python3
"""The demo: compiles the relay without its proofs, and shows the way of a message through it (tools/tour.py). It needs
the toolchain, Python and a shell, and leaves nothing behind.

    tools/demo.py
"""
import pathlib
import sys
import tempfile
import time

sys.dont_write_bytecode = True

from tour import guarded, show, tour
from unproved import compiled


def main():
    begun = time.monotonic()
    print("relayd is a mail relay. This compiles it and sends one message through it, over local sockets.\n"
          "Compiling takes one to two minutes on two processors, and longer on busy ones. Nothing is proved in it: the "
          "program checks itself as it runs.")
    with tempfile.TemporaryDirectory(prefix="relayd-demo-") as folder:
        folder = pathlib.Path(folder)
        program = compiled(folder, lambda line: show([line]))
        print(f"Compiled in {time.monotonic() - begun:.0f} s.")
        tour(program, folder)
    print(f"\nDone in {time.monotonic() - begun:.0f} s. Each heading was also checked; no file is left.\n"
          "This program was compiled with run-time checks and isn't proved yet:\n"
          "   make relayd   proves and builds it, in about an hour on four processors\n"
          "   make test     runs the whole gate, all proofs and tests, in two hours on four processors")


if __name__ == "__main__":
    guarded(main)
