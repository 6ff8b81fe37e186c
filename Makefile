# What a fresh machine with the toolchain needs: `make demo`, `make relayd` and `make test`.
SHELL := bash
.SHELLFLAGS := -eo pipefail -c

.PHONY: test demo interop hostile bench load instructions relayd relay_rows_tests relay_box_tests

# The whole gate: the sample configuration and a play beside their tested copies; then all proofs, edits that must fail
# and tests.
test:
	cmp relayd.toml crates/relay_rows_tests/data/relayd.toml
	cmp docs/plays/lost_reply.play crates/relay_rows_tests/data/lost_reply.play
	tools/gate.sh

# Compiles the relay without its proofs, and shows a message's way through it, over sockets of this machine. It leaves
# nothing behind.
demo:
	@tools/needs.sh
	@tools/demo.py

# Exchanges mail with other mail programs of Debian, in both directions. One that isn't available is skipped by name.
interop: relayd
	tests/interop.sh build/relayd

# Plays a thousand random scripts, and puts stops of every kind before each event of the scripts of docs/plays/. Then
# plays ten thousand networks of running relays in boxes, and for ten minutes days of one, after those of the gate.
hostile: relayd relay_box_tests
	tests/random_plays.py build/relayd 1000
	tests/stops_in_plays.py build/relayd all
	tests/networks_in_a_box.py build/relay_box_tests 10000
	tests/days_in_a_box.py build/relay_box_tests 1000000 2001 --seconds 600

# Measures the program and library calls beside `wc` on the same octets (docs/PERFORMANCE.md).
bench: relayd relay_rows_tests
	bench/run.sh build/relayd build/relay_rows_tests

# Measures a relay over sockets beside bare syncs; a long-running relay beside the least that a relay does, with half a
# millisecond more for each sync; and what other clients cost a client. Kills a relay 30 times, and a long-running one
# 100 times, while mail arrives. Measures what 100,000 queued messages, and 64 messages of 16 MiB at once, cost it.
load: relayd
	bench/load.py build/relayd
	FLOOR=1 SYNC_WAIT=500 bench/load.py build/relayd run
	bench/delays.py build/relayd
	bench/crashes.py build/relayd
	bench/crashes.py build/relayd 64
	KILLS=100 SESSIONS=64 tests/run.py build/relayd a_kill_loses_nothing
	DUE=100000 THROUGH=200000 CONTENT=16777216 tests/run_load.py build/relayd

# Counts the instructions of the same with callgrind, which valgrind brings.
instructions: relayd relay_rows_tests
	bench/instructions.sh build/relayd build/relay_rows_tests

# Proves and links the program, a line a crate, and then shows a message's way through it.
relayd:
	@tools/needs.sh
	@echo "Proves the relay crate by crate, builds it as build/relayd, and sends a message through it: about an hour on four"
	@echo "processors."
	@mkdir -p build
	@tools/prove.py relayd session
	@cp crates/relayd/out/relayd build/relayd
	@tools/tour.py build/relayd

# Proves and links the program of rows, and runs its measurements once on a few octets.
relay_rows_tests:
	mkdir -p build
	tools/prove.py relay_rows_tests bench
	cp crates/relay_rows_tests/out/relay_rows_tests build/relay_rows_tests

# Proves and links the program that runs a relay in a box.
relay_box_tests:
	mkdir -p build
	tools/prove.py relay_box_tests
	cp crates/relay_box_tests/out/relay_box_tests build/relay_box_tests
