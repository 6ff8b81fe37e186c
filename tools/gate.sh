#!/usr/bin/env bash
# The whole gate, at the top of the repository: every proof from nothing and the edits that must fail (tools/proofs.py),
# as many side by side as tools/lanes.sh says (RT_JOBS, where it is given), and the scripts of tests/run_all.py. These
# begin as soon as the programs that they run are proved and built, beside what is left: first those that run the
# program of rows, or none, then those that run a relay in a box, and then those that run relayd. They mostly wait, and
# have limits on time, so the prover yields to them: by its nice value, and, where the system shares processors between
# sessions (sched(7), autogroup), by that of its session. Last come what each crate has cost, and how many crates and
# edits passed. Exits with 1 if any part fails.
set -euo pipefail

mkdir -p build
rm -rf build/lanes
rm -f build/relay_rows_tests build/relay_box_tests build/relayd
setsid nice -n 15 bash -c '
    echo 15 2> /dev/null > /proc/self/autogroup || true
    exec tools/proofs.py' > >(tee build/gate.log) &
proofs=$!
tools/gate_times.py --short "$proofs" > build/gate.times &
times=$!
trap 'kill -- "-$proofs" $(jobs -p) 2> /dev/null || true' EXIT

# Waits until this program is in build/, where it comes once it is proved, or the proofs have ended without it.
await() {
    until [[ -x build/$1 ]]; do
        if ! kill -0 "$proofs" 2> /dev/null; then
            wait "$proofs"
            break
        fi
        sleep 1
    done
    [[ -x build/$1 ]]
}

status=0
await relay_rows_tests
tests/run_all.py --without build/relayd --without build/relay_box_tests --junit build/tests-of-rows.xml || status=1
await relay_box_tests
tests/run_all.py --with build/relay_box_tests --junit build/tests-of-the-box.xml || status=1
await relayd
tests/run_all.py --with build/relayd --junit build/tests-with-relayd.xml || status=1
wait "$proofs" || status=1
wait "$times" || true
cat build/gate.times
tail -n 1 build/gate.log
exit "$status"
