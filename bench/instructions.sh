#!/usr/bin/env bash
# Counts the instructions of the built program and of library calls with callgrind, on small inputs of the kinds that
# bench/run.sh measures: one line a figure, the instructions an octet, command or message. Each is the difference
# between a run on MANY units and one on FEW, so that what starting the program takes isn't counted. It needs bash,
# coreutils, awk, yes and valgrind.
#
#   bench/instructions.sh build/relayd build/relay_rows_tests
#
# FUNCTIONS (0) is how many functions follow each figure, with their share of the longer run's instructions.
set -euo pipefail
export LC_ALL=C
. "$(dirname "$0")/inputs.sh"

relayd=$1
# The measurements are words of the program of tests.
bench=("$2" bench)
functions=${FUNCTIONS:-0}
room=$(mktemp -d)
trap 'rm -rf "$room"' EXIT

# How many instructions the command takes, which reads the file.
instructions() {
    local file=$1
    shift
    valgrind --tool=callgrind --callgrind-out-file="$room/profile" "$@" < "$file" > "$room/out" 2> "$room/notes"
    awk '/ Collected / { print $NF }' "$room/notes"
}

# report NAME UNIT UNITS LESS MORE: so many units more took MORE instructions in place of LESS.
report() {
    awk -v name="$1" -v unit="$2" -v units="$3" -v less="$4" -v more="$5" 'BEGIN {
        printf "%-52s %10.1f instructions/%s\n", name, (more - less) / units, unit }'
    if [ "$functions" -gt 0 ]; then
        callgrind_annotate --show-percs=yes "$room/profile" | grep -E '^ *[0-9,]+ \(' | sed -n "2,$((functions + 1))p" \
            | sed -E 's/^[^(]*\( *([0-9.]+%)\) +([^ ]*\/)?([^ ]*[^:]:)?([^: ][^ ]*).*/    \1  \4/'
    fi
}

# of_input NAME UNIT FEW MANY SIZE MAKE COMMAND..: `MAKE n` writes an input of n parts, of SIZE units each.
of_input() {
    local name=$1 unit=$2 few=$3 many=$4 size=$5 make=$6 less more
    shift 6
    "$make" "$few" > "$room/few"
    "$make" "$many" > "$room/many"
    less=$(instructions "$room/few" "$@")
    more=$(instructions "$room/many" "$@")
    report "$name" "$unit" $(((many - few) * size)) "$less" "$more"
}

# of_words NAME UNIT FEW MANY SIZE FILE COMMAND..: each {} of the command, which reads the file, stands for the number
# of parts.
of_words() {
    local name=$1 unit=$2 few=$3 many=$4 size=$5 file=$6 less more
    shift 6
    less=$(instructions "$file" "${@//\{\}/$few}")
    more=$(instructions "$file" "${@//\{\}/$many}")
    report "$name" "$unit" $(((many - few) * size)) "$less" "$more"
}

# 27,000 lines are 2 MB, past the limit of a content.
of_input "session: mail data that is refused" octet 27000 54000 76 message_of "$relayd" session
of_input "session: messages of 1 MiB that are kept" octet 1 3 1048572 large_messages "$relayd" session
of_input "session: messages of 16 chunks that are kept" octet 1 3 1048576 chunked_messages "$relayd" session
of_input "session: chunks that are refused" octet 32 96 65536 chunked_message_of "$relayd" session
of_input "session: small messages" message 1000 3000 1 small_messages "$relayd" session
of_input "session: small messages after 90,000 others" message 90000 100000 1 small_messages "$relayd" session
of_input "session: pipelined NOOPs" command 10000 30000 1 noops "$relayd" session
of_input "session: RCPTs with all parameters" command 20 60 100 full_transactions "$relayd" session
octets_of 4096 > "$room/body"
"${bench[@]}" append 500 "$room/spool.500" < "$room/body" > "$room/out"
"${bench[@]}" append 1500 "$room/spool.1500" < "$room/body" > "$room/out"
of_words "library: a spool that is opened" octet 500 1500 4101 /dev/null \
    "${bench[@]}" open 1 "$room/spool.{}"
of_words "library: appends to a spool on a file" append 500 1500 1 "$room/body" \
    "${bench[@]}" append {} "$room/append.{}"
of_words "library: messages into a book" message 10000 30000 1 /dev/null "${bench[@]}" fill {}
of_words "library: messages into a book, and out" message 10000 30000 1 /dev/null "${bench[@]}" drain {}
# A record is decoded 200 times.
of_input "library: a record that is decoded" octet 100000 300000 200 record_of "${bench[@]}" decode 200
