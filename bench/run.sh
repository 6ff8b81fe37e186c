#!/usr/bin/env bash
# Measures the built program and library calls, each beside `wc` on the same octets through the same kind of pipe in
# the same run: one line a figure, the median of RUNS runs (5). It needs bash, coreutils, awk and yes.
#
#   bench/run.sh build/relayd build/relay_rows_tests [GROUP ..]
#
# The groups of figures are sessions, texts, attempts, reports, spools, books, nodes and queues; all where none is
# given. DISK (build) is the folder whose device the appends of a spool are measured on, and MEMORY (/dev/shm) one in
# memory.
set -euo pipefail
export LC_ALL=C
. "$(dirname "$0")/inputs.sh"

relayd=$1
# The measurements are words of the program of tests.
bench=("$2" bench)
shift 2
runs=${RUNS:-5}
room=$(mktemp -d)
disk=$(mktemp -d "${DISK:-build}/bench.XXXXXX")
memory=$(mktemp -d "${MEMORY:-/dev/shm}/bench.XXXXXX")
trap 'rm -rf "$room" "$disk" "$memory"' EXIT

# How many microseconds the command takes that reads the file through a pipe. Its output is kept for a look at it.
micros() {
    local file=$1 begun ended
    shift
    begun=${EPOCHREALTIME/./}
    cat "$file" | "$@" > "$room/out"
    ended=${EPOCHREALTIME/./}
    echo $((ended - begun))
}

median() {
    sort -n | awk '{ at[NR] = $1 } END { print at[int((NR + 1) / 2)] }'
}

# measure NAME UNIT COUNT FILE WC-OPTION LINES COMMAND..: COUNT units of work in FILE, whose answer has LINES lines.
# `wc` reads the same file, or the one that `against` names.
measure() {
    local name=$1 unit=$2 count=$3 file=$4 option=$5 lines=$6
    shift 6
    local ours="$room/ours" theirs="$room/theirs"
    : > "$ours"
    : > "$theirs"
    for ((run = 0; run < runs; run++)); do
        micros "$file" "$@" >> "$ours"
        if [ "$(wc -l < "$room/out")" -ne "$lines" ]; then
            echo "$name: $(wc -l < "$room/out") lines came out, and not $lines" >&2
            exit 1
        fi
        micros "${against:-$file}" wc "$option" >> "$theirs"
    done
    awk -v name="$name" -v unit="$unit" -v count="$count" -v ours="$(median < "$ours")" \
        -v theirs="$(median < "$theirs")" -v option="$option" 'BEGIN {
            printf "%-52s %12.0f %s/s   %.2f of wc %s\n", name, count / ours * 1000000, unit, theirs / ours, option }'
}

# How many microseconds the command takes, which is one word for the shell. It reads nothing that it doesn't name.
micros_of() {
    local begun ended
    begun=${EPOCHREALTIME/./}
    bash -c "$1" < /dev/null > "$room/out"
    ended=${EPOCHREALTIME/./}
    echo $((ended - begun))
}

# compare NAME UNIT COUNT OURS THEIRS LABEL: COUNT units of work by the command OURS, beside the command THEIRS. Where
# `before` has a command, that runs before each run of OURS, and its time doesn't count.
compare() {
    local ours="$room/ours" theirs="$room/theirs"
    : > "$ours"
    : > "$theirs"
    for ((run = 0; run < runs; run++)); do
        ${before:-:}
        micros_of "$4" >> "$ours"
        micros_of "$5" >> "$theirs"
    done
    awk -v name="$1" -v unit="$2" -v count="$3" -v ours="$(median < "$ours")" -v theirs="$(median < "$theirs")" \
        -v label="$6" 'BEGIN {
            printf "%-52s %12.0f %s/s   %.2f of %s\n", name, count / ours * 1000000, unit, theirs / ours, label }'
}

# among NAME UNIT COUNT WORD MANY FEW LABEL: COUNT turns of the measurement WORD on a fresh copy of the spool MANY,
# beside as many on one of FEW, both in memory. What opening these takes is measured without turns, and taken off.
among() {
    local count spool
    rm -f "$room"/turns.*
    for ((run = 0; run < runs; run++)); do
        for count in "$3" 0; do
            for spool in "$5" "$6"; do
                cp "$room/$spool" "$memory/$spool"
                cp "$room/$spool.2" "$memory/$spool.2"
                micros_of "${bench[*]} $4 $count $memory/$spool" >> "$room/turns.$spool.$count"
            done
        done
    done
    awk -v name="$1" -v unit="$2" -v count="$3" -v label="$7" \
        -v ours=$(($(median < "$room/turns.$5.$3") - $(median < "$room/turns.$5.0"))) \
        -v theirs=$(($(median < "$room/turns.$6.$3") - $(median < "$room/turns.$6.0"))) 'BEGIN {
            printf "%-52s %12.0f %s/s   %.2f of %s\n", name, count / ours * 1000000, unit, theirs / ours, label }'
}

# peak WORD COUNT FILE: how much memory a program had at most that runs the measurement WORD so often on the text of
# FILE, in octets: the median of RUNS runs.
peak() {
    for ((run = 0; run < runs; run++)); do
        "${bench[@]}" "$1" "$2" < "$3" | awk '{ print $(NF - 1) * 1024 }'
    done | median
}

# held NAME WORD COUNT FILE OFF LABEL: what each of COUNT takes that the measurement WORD holds, each with the text of
# FILE, without OFF octets, by the memory of a program that holds none.
held() {
    awk -v name="$1" -v count="$3" -v off="$5" -v label="$6" \
        -v ours="$(peak "$2" "$3" "$4")" -v none="$(peak "$2" 0 "$4")" 'BEGIN {
        printf "%-52s %12.0f octets %s\n", name, (ours - none) / count - off, label }'
}

# copies FILE: 20 times the octets of the file, for `wc`, where a measurement takes them 20 times.
copies() {
    for ((time = 0; time < 20; time++)); do
        cat "$1"
    done > "$1.20"
}

# file_size FILE
file_size() {
    stat -c %s "$1"
}

# A program that reads the dialogue of a client and keeps its messages in memory.
sessions() {
    message_of 2631579 > "$room/refused"
    large_messages 60 > "$room/kept"
    chunked_messages 60 > "$room/chunks"
    chunked_message_of 3052 > "$room/refused_chunks"
    small_messages 100000 > "$room/small"
    noops 1000000 > "$room/noops"
    full_transactions 5000 > "$room/recipients"
    measure "session: mail data that is refused" octets "$(file_size "$room/refused")" "$room/refused" -l 7 \
        "$relayd" session
    measure "session: 60 messages of 1 MiB that are kept" octets "$(file_size "$room/kept")" "$room/kept" -l 243 \
        "$relayd" session
    measure "session: 60 messages of 16 chunks that are kept" octets "$(file_size "$room/chunks")" \
        "$room/chunks" -c 1146 "$relayd" session
    measure "session: 3,052 chunks, refused after 16" octets "$(file_size "$room/refused_chunks")" \
        "$room/refused_chunks" -c 3060 "$relayd" session
    measure "session: 100,000 small messages" messages 100000 "$room/small" -l 400003 "$relayd" session
    measure "session: 1,000,000 pipelined NOOPs" commands 1000000 "$room/noops" -l 1000002 "$relayd" session
    measure "session: 500,000 RCPTs with all parameters" commands 500000 "$room/recipients" -l 510006 "$relayd" session
}

# Dot texts.
texts() {
    # A content of 16 MB, of which every fourth line begins with a period.
    content_with_periods 52632 > "$room/content"
    copies "$room/content"
    against=$room/content.20 measure "library: a dot text that is written" octets "$(file_size "$room/content.20")" \
        "$room/content" -l 1 "${bench[@]}" dots 20
}

# Attempts with the replies of a next hop in memory.
attempts() {
    content_with_periods 52632 > "$room/content"
    copies "$room/content"
    # A text that doesn't end in CR LF.
    head -c -1 "$room/content" > "$room/chunk"
    against=$room/content.20 measure "library: an attempt that hands a text on by DATA" octets \
        "$(file_size "$room/content.20")" "$room/content" -l 1 "${bench[@]}" attempts 20
    against=$room/content.20 measure "library: an attempt that hands a text on by BDAT" octets \
        "$(file_size "$room/content.20")" "$room/chunk" -c 1 "${bench[@]}" attempts 20
    printf 'Subject: x\r\n\r\ny\r\n' > "$room/mail"
    runs=3 compare "library: 100,000 attempts of one recipient" attempts 100000 \
        "${bench[*]} attempts 100000 < $room/mail" "sleep 2" "two seconds"
    held "library: 10,000 attempts that wait, of 100 places" waiting 10000 /dev/null 0 "an attempt"
}

# Stored texts of 1 MiB, one of them full of boundaries, of which a report is made 20 times.
reports() {
    mail_lines 13797 > "$room/stored"
    boundary_lines 55739 > "$room/boundaries"
    copies "$room/stored"
    against=$room/stored.20 measure "library: a report that returns 1 MiB" octets "$(file_size "$room/stored.20")" \
        "$room/stored" -l 1 "${bench[@]}" reports 20
    against=$room/stored.20 measure "library: the same, full of boundaries" octets "$(file_size "$room/stored.20")" \
        "$room/boundaries" -l 1 "${bench[@]}" reports 20
    compare "library: the same, beside one without a boundary" reports 20 \
        "${bench[*]} reports 20 < $room/boundaries" "${bench[*]} reports 20 < $room/stored" \
        "a report that returns 1 MiB"
}

# A spool of 62,430 bodies of 4,096 octets (its head, the links, and the last gate), and appends.
spools() {
    printf '\x01\x00\x00\x10\x00%04096d' 0 > "$room/link"
    {
        printf 'RELAYQ01\x01\x00\x00\x00\x00\x00\x00\x00\x01'
        for ((time = 0; time < 30; time++)); do
            cat "$room/link"
        done > "$room/links"
        for ((time = 0; time < 2081; time++)); do
            cat "$room/links"
        done
        printf '\x00'
    } > "$room/spool"
    compare "library: a spool of 256 MB that is opened" octets "$(file_size "$room/spool")" \
        "${bench[*]} open 1 $room/spool" "cat $room/spool | wc -c" "cat | wc -c"
    rm "$room/spool"
    octets_of 4096 > "$room/body"
    # A device's syncs take from one to ten times their least: many short runs.
    runs=31 compare "library: appends to a spool on a file" appends 500 \
        "rm -f $disk/a $disk/a.2; ${bench[*]} append 500 $disk/a < $room/body" "$(bare_syncs 500 4101)" "two bare syncs"
}

# bare_syncs COUNT OCTETS: the command that does on a bare file what the device does for COUNT appends that add OCTETS
# each.
bare_syncs() {
    octets_of "$2" > "$room/octets.$2"
    echo "rm -f $disk/b; ${bench[*]} syncs $1 $disk/b < $room/octets.$2"
}

books() {
    compare "library: 100,000 messages into a book, and out" messages 100000 "${bench[*]} drain 100000" \
        "${bench[*]} fill 100000" "filling alone"
    octets_of 1024 > "$room/text"
    held "library: 100,000 messages held in a book" fill 100000 "$room/text" 1024 "a message, beside 1,024 of text"
    # A record of 1 MiB, which is decoded 200 times, and as many octets for `cat`.
    record_of 1048542 > "$room/record"
    for ((time = 0; time < 200; time++)); do
        cat "$room/record"
    done > "$room/records"
    compare "library: a record of 1 MiB that is decoded" octets "$(file_size "$room/records")" \
        "${bench[*]} decode 200 < $room/record" "cat $room/records | wc -c" "cat | wc -c"
    rm "$room/records"
}

# A node on a file: what it accepts, and opening it with 10,000 messages of 1 KiB.
nodes() {
    local accepts
    transaction_of 1048576 > "$room/large"
    accepts="rm -f $disk/a $disk/a.2; ${bench[*]} accepts 60 $disk/a < $room/large"
    runs=11 compare "node: messages of 1 MiB on one session, on a file" octets 62914560 "$accepts" \
        "rm -f $disk/b; dd if=/dev/zero of=$disk/b bs=1048576 count=60 oflag=dsync status=none" \
        "dd with a sync for each"
    runs=11 compare "node: the same, beside the syncs that they need" octets 62914560 "$accepts" \
        "$(bare_syncs 60 1048748)" "two bare syncs"
    full_node
    compare "node: 10,000 messages of 1 KiB that are opened" octets "$(file_size "$room/node")" \
        "${bench[*]} node 1 $room/node" "${bench[*]} open 1 $room/node" "opening the spool alone"
    awk -v octets="$("${bench[@]}" node 1 "$room/node" < /dev/null | awk '{ print $(NF - 1) * 1024 }')" \
        -v file="$(file_size "$room/node")" 'BEGIN {
        printf "%-52s %12.0f octets at its peak, %.2f of the file\n",
            "node: the memory of that", octets, octets / file }'
    compactions
    # A message of 1,024 octets adds 1,196 to the file: the time stamp line, envelope, length and gate.
    runs=31 compare "node: messages of 1 KiB on one session, on a file" messages 500 \
        "rm -f $disk/a $disk/a.2; ${bench[*]} accepts 500 $disk/a < $room/small" "$(bare_syncs 500 1196)" \
        "two bare syncs"
}

# The full file written anew, and opened again then. The program opens it first, which is taken off by the figure above.
compactions() {
    local size
    full_node
    fresh_copy
    "${bench[@]}" compact 1 "$disk/a" < /dev/null > "$room/out"
    size=$(file_size "$disk/a.2")
    before=fresh_copy compare "node: 10,000 messages of 1 KiB that are compacted" octets "$size" \
        "${bench[*]} compact 1 $disk/a" \
        "rm -f $disk/b; dd if=$disk/a.2 of=$disk/b bs=1048576 conv=fsync status=none" "dd with one sync"
    compare "node: a compacted spool that is opened" octets "$size" "${bench[*]} node 1 $disk/a" \
        "${bench[*]} node 1 $room/node" "opening the chain of the same"
}

# A file with 10,000 messages of 1 KiB, of which ten are due before the others, and one with 100, where they aren't made
# yet.
full_node() {
    transaction_of 1024 > "$room/small"
    if [ ! -e "$room/node" ]; then
        "${bench[@]}" accepts 10000 "$memory/node" < "$room/small" > "$room/out"
        "${bench[@]}" accepts 100 "$memory/few" < "$room/small" > "$room/out"
        mv "$memory"/* "$room"
    fi
}

# The work of a node: what there is to do, attempts that begin and are lost, and the queue of the full file on its way
# to a next hop in memory, from a fresh copy each time.
queues() {
    full_node
    among "node: what is due, 10 of 10,000 queued messages" answers 200000 works node few "10 of 100 queued"
    among "node: ten attempts that begin and are lost" turns 10000 begins node few "10 of 100 queued"
    # An outcome of one place adds 43 octets.
    before=fresh_copy compare "node: 10,000 queued messages that are delivered" messages 10000 \
        "${bench[*]} deliver 1 $disk/a" "$(bare_syncs 10000 43)" "two bare syncs"
}

fresh_copy() {
    cp "$room/node" "$disk/a"
    cp "$room/node.2" "$disk/a.2"
    sync "$disk/a" "$disk/a.2"
}

groups=(sessions texts attempts reports spools books nodes queues)
[ $# -gt 0 ] || set -- "${groups[@]}"
for group in "$@"; do
    if [[ " ${groups[*]} " != *" $group "* ]]; then
        echo "no such group of figures: $group" >&2
        exit 2
    fi
    "$group"
done
