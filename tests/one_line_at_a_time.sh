#!/usr/bin/env bash
# The first dialogue over two pipes: each line is sent only when the reply to the one before has come.
set -euo pipefail
program=$1
coproc RELAY { "$program" session; }
from=${RELAY[0]} to=${RELAY[1]} pid=$RELAY_PID

expect() {
  local line
  IFS= read -r -t 20 -u "$from" line || { echo "one_line_at_a_time: no reply where '$1' must come"; exit 1; }
  [ "$line" = "$1"$'\r' ] || { echo "one_line_at_a_time: '$line' where '$1' must come"; exit 1; }
}
say() { printf '%s\r\n' "$1" >&"$to"; }

expect '220 relay.example ESMTP relay ready'
say 'HELO x'
expect '250 relay.example'
say 'MAIL FROM:<a@example.org>'
expect '250 sender OK'
say 'RCPT TO:<b@example.org>'
expect '250 recipient OK'
say 'DATA'
expect '354 end with a line of one period'
say '.'
expect '250 queued as 1'
say 'QUIT'
expect '221 relay.example closing'
wait "$pid"
echo "one_line_at_a_time: ok"
