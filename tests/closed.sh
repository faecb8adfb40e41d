#!/usr/bin/env bash
# Where nobody takes its answers the program ends by itself, though its input goes on: the device that it writes to is
# full, or the reader of its output has closed.
#   tests/closed.sh PROGRAM
set -u
cd "$(dirname "$0")/.." || exit 2
program=${1:-target/bin/sheetdesk}
status=$(mktemp) || exit 2
trap 'rm -f "$status"' EXIT

# An endless input; the exit status of the program, or 124 if it was still running after five seconds.
endless() {
  yes 'look 0 0 0' 2>/dev/null | timeout 5 "$program"
  echo "${PIPESTATUS[1]}" >"$status"
}

ended() {
  [ "$(cat "$status")" = 0 ] || { echo "closed: $1: exit $(cat "$status"), due 0 (124: it ran on)"; exit 1; }
}

endless >/dev/full
ended "a full device"

# With the signal of a closed pipe ignored, so that it's the program that has to stop.
first=$( (trap '' PIPE; endless) | head -n 1)
ended "a reader that closed"
[ "$first" = "refused 1" ] || { echo "closed: first answer '$first', due 'refused 1'"; exit 1; }
echo "closed: the program ends by itself where its output is full or closed"
