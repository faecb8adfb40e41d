#!/usr/bin/env bash
# The wrappers' recording: what is handed over in C, Rust and Python, and that it replays. Usage, after
# `make`: tests/record.sh [TRIAL..], all trials without one.
set -u
cd "$(dirname "$0")/.." || exit 2
. tests/trials.sh || exit 2

build() {
  build_tool
  rustc --edition 2021 -O -D warnings -o target/tools/record_rs tests/record.rs -L native=target/staticlib \
    -l static=sheetdesk_c || bad "tests/record.rs"
  gcc -std=c99 -O2 -Wall -Wextra -Werror -pedantic -o target/tools/record_c tests/record.c -L target/staticlib \
    -lsheetdesk_c || bad "tests/record.c"
  CC=gcc sh tools/shared.sh || bad "tools/shared.sh"
}

record_py() {
  PYTHONPATH=embed python3 tests/record.py "$@"
}

# due_log SCRIPT [whole]: what a wrapper must hand over for the script: its calls, without leading zeros and with at most 27
# numbers behind an open's run, each before its answer. Unread lines are no calls; unless whole, neither are opens whose list
# isn't made of jobs, for which Rust and Python have no form. A forecast refused with 1 isn't handed over, nor is an audit.
due_log() {
  paste -d '|' "$1" "${1%.txt}.out" | LC_ALL=C grep -av '|unread$' | LC_ALL=C awk -F '|' -v whole="${2:-}" '{
    count = split($1, word, " "); line = word[1]
    if (word[1] == "open" && !whole && count % 3 != 2) next
    if (word[1] == "audit" || word[1] == "forecast" && $2 == "refused 1") next
    if (word[1] == "look" && !whole && (word[2] > 2 || word[2] == 0 && word[3] != 0)) next
    for (i = 2; i <= count && (word[1] != "open" || i <= 29); i++) {
      sub(/^0+/, "", word[i])
      line = line " " (word[i] == "" ? 0 : word[i])
    }
    print line "\n" $2 }'
}

# Each wrapper hands over the golden scripts' calls and answers; off, nothing; and what it hands over replays.
trial_record() {
  local script
  for script in scripts/*.txt; do
    due_log "$script" whole >"$work/due"
    target/tools/record_c <"$script" >"$work/log" && cmp -s "$work/log" "$work/due" || bad "sheetdesk_record.h: $script"
    [ ! -s "$work/log" ] || want 0 "the log of $script" have replay "$work/log"
    due_log "$script" >"$work/due"
    target/tools/record_rs <"$script" >"$work/log" && cmp -s "$work/log" "$work/due" || bad "sheetdesk.rs: $script"
  done
  cat scripts/{case-a,explain-path,refused-5,jobs-8-and-9,look-places,admit-any-desk,allow-counts-held,pick-goes-round,refused-13,fork-and-join,fork-own-reads,join-two-versions,forecast-first,forecast-job-and-mask,audit-case-a}.txt >"$work/some.txt"
  cat scripts/{case-a,explain-path,refused-5,jobs-8-and-9,look-places,admit-any-desk,allow-counts-held,pick-goes-round,refused-13,fork-and-join,fork-own-reads,join-two-versions,forecast-first,forecast-job-and-mask,audit-case-a}.out >"$work/some.out"
  due_log "$work/some.txt" >"$work/due"
  record_py <"$work/some.txt" >"$work/log" && cmp -s "$work/log" "$work/due" || bad "sheetdesk.py: golden scripts"
  PYTHONPATH=embed python3 tests/desk.py || bad "tests/desk.py"
  for mode in "target/tools/record_c off" "target/tools/record_c null" "target/tools/record_rs off" "record_py off"; do
    want 0 "$mode" $mode <scripts/case-a.txt
    [ ! -s "$work/out" ] || bad "$mode: something is recorded"
  done
}

# due_text SCRIPT: what a wrapper must hand over for the script as a text: each line as it stands before its answer, but for lines
# that are no call, audits, and forecasts refused with 1.
due_text() {
  paste -d '|' "$1" "${1%.txt}.out" | LC_ALL=C grep -av '|unread$' |
    LC_ALL=C awk -F '|' '$1 !~ /^audit/ && !($1 ~ /^forecast/ && $2 == "refused 1") { print $1 "\n" $2 }'
}

# The golden scripts as texts, by each wrapper, with room for one answer at a time and for all: the answers of their files, the words
# that single calls leave; and what is handed over, the same lines, replays.
trial_texts() {
  local script recorder room
  mkdir -p "$work/logs"
  record_py text "$work/logs" scripts/*.txt 2>"$work/err" || bad "sheetdesk.py: texts"
  for script in scripts/*.txt; do
    due_text "$script" >"$work/due"
    cmp -s "$work/logs/${script##*/}" "$work/due" || bad "sheetdesk.py: another log of the text $script"
    [ ! -s "$work/due" ] || want 0 "the log of the text $script" have replay "$work/due"
    for recorder in record_c record_rs; do
      for room in 384 65536; do
        want 0 "$script as a text by $recorder with $room bytes" "target/tools/$recorder" on text "$room" <"$script"
        cmp -s "$work/out" "$work/due" || bad "$recorder: another log of the text $script"
        cmp -s "$work/err" "${script%.txt}.out" || bad "$recorder: other answers to the text $script"
      done
    done
  done
  grep -q '^[a-z ]* 0[0-9]' "$work/logs"/* || bad "no line has a leading zero: that it stands in the log isn't tried"
  for mode in "record_c off" "record_c null" "record_rs off"; do
    want 0 "$mode, a text" target/tools/$mode text 400 <scripts/case-a.txt
    [ ! -s "$work/out" ] && cmp -s "$work/err" scripts/case-a.out || bad "$mode, a text: something is recorded, or no answers"
  done
}

# A desk of any size replays, though the program has no room for it; and so does an open of any length.
trial_sizes() {
  local most
  most=$(sed -n 's/^#define SHEETDESK_MOST_WORDS //p' embed/sheetdesk.h)
  { echo "new 32 16 8 8"; tail -n +2 scripts/case-a.txt; echo "forecast 0"; echo "open 7$(seq 900 | sed 's/.*/ 4294967295/' | tr -d '\n')"; } >"$work/large"
  for recorder in target/tools/record_c target/tools/record_rs record_py; do
    $recorder large <"$work/large" >"$work/log" || bad "$recorder"
    grep -q "^ok $most$" "$work/log" || bad "$recorder: not the largest desk"
    tail -n 1 "$work/log" | grep -q '^refused 5$' || bad "$recorder: an open of 900 numbers isn't recorded as refused"
    want 0 "a large desk by $recorder" have replay "$work/log"
    [ "$(awk 'length > 400' "$work/log")" = "" ] || bad "$recorder: a line has over 400 bytes"
  done
  [ "$("$program" <"$work/log" | head -n 1)" = "refused 1" ] || bad "the program has room for the largest desk"
  want 0 "the page of a large desk" have page "$work/log"
  want 0 "a large desk shrunk" have shrink "$work/log"
  sed '$d' "$work/large" >"$work/text"
  for recorder in target/tools/record_c target/tools/record_rs; do
    want 0 "a large desk as a text by $recorder" $recorder large text 65536 <"$work/text"
    mv "$work/out" "$work/log"
    sed -n 2p "$work/log" | grep -q "^ok $most$" || bad "$recorder: not the largest desk as a text"
    want 0 "the log of a large desk as a text by $recorder" have replay "$work/log"
  done
}

# In C nothing is allocated: the recording header asks for the library's calls and nothing else.
trial_alone() {
  local name
  { echo '#include "embed/sheetdesk_record.h"'
    sed -n -E 's/^(SHEETDESK_RECORDED(_ALONE|_AS)?\(("[a-z]+", )?|static inline uint32_t sheetdesk_)([a-z_]+)(,|_recorded\().*/\4/p' embed/sheetdesk_record.h |
      sed 's/.*/void *use_&(void); void *use_&(void) { return (void *)sheetdesk_&_recorded; }/'; } >"$work/alone.c"
  [ "$(grep -c '^void' "$work/alone.c")" -eq "$(grep -c '^uint32_t sheetdesk_.*desk' embed/sheetdesk.h)" ] ||
    bad "a call isn't recorded"
  [ "$(tr -s ' \n' ' ' <embed/sheetdesk_record.h | sed -n 's/.*first\[\] = {\([^}]*\)};.*/(\1)/p')" = "$(sed -n 's/^_OUTCOMES = //p' embed/sheetdesk.py)" ] ||
    bad "sheetdesk_record.h has other first words of answers than sheetdesk.py"
  for level in -O0 -O2 -O3; do
    gcc -std=c99 "$level" -I. -c -o "$work/alone.o" "$work/alone.c" || bad "sheetdesk_record.h"
    nm -u "$work/alone.o" | grep -v ' sheetdesk_[a-z_]*$' >"$work/err" &&
      bad "sheetdesk_record.h asks for more than the library"
  done
  ! command -v g++ >/dev/null || g++ -Wall -Wextra -Werror -fsyntax-only -x c++ embed/sheetdesk_record.h ||
    bad "sheetdesk_record.h in C++"
}

# Golden scripts with their answers replay; an answer that isn't the desk's is told with its line.
trial_replay() {
  local script
  for script in scripts/*.txt; do
    [ -s "$script" ] || continue
    paste -d '\n' "$script" "${script%.txt}.out" >"$work/log"
    want 0 "$script as a log" have replay "$work/log"
  done
  paste -d '\n' scripts/case-a.txt scripts/case-a.out | sed '10s/.*/ok 2/' >"$work/log"
  want 1 "an answer that isn't the desk's" have replay "$work/log"
  said "line 9: fetch 0 0 -> ok 3, the log has ok 2"
  want 2 "a script without answers" have replay scripts/case-a.txt
  said "has no answers"
}

trials=("$@")
[ $# -gt 0 ] || trials=(record texts sizes alone replay)
build
for trial in "${trials[@]}"; do
  (trial_"$trial") || exit 1
done
echo "record: calls and answers handed over in C, Rust and Python, one by one and of texts, and replayed, on desks of any size"
