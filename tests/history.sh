#!/usr/bin/env bash
# The history of calls had again: what --shrink leaves, what bad input gets, and the command that runs it (tests/pages.sh has
# the pages). Usage, after `make`: tests/history.sh [TRIAL..], all trials without one.
set -u
cd "$(dirname "$0")/.." || exit 2
. tests/trials.sh || exit 2
library=(-L native=target/staticlib -l static=sheetdesk_c)

build() {
  build_tool
  rustc --edition 2021 -O -D warnings -o target/tools/shrink tests/shrink.rs "${library[@]}" || bad "tests/shrink.rs"
  build_generate
}

trial_shrink() {
  mkdir "$work/generated" || exit 2
  for seed in {1..30}; do target/reference/generate "$seed" 250 >"$work/generated/$seed"; done
  target/tools/shrink "$work/generated"/* || bad "tests/shrink.rs"
  # The program answers what is left as the whole script, and a log comes back as a log.
  local line answer
  IFS=: read -r line answer < <(grep -n '^broken' scripts/break-several.out)
  want 0 "a script" have shrink scripts/break-several.txt "$line"
  said "It is a history that suffices, not necessarily the one meant"
  [ "$("$program" <"$work/out" | tail -n 1)" = "$answer" ] || bad "the program answers the shrunk script otherwise"
  log_of scripts/break-several.txt >"$work/log"
  want 0 "a log" have shrink "$work/log"
  cp "$work/out" "$work/less"
  want 0 "what is left of a log" have replay "$work/less"
}

# in_time LINE [SECONDS]: what is left of the many calls for that line, in a few seconds of the processor.
in_time() {
  local used limit=${2:-5}
  used=$( { TIMEFORMAT=%U; time have shrink "$work/many" "$1" >"$work/out" 2>"$work/err"; } 2>&1)
  [ "${used%.*}" -lt "$limit" ] || bad "20,000 calls, line $1: shrunk in $used s"
  most=$(printf '%s\n' "$most" "$used" | sort -n | tail -n 1)
}

# line_of KIND: the last of the many calls with such an answer.
line_of() {
  grep -n "$1" "$work/both" | tail -n 1 | cut -d : -f 1 | grep . || bad "20,000 calls without $1"
}

# The last answer of each kind needs few of the calls; that of a look at a shelf that is behind needs thousands, for its issue
# number counts them. Some of those are taken out.
trial_speed() {
  local kind line answer out most=0
  many_calls 6 4 3 4 >"$work/many"
  "$program" <"$work/many" | paste -d '|' "$work/many" - >"$work/both"
  [ "$(wc -l <"$work/many")" -eq 20000 ] || bad "$(wc -l <"$work/many") calls, due 20,000"
  for kind in '^step.*|broken' '^explain.*|path' '^fetch.*|ok' '^step.*|ok' '^look.*|refused' '^evict.*|refused'; do
    line=$(line_of "$kind") || exit 1
    in_time "$line"
    [ "$(wc -l <"$work/out")" -lt 100 ] || bad "20,000 calls, line $line: $(wc -l <"$work/out") are left"
  done
  line=$(line_of '^look 1.*|ok .* 1$') || exit 1
  in_time "$line"
  mv "$work/out" "$work/left"
  [ "$(wc -l <"$work/left")" -gt 9000 ] || bad "line $line: only $(wc -l <"$work/left") calls are left"
  answer=$("$program" <"$work/left" | tail -n 1)
  [ "$(sed -n "${line}p" "$work/both")" = "$(tail -n 1 "$work/left")|$answer" ] || bad "line $line: what is left answers $answer"
  for ((out = 1; out < $(wc -l <"$work/left"); out += 499)); do
    [ "$(sed "${out}d" "$work/left" | "$program" | tail -n 1)" != "$answer" ] || bad "line $out of what is left isn't needed"
  done
  echo "history: 20,000 calls shrunk in $most s at most"
}

# On the largest desk a look at a card needs thousands as well. The program has no room for it: tests/shrink.rs takes some out.
# Its words don't lie in a processor's own memory: how long that takes is the machine's, two seconds on one and ten on another.
trial_largest() {
  local line most=0
  many_calls 32 16 8 8 >"$work/many"
  line=$(grep -n '^look 2' "$work/many" | tail -n 1 | cut -d : -f 1)
  in_time "$line" 30
  [ "$(wc -l <"$work/out")" -gt 9000 ] || bad "line $line: only $(wc -l <"$work/out") calls are left"
  target/tools/shrink --left "$work/many" "$line" "$work/out" 1499 || bad "tests/shrink.rs"
  echo "history: 20,000 calls on the largest desk shrunk in $most s"
}

# Bad input: a message, with the line where it has one, and status 2.
trial_bad() {
  : >"$work/empty"
  printf 'new 2 2 2 1\nfetch 0 x\nfetch 0 0\n' >"$work/unread"
  printf 'new 2 2 2 1\r\n' >"$work/crlf"
  printf 'new 2 2 2 1\n' >"$work/fine"
  want 2 "an empty page" have page "$work/empty"
  said "empty: the page shows no call"
  want 2 "an empty list" have shrink "$work/empty"
  said "empty is empty: there is no call"
  want 2 "a line that is no call" have page "$work/unread"
  said "line 2: fetch 0 x -> unread: the line is none of the calls' forms"
  grep -q 'No call, nothing changed' "$work/out" || bad "a line that is no call isn't on the page"
  want 2 "a line that is no call, shrunk" have shrink "$work/unread"
  said "line 2: fetch 0 x -> unread"
  [ "$(paste -sd ';' "$work/out")" = "new 2 2 2 1;fetch 0 0" ] || bad "a line that is no call: nothing is shrunk"
  want 2 "a line that is no call, in question" have shrink "$work/unread" 2
  said "line 2 is no call"
  want 2 "carriage returns" have page "$work/crlf"
  said "line 1: new 2 2 2 1.r -> unread: the line ends with a carriage return"
  want 2 "nothing broken or refused" have shrink "$work/fine"
  said "no answer in fine is broken or refused: name a line"
  want 0 "a line that is named" have shrink "$work/fine" 1
  want 2 "a line that isn't there" have shrink "$work/fine" 7
  said "fine has 1 lines: there is no line 7"
  want 2 "a line that is no number" have shrink "$work/fine" x
  said "LINE is the number of a line"
  want 2 "a full disk" bash -c "$tool page a <scripts/case-a.txt >/dev/full"
  said "not all was written"
}

# A log that isn't this desk's: the page says where.
trial_differs() {
  paste -d '\n' scripts/case-a.txt scripts/case-a.out | sed '10s/.*/ok 2/' >"$work/log"
  want 2 "a log with another answer" have page "$work/log"
  said "line 9: fetch 0 0 -> ok 3, the log has ok 2"
  [ "$(grep -o 'The log has <code>[a-z0-9 ]*' "$work/out")" = "The log has <code>ok 2" ] ||
    bad "the page doesn't have the log's answer, where it differs alone"
  tail -n +3 "$work/log" >"$work/late"
  want 2 "a log without its new" have page "$work/late"
  said "line 1: open 0 0 0 0 -> refused 1, the log has ok 1"
}

# Above 200 calls the page shows what is left of them.
trial_long() {
  { echo 'new 2 2 2 1'; yes 'look 0 0 0' | head -n 199; } >"$work/whole"
  want 0 "200 calls" have page "$work/whole"
  [ "$(grep -c 'class="row ' "$work/out")" -eq 200 ] || bad "200 calls aren't all on the page"
  echo 'fetch 0 0' >>"$work/whole"
  want 0 "201 calls" have page "$work/whole"
  [ "$(grep -c 'class="row ' "$work/out")" -eq 2 ] || bad "of 201 calls not just the needed ones are on the page"
  grep -q 'class="shrunk">2 of 201 calls are left; line 201 is still answered &quot;refused 7&quot;' "$work/out" ||
    bad "the page doesn't say what is left"
  want 0 "201 calls, whole" have whole "$work/whole"
  [ "$(grep -c 'class="row ' "$work/out")" -eq 201 ] || bad "201 calls aren't all on the whole page"
  yes 'new 2 2 2 1' | head -n 201 >"$work/fine"
  want 2 "201 calls and none refused" have page "$work/fine"
  said "name a line"
  want 0 "201 calls and a line" have page "$work/fine" 5
}

# without COMMAND: takes the folders that have it off the PATH.
without() {
  PATH=$(echo "$PATH" | tr ':' '\n' | while read -r folder; do [ -x "$folder/$1" ] || echo "$folder"; done | paste -sd ':')
}

# The options for tickets, in a folder with the command.
command_for_tickets() {
  want 0 "--breaks" ./sheetdesk --breaks scripts/explain-path.txt
  grep -q '^line 19: job 1 of run 0, at office 1, breaks the run: broken 1$' "$work/out" || bad "--breaks: no break"
  want 0 "--set" ./sheetdesk --json --set scripts/explain-path.txt 19
  grep -q '^{"line": 19, "call": "step 0 1", ' "$work/out" || bad "--set --json: no bill"
  want 0 "--at" bash -c 'echo "explain 0 1" | ./sheetdesk --at scripts/explain-path.txt 18'
  [ "$(cat "$work/out")" = "path 2 1 0" ] || bad "--at: another desk"
  want 2 "--at without a line" ./sheetdesk --at scripts/explain-path.txt
  said "wants a log and a line"
  want 2 "--at of standard input" ./sheetdesk --at - 3
  want 2 "--json with --page" ./sheetdesk --json --page scripts/case-a.txt
}

# The command, on a copy with an rt that proves nothing (tests/fake/rt).
trial_command() {
  export REAL=$top FAKE=$work/fake
  mkdir -p "$FAKE" "$work/a desk/crates/sheetdesk_c" || exit 2
  cp -R sheetdesk tools docs embed reference scripts "$work/a desk/" || exit 2
  printf 'sheetdesk_c staticlib:\nsheetdesk:\n' >"$work/a desk/crates.txt"
  # A rustc that takes what is built here.
  mkdir "$work/rust" && cat >"$work/rust/rustc" <<END || exit 2
#!/bin/sh
while [ "\$1" != -o ]; do shift; done
exec cp "$top/$tool" "\$2"
END
  chmod +x "$work/rust/rustc"
  cd "$work/a desk" || exit 2
  PATH=$top/tests/fake:$work/rust:$PATH
  want 0 "--page" ./sheetdesk --page scripts/explain-path.txt
  said "building what --replay"
  grep -q '<title>Sheet desk: explain-path.txt</title>' "$work/out" || bad "--page: no page"
  [ "$(grep -c . "$FAKE/calls")" -eq 1 ] || bad "--page: not one call of rt"
  want 0 "--shrink" ./sheetdesk --shrink scripts/explain-path.txt 19
  [ "$(tail -n 1 "$work/out")" = "step 0 1" ] || bad "--shrink: no list"
  want 0 "--page by standard input" bash -c './sheetdesk --page <scripts/case-a.txt'
  [ ! -s "$work/err" ] && [ "$(grep -c . "$FAKE/calls")" -eq 1 ] || bad "--page: something is built again"
  sed -n '/^## WHEN A SET LOOKS WRONG/,/^## [^W]/s/^    //p' docs/USER.md >"$work/page"
  want 0 "the user page's command" bash "$work/page"
  grep -q 'class="sentence">Sheet 1 of issue 2 needs sheet 0 of issue 2;' page.html || bad "the user page's command makes no page"
  want 0 "--page --whole" ./sheetdesk --page --whole scripts/case-a.txt
  want 2 "--whole with a line" ./sheetdesk --page --whole scripts/case-a.txt 3
  said "without LINE"
  command_for_tickets
  want 2 "--replay of a script" ./sheetdesk --replay scripts/case-a.txt
  want 2 "--page with --strict" ./sheetdesk --strict --page scripts/case-a.txt
  want 2 "--page and --shrink" ./sheetdesk --shrink --page scripts/case-a.txt
  want 2 "a file that isn't there" ./sheetdesk --page none
  said "can't read none"
  echo '// more' >>tools/history.rs
  want 0 "other sources" ./sheetdesk --page scripts/case-a.txt
  said "building what --replay"
  cp scripts/case-a.txt "$work/-odd name"
  want 0 "an odd name" ./sheetdesk --page -- "$work/-odd name"
  rm "$work/rust/rustc"
  without rustc
  want 0 "without rustc, built" ./sheetdesk --page scripts/case-a.txt
  echo '// more' >>tools/history.rs
  want 2 "without rustc, not built" ./sheetdesk --page scripts/case-a.txt
  said "rustc is not on the PATH"
}

trials=("$@")
[ $# -gt 0 ] || trials=(shrink speed largest bad differs long command)
build
for trial in "${trials[@]}"; do
  (trial_"$trial") || exit 1
done
echo "history: shrunk as the user page says, and bad input told with its line"
