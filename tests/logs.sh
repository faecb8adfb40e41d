#!/usr/bin/env bash
# Logs of a product: what they have lost is told, what is said of a long one is its own; breaks, bills and desks for tickets. Usage, after
# `make`: tests/logs.sh [TRIAL..], all trials without one.
set -u
cd "$(dirname "$0")/.." || exit 2
. tests/trials.sh || exit 2

# lost WHAT SED TEXT: a log of which lines are changed; --replay and --page tell which one.
lost() {
  log_of scripts/case-a.txt | sed "$2" >"$work/lost"
  for mode in replay page; do
    want 2 "$1, $mode" have "$mode" "$work/lost"
    head -n 1 "$work/err" >"$work/first" && grep -q -e "$3" "$work/first" || bad "$1, $mode: not first '$3'"
  done
}

# What a log has lost is told with its line.
trial_lost() {
  lost "an answer that is gone" 8d "line 7: issue 0 0 3: no answer stands behind it"
  lost "the first answer gone" 2d "line 1: new 2 2 2 1: no answer stands behind it"
  lost "a call that is gone" 7d "line 7: ok 1: no call stands in front of this answer"
  lost "a stray line" '8a lost' "line 9: lost: neither a call nor an answer"
  lost "a call that is cut" '9s/ 0$//' "line 9: fetch 0: no call, and yet it has an answer"
  log_of scripts/case-a.txt | head -c -3 >"$work/cut"
  want 2 "a log that is cut in an answer" have replay "$work/cut"
  said "line 29: evict 0 1: its answer is cut off"
  log_of scripts/case-a.txt | head -n 27 | head -c -3 >"$work/cut"
  want 2 "a log that is cut in a call" have replay "$work/cut"
  said "line 27: fetch 1: neither a call nor an answer"
  log_of scripts/unread-forms.txt >"$work/log"
  want 0 "a log with lines that were unread" have replay "$work/log"
}

# Without LINE it is the last break, though refusals come behind it; the page's head counts all calls.
trial_question() {
  { head -n 10 scripts/break-leaves-shelf.txt; yes 'look 0 0 0' | head -n 300; echo 'evict 1 1'; } >"$work/late"
  want 0 "a refusal behind a break" have shrink "$work/late"
  said 'line 10 is still answered "broken 1"'
  want 0 "the page of a refusal behind a break" have page "$work/late"
  grep -q 'class="summary">311 calls: 1 broken, 1 refused, 0 unread' "$work/out" || bad "the page's head doesn't count all calls"
  grep -q 'A run breaks at <a href="#line10">line 10</a>' "$work/out" || bad "the page doesn't show the break"
  want 0 "the page of the refusal" have page "$work/late" 311
  grep -q 'A run breaks at line 10\.' "$work/out" || bad "the page of another line doesn't tell of the break"
}

# The page of a long log has the log's own issue numbers, writers and lines, for a break and for a step that is ok.
trial_own() {
  local line issue row
  many_calls 6 4 3 4 >"$work/many"
  "$program" <"$work/many" | paste -d '|' "$work/many" - | awk '{ print NR ":" $0 }' >"$work/both"
  for kind in ':step.*|broken' ':step.*|ok .*[1-9]'; do
    line=$(grep -e "$kind" "$work/both" | tail -n 1 | cut -d : -f 1)
    want 0 "the page of line $line of 20,000" have page "$work/many" "$line"
    paste -d '\n' "$work/many" <("$program" <"$work/many") | "$tool" page log $((2 * line - 1)) >"$work/log.html" 2>"$work/err"
    [ "$(grep -c 'class="row ' "$work/log.html")" -gt 5 ] && ! grep -q 'class="recorded"' "$work/log.html" ||
      bad "line $line: a shorter list has other answers than the log"
    grep -A9 "id=\"line$line\"" "$work/out" | grep -o -E 'issues? [0-9]+' | grep -o -E '[0-9]+' | sort -un >"$work/named"
    [ -s "$work/named" ] || bad "line $line names no issue"
    while read -r issue; do
      IFS='|' read -r row _ < <(grep -E ':issue .*\|ok '"$issue$" "$work/both")
      grep -q -E "id=\"line${row%%:*}\".* data-issue=\"$issue\"" "$work/out" || bad "issue $issue isn't on its line, ${row%%:*}"
      grep -q "Writer $(echo "$row" | cut -d ' ' -f 3) saves .* as issue $issue;" "$work/out" || bad "issue $issue has another writer"
    done <"$work/named"
  done
}

# Line ends of another system are named as the cause.
trial_line_ends() {
  log_of scripts/case-a.txt | sed 's/$/\r/' >"$work/crlf"
  for mode in replay shrink; do
    want 2 "carriage returns, $mode" have "$mode" "$work/crlf"
    said "its lines end with a carriage return, see LINE ENDS in --man"
  done
}

# Breaks, bills and the desk at a line, of generated logs.
trial_tickets() {
  build_generate
  mkdir "$work/generated" || exit 2
  for seed in {1..24}; do target/reference/generate "$seed" 250 >"$work/generated/$seed"; done 2>"$work/err"
  python3 tests/tickets.py "$program" "$tool" "$work/generated"/* || bad "tests/tickets.py"
  log_of scripts/break-several.txt >"$work/log"
  want 0 "the breaks of a log" have breaks "$work/log"
  [ "$(grep -c 'brought at line 17 by the shelf of office 0, fetched from the master then$' "$work/out")" -eq 2 ] || bad "not each sheet of the mask has its office"
  want 2 "a bill of no run" have set "$work/log" 1
  said "line 1 is no call of a run"
  log_of scripts/case-a.txt | sed 8d >"$work/log"
  want 2 "the breaks of a log that has lost a line" have breaks "$work/log"
  said "line 7: issue 0 0 3: no answer stands behind it"
  grep -q '15 calls, 0 broken' "$work/out" || bad "what can be told of a log that has lost a line isn't"
}

# An office may hold sheet 0 no more. It needs no fetch, unless a job reads it there: then its right is missing.
trial_rights() {
  printf '%s\n' 'new 3 2 2 2' 'open 1 0 0 0' 'step 1 0' 'issue 1 0 1' 'open 1 0 1 0' 'step 1 0' 'issue 1 0 2' 'fetch 0 1' 'open 1 0 0 0' \
    'step 1 0' 'issue 1 1 5' 'mayhold 1 6' 'open 0 0 2 0 0 1 0 1 2 0 0 4 0' 'step 0 0' 'step 0 1' 'step 0 2' 'step 0 3' >"$work/barred"
  want 0 "an office without a right" have breaks "$work/barred"
  [ "$(sed -n '/remedy, behind/,$p' "$work/out" | tail -n +2 | paste -sd ';')" = "    drop 0;    fetch 0 0;    open 0 0 2 0 0 1 0 1 2 0 0 4 0" ] ||
    bad "an office that may not hold the sheet: another remedy"
  { head -n 9 scripts/break-leaves-shelf.txt; printf 'mayhold 0 2\nstep 0 1\nfetch 0 0\n'; } >"$work/barred"
  want 0 "a right that is missing" have breaks "$work/barred"
  grep -q 'prepare is answered refused 13 (an office may not hold what a job reads or fetches: mayhold gives the right)$' "$work/out" ||
    bad "a right that is missing isn't told"
  grep -q '^refused 13: 1 call, first at line 12: the office may not hold a sheet, or the writer may not save it$' "$work/out" ||
    bad "a refusal 13 isn't counted"
}

# has TEXT: standard output has it.
has() {
  grep -qF -e "$1" "$work/out" || bad "standard output doesn't say '$1'"
}

# Comments are no calls, and names stand instead of numbers; the program itself knows neither.
trial_names() {
  { printf '%s\n' '# names sheets Plan <b>' '# names offices London Paris' '#names writers no' '# names writers Ann Bob'
    sed '5i # a remark' scripts/break-leaves-shelf.txt; } >"$work/named"
  log_of "$work/named" >"$work/log"
  want 0 "the replay of a log with comments" have replay "$work/log"
  has "22 calls, each answered as the log has it"
  sed '/^#/{n;d}' "$work/log" >"$work/recorded"
  want 0 "the replay of a recorded log with comments" have replay "$work/recorded"
  want 0 "the breaks of a script with names" have breaks "$work/named"
  has "line 15: job 1 of run 0, at office Paris, breaks the run: broken 1"
  has "Sheet <b> of issue 2 needs sheet Plan of issue 2; run 0 had read the older sheet Plan of issue 1, brought by the shelf of office London at line 11."
  has "    sheet <b> of issue 2 by writer Ann at line 14"
  has "    open 0 0 1 0 1 2 0"
  want 0 "a bill with names" have set "$work/named" 15
  has "Plan   1      Ann     line 8"
  want 0 "a bill as JSON with names" have set-json "$work/named" 15
  has '"names": {"sheets": ["Plan", "<b>"], "offices": ["London", "Paris"], "writers": ["Ann", "Bob"]}'
  want 0 "a page with names" have page "$work/named"
  has 'Sheet &lt;b&gt; of issue 2 needs sheet Plan of issue 2'
  has 'A fresh desk of 2 sheets, 2 writers, 2 offices and 2 runs.'
  has '>office London</text>'
  has '>writer Ann</text>'
  ! grep -q '<b>' "$work/out" || bad "a name isn't text on the page"
  want 2 "a comment's line" have page "$work/named" 9
  want 0 "--echo with names" ./sheetdesk --echo "$work/named"
  has "9: # a remark -> unread: the line is a comment, which the program doesn't know; see COMMENTS in --man"
  has "8: issue 1 Ann Plan -> ok 1"
  has "10: open 0 London Plan 0 Paris <b> 0 -> ok 2"
  has "14: issue 1 Ann Plan+<b> -> ok 2"
  has "15: step 0 1 -> broken Plan: the run has read these sheets"
  printf '%s\n' '# names sheets Plan' '# names offices London' 'new 4 1 1 1' 'mayhold 0 9' 'maysave 0 8' >"$work/unnamed"
  want 0 "--echo with a sheet that has no name" ./sheetdesk --echo "$work/unnamed"
  has "4: mayhold London Plan+sheet 3 -> ok 0"
  has "5: maysave 0 sheet 3 -> ok 0"
  { printf '%s\n' '# names sheets Plan <b>' '# names offices London Paris'; cat scripts/forecast-first.txt; } >"$work/foretold"
  want 0 "--echo of a forecast with names" ./sheetdesk --echo "$work/foretold"
  has "12: forecast 0 -> breaks 1 Plan: this job would break the run"
  has "15: forecast 0 -> turned 2 7: this job would be refused"
  want 0 "a page of a forecast with names" have page "$work/foretold"
  has "Job 1 of run 0 would break the run: sheet Plan would change, which the run would have read."
  want 1 "--strict and a comment" ./sheetdesk --strict "$work/named"
  want 0 "the desk at a line of a log with comments" bash -c "printf '# why\nlook 0 0 0\n' | $tool at x 14 3<'$work/named'"
  [ "$(wc -l <"$work/out")" -eq 1 ] || bad "a comment is answered by --at"
}

# A log isn't a script: --strict and --echo say what it is.
trial_script() {
  paste -d '\n' scripts/case-a.txt scripts/case-a.out >"$work/log"
  for option in --strict --echo; do
    want 2 "a log, $option" ./sheetdesk "$option" "$work/log"
    said "log is a log, with answers behind its calls: --replay"
    [ ! -s "$work/out" ] || bad "a log, $option: answers"
  done
  want 0 "a log on standard input" bash -c "./sheetdesk --echo <'$work/log'"
  has "2: $(head -n 1 scripts/case-a.out) -> unread: the line is an answer, as logs have them; see --replay in --man"
}

# The remedies mend the breaks of generated scripts.
trial_remedies() {
  grep -q 'for every office of the run' docs/USER.md || bad "the page doesn't say for which offices to fetch"
  build_generate
  for seed in {1..200}; do target/reference/generate "$seed" 250 >"$work/$seed.script"; done 2>"$work/err"
  python3 tests/remedies.py "$program" "$work"/*.script || bad "tests/remedies.py"
}

trials=("$@")
[ $# -gt 0 ] || trials=(lost question own line_ends tickets rights names script remedies)
build_tool
for trial in "${trials[@]}"; do
  (trial_"$trial") || exit 1
done
echo "logs: what is lost is told with its line, a long log has its own lines, issues and writers, and names stand for numbers"
