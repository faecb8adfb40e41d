#!/usr/bin/env bash
# The command that people type, over the program that is built: its options, files, exit statuses and what the user page
# promises. Usage: tests/command.sh [TRIAL..], all trials without one.
set -u
cd "$(dirname "$0")/.." || exit 2
. tests/trials.sh || exit 2
printf 'new 2 2 2 1\n' >"$work/good"
printf 'new 2 2 2 1\nnew\n' >"$work/unread"
# What new 2 2 2 1 answers.
total=$(head -n 1 scripts/case-a.out)

same() {
  cmp -s "$work/out" "$1" || bad "$2: not the answers of $1"
}

# told TEXT: standard output has it.
told() {
  grep -q -e "$1" "$work/out" || bad "standard output doesn't say '$1'"
}

trial_files() {
  want 0 "a file" ./sheetdesk scripts/case-a.txt
  same scripts/case-a.out "a file"
  want 0 "standard input" bash -c './sheetdesk < scripts/case-a.txt'
  same scripts/case-a.out "standard input"
  want 0 "- for standard input" bash -c './sheetdesk - < scripts/case-a.txt'
  same scripts/case-a.out "- for standard input"
  cp scripts/case-a.txt "$work/-odd name" || exit 2
  want 0 "an odd name behind --" bash -c "top=\$PWD; cd '$work' && \"\$top/sheetdesk\" -- '-odd name'"
  same scripts/case-a.out "an odd name behind --"
  want 2 "a file that isn't there" ./sheetdesk "$work/none"
  said "can't read .*none: there is no such file"
  want 2 "a folder" ./sheetdesk "$work"
  said "can't read $work: it is a folder"
  want 2 "a file without a name" ./sheetdesk ""
  said "can't read a file without a name"
  want 2 "two files" ./sheetdesk "$work/good" "$work/good"
}

trial_options() {
  want 2 "an option that there isn't" ./sheetdesk --lax
  said "no option --lax"
  want 1 "an option behind the file" ./sheetdesk scripts/case-a.txt --strict
  same scripts/case-a.out "an option behind the file"
  for option in -h --help; do
    want 0 "$option" ./sheetdesk "$option"
    told "docs/USER.md"
    told "^Exit status: .*--replay: one isn't the log's"
    [ "$(wc -l <"$work/out")" -le 20 ] || bad "$option: more than twenty lines"
  done
  want 0 "--man" ./sheetdesk --man
  told "^REFUSALS"
  [ "$(awk '{ gsub(/·/, ".") } length($0) > 80 || /`|\*\*|^#|^\|/' "$work/out")" = "" ] ||
    bad "--man: over 80 columns, or marks of Markdown"
  # The page fits the pipe: a reader that is gone before it is written, so that no load on the machine matters.
  want 141 "--man to head" env --default-signal=PIPE bash -c '{ sleep 0.3; ./sheetdesk --man; } | true; exit "${PIPESTATUS[0]}"'
  [ ! -s "$work/err" ] || bad "--man to head: a word"
  want 0 "--version" ./sheetdesk --version
  told "^sheetdesk [0-9]*, layout [0-9]*, toolchain [a-z]"
}

# The second program: every script of one to three calls.
trial_histories() {
  want 0 "--histories" ./sheetdesk --histories
  same crates/histories/stdout "--histories"
  want 0 "--histories without standard input" bash -c './sheetdesk --histories <&-'
  same crates/histories/stdout "--histories without standard input"
  want 2 "--histories with a file" ./sheetdesk --histories scripts/case-a.txt
  said "stands alone"
  want 2 "--histories with --strict" ./sheetdesk --strict --histories
  want 2 "--histories on a full disk" bash -c './sheetdesk --histories >/dev/full'
  said "sheetdesk: not all lines were written"
  want 141 "--histories to head" env --default-signal=PIPE bash -c './sheetdesk --histories | head -n 1; exit "${PIPESTATUS[0]}"'
  head -n 1 crates/histories/stdout | cmp -s - "$work/out" || bad "--histories to head: not the first line"
  [ ! -s "$work/err" ] || bad "--histories to head: a word"
}

# As it is installed: without the second program, and with one that is killed on the way.
trial_installed_histories() {
  mkdir -p "$work/installed/target/bin" && cp sheetdesk "$work/installed/" || exit 2
  want 2 "--histories, installed" "$work/installed/sheetdesk" --histories
  said "an installed command has no listing"
  local fake=$work/installed/target/bin/histories
  printf '#!/bin/sh\nhead -n 3 %q\nkill -KILL $$\n' "$PWD/crates/histories/stdout" >"$fake" && chmod +x "$fake" || exit 2
  want 2 "--histories, killed" "$work/installed/sheetdesk" --histories
  said "sheetdesk: the program ended with status 137"
}

# A failed write or read: status 2 and a message. Whoever takes the answers may stop.
trial_lost() {
  for option in "" --strict --echo; do
    want 2 "a full disk $option" bash -c "./sheetdesk $option scripts/case-a.txt >/dev/full"
    said "sheetdesk: not all answers were written"
    want 2 "a folder as standard input $option" bash -c "./sheetdesk $option </tmp"
    said "sheetdesk: the script wasn't read to its end"
  done
  want 2 "a folder" ./sheetdesk "$work"
  said "can't read"
  want 2 "a file that fails in a read" ./sheetdesk /proc/self/mem
  said "sheetdesk: the script wasn't read to its end"
  want 2 "no standard input" bash -c './sheetdesk <&-'
  said "no standard input"
  want 2 "no standard output" bash -c './sheetdesk scripts/case-a.txt >&-'
  said "no standard output"
  yes 'look 0 0 0' | head -n 300000 >"$work/long"
  want 0 "head" env --default-signal=PIPE bash -c "./sheetdesk '$work/long' | head -n 1"
  [ ! -s "$work/err" ] || bad "head: a word"
}

# best COMMAND..: the least time of five runs, in milliseconds.
best() {
  local least=1000000 from to
  for _ in 1 2 3 4 5; do
    from=$EPOCHREALTIME
    "$@" >"$work/out"
    to=$EPOCHREALTIME
    to=$(((${to/./} - ${from/./}) / 1000))
    [ "$to" -ge "$least" ] || least=$to
  done
  echo "$least"
}

trial_strict() {
  want 1 "--strict with a refusal" ./sheetdesk --strict scripts/case-a.txt
  same scripts/case-a.out "--strict with a refusal"
  said "line 10: step 0 1 -> refused 6: the job is done already, or one"
  want 1 "--strict on standard input" bash -c './sheetdesk --strict < scripts/case-a.txt'
  said "line 10: refused 6"
  want 0 "--strict without" ./sheetdesk --strict "$work/good"
  [ ! -s "$work/err" ] || bad "--strict without: a word"
  head -n 17 scripts/explain-path.txt >"$work/paths"
  want 0 "--strict with a path" ./sheetdesk --strict "$work/paths"
  want 1 "--strict with an unread line" ./sheetdesk --strict "$work/unread"
  said "line 2: new -> unread"
}

trial_speed() {
  { echo 'new 2 2 2 1'; echo 'open 0 0 0 0'; yes 'look 1 0 0' | head -n 1000000; } >"$work/long"
  local plain strict
  plain=$(best ./sheetdesk "$work/long")
  strict=$(best ./sheetdesk --strict "$work/long" 2>/dev/null)
  [ "$strict" -lt $((2 * plain + 50)) ] || bad "--strict takes $strict ms for a million lines, without it $plain"
  head -n 200000 "$work/long" >"$work/part"
  want 0 "--echo of 200,000 lines" timeout 8 ./sheetdesk --echo "$work/part"
}

# Each line of --echo is its number, the script's line, and the answer, with words behind what isn't ok.
trial_echo() {
  for script in case-a refused-1 refused-2 refused-3 refused-4 refused-5 refused-6 refused-7 refused-8 break-several explain-path explain-refused stale-refused admit allow-refused allow-counts-held pick-refused pick-goes-round refused-13 rights-refused mayhold-before-7 fork-and-join fork-own-reads join-two-versions fork-left-out forecast-first forecast-refused forecast-fetches audit-case-a audit-had-read refused-15; do
    want 0 "--echo $script" ./sheetdesk --echo "scripts/$script.txt"
    sed -E 's/((refused|broken) [0-9]+|unread|clear|nothing|through|(breaks|turned) [0-9]+ [0-9]+|path [0-9 ]+|audit[0-9 ]* -> ok [0-9]+): .*/\1/' "$work/out" >"$work/plain"
    paste -d '|' "scripts/$script.txt" "scripts/$script.out" | sed 's/|/ -> /' | awk '{ print NR ": " $0 }' |
      cmp -s - "$work/plain" || bad "--echo $script: not each answer behind its call"
    if grep -q -E '((refused|broken) [0-9]+|clear|nothing|through|(breaks|turned) [0-9]+ [0-9]+|path [0-9 ]+|audit[0-9 ]* -> ok [0-9]+)$' "$work/out"; then bad "--echo $script: an answer without words"; fi
  done
  printf 'new 2 2 2 1\nfetch 0 0\nlook 2 0 1\nlook 01 0 1\nlook 0 0 1\nevict 0 0\nstep 0 8\n\na\001\nlast' >"$work/words"
  want 0 "--echo in words" ./sheetdesk --echo "$work/words"
  told "^2: fetch 0 0 -> refused 7: the master does not hold a sheet to be fetched$"
  told "^3: look 2 0 1 -> refused 8: the card .* step or prepare"
  told "^4: look 01 0 1 -> refused 8: the shelf .* fetch it"
  told "^5: look 0 0 1 -> refused 8: the master .* issue it"
  told "^6: evict 0 0 -> refused 8: .* nothing to do"
  told "^7: step 0 8 -> refused 3: there is no such run or job"
  told "^9: a? -> unread: the line is none of the calls' forms$"
  told "^10: last -> unread: "
  want 0 "--echo of a join" ./sheetdesk --echo scripts/join-two-versions.txt
  told "^14: join 0 -> broken 1: a line has read these sheets, and the join would move them"
  want 0 "--echo of a forecast" ./sheetdesk --echo scripts/forecast-first.txt
  told "^10: forecast 0 -> breaks 1 1: this job would break the run, which would have read these sheets: prepare the run"
  told "^13: forecast 0 -> turned 2 7: this job would be refused: the master does not hold a sheet to be fetched$"
  want 0 "--echo of forecasts" ./sheetdesk --echo scripts/forecast-refused.txt
  told "^12: forecast 0 -> through: the jobs that are not done would be ok, stepped in their order$"
  told "^14: forecast 0 -> turned 1 13: this job would be refused: an office may not hold what a job reads"
  told "^24: forecast 0 -> refused 14: the run is forked: join its lines first$"
  printf 'audit 1 1 0 0 7 7 7\naudit 1 2 3 2 7 19 25 0 1 0 0 1 1 0 1 0 1 1 1 0 1 0 0 0 1\naudit\n' >"$work/audits"
  want 0 "--echo of audits" ./sheetdesk --echo "$work/audits"
  told "^1: audit 1 1 0 0 7 7 7 -> ok 0: each issue has read a snapshot$"
  told "^2: audit .* 0 0 1 -> ok 3: issue 3, counted from 1, is the first whose reads are no snapshot$"
  told "^3: audit -> refused 15: the record is not readable: a word of it is wrong, or some are missing$"
  want 0 "--strict of a record that isn't accepted" bash -c "head -n 2 '$work/audits' | ./sheetdesk --strict"
  printf 'fetch 0 1 \nfetch 0 4294967296\nfetch  0 1\nfetch 0 04294967295\n' >"$work/spaces"
  want 0 "--echo of numbers and spaces" ./sheetdesk --echo "$work/spaces"
  told "^1: fetch 0 1  -> unread: the line ends with a space$"
  told "^2: fetch 0 4294967296 -> unread: a number is over 4294967295$"
  told "^3: fetch  0 1 -> unread: words and numbers stand one space apart$"
  told "^4: .* -> refused 1: "
  printf 'new 2 2 2 1\nstale 2\n' >"$work/office"
  want 0 "--echo of an office" ./sheetdesk --echo "$work/office"
  told "^2: stale 2 -> refused 3: there is no such office$"
  { yes 0 | head -n 200000 | tr '\n' ' '; echo; cat "$work/good"; } >"$work/wide"
  want 0 "--echo of a long line" timeout 20 ./sheetdesk --echo "$work/wide"
  told "^1: 0 0 .*\.\. -> unread: the line has over 400 bytes$"
  want 1 "--echo --strict" ./sheetdesk --echo --strict "$work/words"
  said "line 2: fetch 0 0 -> refused 7"
}

# By hand: the answer to a line comes before the input ends.
trial_prompt() {
  mkfifo "$work/in" || exit 2
  for option in "" --strict --echo; do
    : >"$work/prompt"
    ./sheetdesk $option <"$work/in" >"$work/prompt" 2>"$work/err" &
    exec 3>"$work/in"
    printf 'new 2 2 2 1\n' >&3
    for _ in {1..50}; do
      grep -q "$total\$" "$work/prompt" && break
      sleep 0.1
    done
    grep -q "$total\$" "$work/prompt" || bad "no answer before the input ended $option"
    exec 3>&-
    wait $!
  done
}

# At a terminal there is a word how to begin.
trial_terminal() {
  python3 -c 'import pty; pty.openpty()' 2>/dev/null || return 0 # this machine has no terminals
  printf 'new 2 2 2 1\n\004' >"$work/typed"
  want 0 "at a terminal" timeout 20 python3 -c 'import pty; pty.spawn(["./sheetdesk"])' <"$work/typed"
  told "new 2 2 2 1 makes a desk"
}

# A signal ends the command and the program.
trial_signal() {
  mkfifo "$work/held" || exit 2
  ./sheetdesk <"$work/held" >"$work/prompt" 2>"$work/err" &
  local command=$!
  exec 3>"$work/held"
  printf 'new 2 2 2 1\n' >&3
  for _ in {1..50}; do [ -s "$work/prompt" ] && break || sleep 0.1; done
  kill -TERM "$command"
  wait "$command"
  [ $? -eq 143 ] || bad "a signal: not exit status 143"
  sleep 0.1
  if (trap '' PIPE; printf 'new 2 2 2 1\n' >&3) 2>/dev/null; then bad "a signal left the script's reader behind"; fi
  exec 3>&-
}

# What the user page says of broken runs is what happens.
page=docs/USER.md
trial_broken() {
  head -n 10 scripts/break-leaves-shelf.txt >"$work/broken"
  { cat "$work/broken"; printf 'drop 0\nopen 0 0 1 0 1 2 0\nstep 0 0\nstep 0 1\n'; } >"$work/again"
  want 0 "the plan again" ./sheetdesk "$work/again"
  [ "$(tail -n 1 "$work/out")" = "broken 1" ] || bad "the same plan goes through: the page is wrong"
  sed -n '/^## BROKEN RUNS/,/^## REFUSALS/s/^    //p' "$page" >"$work/cure"
  grep -q '^prepare 0$' "$work/cure" || bad "the page doesn't say how a broken run goes through"
  cat "$work/broken" "$work/cure" >"$work/cured"
  want 0 "the cure" ./sheetdesk "$work/cured"
  tail -n +11 "$work/out" | paste -sd ',' | sed 's/,/`, `/g; s/^/`/; s/$/`/' >"$work/due"
  grep -qF -f "$work/due" "$page" || bad "the cure answers $(cat "$work/due"), the page says otherwise"
  { cat "$work/broken"; printf 'drop 0\nfetch 0 0\nopen 0 0 1 0 1 2 0\nstep 0 0\nstep 0 1\n'; } >"$work/fetched"
  want 0 "fetching what is behind" ./sheetdesk "$work/fetched"
  [ "$(tail -n 1 "$work/out")" = "ok 2 0 0" ] || bad "fetching what is behind doesn't cure"
}

# page_example SCRIPT LINES FROM TO BETWEEN: the calls that the page shows under a heading, behind a script's first lines, answer as it says,
# with this between the answers.
page_example() {
  { head -n "$2" "scripts/$1.txt"; sed -n "/^## $3/,/^## $4/s/^    //p" "$page"; } >"$work/shown"
  want 0 "the page's example: $3" ./sheetdesk "$work/shown"
  tail -n +$(($2 + 1)) "$work/out" | paste -sd ',' | sed "s/,/\`$5\`/g; s/^/\`/; s/\$/\`/" >"$work/due"
  grep -qF -f "$work/due" "$page" || bad "the page's example, $3, answers $(cat "$work/due"), the page says otherwise"
}

# And of a step that is explained, of forecasts, records, allowances, rights, picks and two lines.
trial_explained() {
  page_example explain-path 15 "EXPLAINED STEPS" "PREPARED RUNS" " and "
}

trial_forecasts() {
  page_example forecast-writes-nothing 9 FORECASTS RECORDS ", "
}

trial_records() {
  page_example audit-before-new 0 RECORDS "BROKEN RUNS" ", "
}

trial_allowances() {
  page_example allow-counts-held 13 ALLOWANCES RIGHTS " and "
}

trial_rights() {
  page_example mayhold-takes-needs 10 RIGHTS PICKING ", "
}

trial_picks() {
  page_example pick-goes-round 4 PICKING "TWO LINES" ", "
}

trial_two_lines() {
  page_example join-two-versions 11 "TWO LINES" "EXPLAINED STEPS" ", "
}

# And of leading writers: the two looks that the page tells are the script's.
trial_leading() {
  sed -n '/^## LEADING WRITERS/,/^## ALLOWANCES/p' "$page" | grep -o '`ok [0-9 ]*`' | tr -d '`' >"$work/due"
  want 0 "the page's rivals" ./sheetdesk scripts/rivals-lead.txt
  [ "$(sed -n '10p; 15p' "$work/out")" = "$(cat "$work/due")" ] || bad "the page's looks at rivals: other answers"
}

trial_refusals() {
  for words in "nothing to do" "counts that you gave to new" "step a$" "prepare the run"; do
    sed -n '/^## REFUSALS/,/^## LIMITS/p' "$page" | grep -q -e "$words" || bad "the page's refusals lack '$words'"
  done
}

trial_line_ends() {
  sed 's/$/\r/' scripts/case-a.txt >"$work/crlf"
  want 0 "CR LF" ./sheetdesk "$work/crlf"
  [ "$(sort -u "$work/out")" = unread ] || bad "a script with CR LF isn't unread"
  sed -n '/^## LINE ENDS/,/^## EXAMPLES/s/^    //p' "$page" | sed "s|SCRIPT|'$work/crlf'|" >"$work/strip"
  grep -q . "$work/strip" || bad "the page doesn't say what to do with CR LF"
  want 0 "without CR" bash "$work/strip"
  same scripts/case-a.out "without CR"
}

trial_examples() {
  sed -n '/^## EXAMPLES/,/^## DIAGNOSTICS/s/^    //p' "$page" | tail -n +2 >"$work/example"
  want 0 "the page's example" bash "$work/example"
  [ "$(paste -sd ' ' "$work/out")" = "$total ok 1 ok 0 0 0 ok 1 ok 3" ] || bad "the page's example: other answers"
}

# README's first screen: what is needed, and the first command with what it prints.
trial_readme() {
  head -n 36 README.md >"$work/screen"
  for words in "command \`rt\` on the PATH" "minutes" "\`refused 6\` is right" "logs need rustc" "^    . ./test" "passed, 0 failed"; do
    grep -q -e "$words" "$work/screen" || bad "README's first screen lacks '$words'"
  done
  sed -n 's/^    \$ \(.*sheetdesk .*\)/\1/p' "$work/screen" >"$work/command"
  want 0 "README's command" bash "$work/command"
  sed -n 's/^    \([0-9].* -> .*\)/\1/p' "$work/screen" >"$work/lines"
  [ "$(grep -c . "$work/lines")" -ge 3 ] || bad "README doesn't show what its command prints"
  [ "$(grep -cxF -f "$work/lines" "$work/out")" -eq "$(grep -c . "$work/lines")" ] || bad "README shows other answers"
}

trials=("$@")
[ $# -gt 0 ] || trials=(files options histories installed_histories lost strict speed echo prompt terminal signal broken explained forecasts records allowances rights picks two_lines leading refusals line_ends examples readme)
for trial in "${trials[@]}"; do
  (trial_"$trial") || exit 1
done
echo "command: options, files, exit statuses, echo, prompt answers and remedies as the user page says"
