# Sourced by sheetdesk: runs the program from standard input to standard output. The program itself has no exit status, so
# `cat` stands on both sides of it and tells if a read or a write failed. Wants $top, $program, $file, $strict, $echo, fail; and for
# a program that has some (tools/saved.sh) its arguments, $given: it gets one more, a file that is made when the script was read to
# its end.
given=(${given[@]+"${given[@]}"})
calls=
. "$top/tools/words.sh" || exit 2

# The status of `answers` if all was written, and --strict found an answer that isn't ok.
found=10

# The first answer that isn't ok, with its line's number in front; reads on to the end.
first_failed() {
  LC_ALL=C grep -m 1 -n -E '^(broken|refused|unread)'
  cat >/dev/null
}

# What stands behind the program; fd 5 takes the first answer that isn't ok.
behind() {
  case $strict:$echo in
    :) exec cat ;;
    1:) tee >(first_failed >&5) ;;
    :1) behind_calls "$calls/fifo" ;;
    1:1) tee >(first_failed >&5) | behind_calls "$calls/fifo" ;;
  esac
}

# name_failed NUMBER:ANSWER: tells --strict's first line on standard error, with its call if the script is a file.
name_failed() {
  local number=${1%%:*} answer=${1#*:} call=
  [ "$file" = - ] || [ ! -f "$file" ] || IFS= read -r call < <(tail -n "+$number" -- "$file")
  if [ -z "$call" ]; then
    echo "sheetdesk: line $number: $answer; --echo shows the calls" >&2
  else
    echo "sheetdesk: line $(report "$number" "$call" "$answer")" >&2
  fi
}

# Answers the script on standard input to fd 4.
answers() {
  local failed status
  set -o pipefail
  failed=$({ "$program" ${given[@]+"${given[@]}"} | behind >&4; } 5>&1)
  status=$?
  [ "$status" -eq 0 ] && [ -n "$failed" ] || exit "$status"
  name_failed "$failed"
  exit "$found"
}

# The script, for the program; with --echo also for what stands behind it.
copy() {
  [ -n "$echo" ] || exec cat
  exec tee "$calls/fifo"
}

# The same; a program with arguments is told of its end before it sees it.
script() {
  local copier= status
  [ ${#given[@]} -gt 0 ] || copy
  trap 'kill "$copier" 2>/dev/null; exit 143' TERM
  copy <&0 &
  copier=$!
  wait "$copier"
  status=$?
  [ "$status" -ne 0 ] || : >"$calls/whole" || status=1
  exit "$status"
}

# conclude READ WRITTEN: ends the command by the statuses of `script` and `answers`.
conclude() {
  [ -z "$calls" ] || rm -rf "$calls"
  case $2 in
    0 | "$found") ;;
    1) fail "not all answers were written" ;;
    141) exit 141 ;; # whoever took the answers has gone
    2) [ ${#given[@]} -eq 0 ] || exit 2 ;;& # it has said why
    *) fail "the program ended with status $2" ;;
  esac
  [ "$1" -eq 0 ] || fail "the script wasn't read to its end"
  [ "$2" -eq 0 ] || exit 1
  exit 0
}

# Without input the others end by themselves.
stop_run() {
  trap '' INT TERM HUP
  kill "$reader" 2>/dev/null
  wait
  [ -z "$calls" ] || rm -rf "$calls"
  exit "$1"
}

run() {
  local writer read written
  if [ -n "$echo" ] || [ ${#given[@]} -gt 0 ]; then
    calls=$(mktemp -d) && mkfifo "$calls/fifo" || fail "can't make a pipe for --echo in ${TMPDIR:-/tmp}"
    [ ${#given[@]} -eq 0 ] || given+=("$calls/whole")
  fi
  exec 3<&0 4>&1
  exec 6> >(exec 3<&-; answers)
  writer=$!
  script <&3 >&6 &
  reader=$!
  trap 'stop_run 130' INT
  trap 'stop_run 143' TERM
  trap 'stop_run 129' HUP
  exec 0<&- 1>&- 3<&- 4>&- 6>&-
  wait "$reader"
  read=$?
  wait "$writer"
  written=$?
  trap - INT TERM HUP
  conclude "$read" "$written"
}
