# Sourced by tools/run.sh: an answer with its line's number, its call, and in words what isn't ok (tools/words.awk). Wants $top
# and $file, the script.

# words_awk OPTIONS..: an awk that reads and writes line by line, as someone types, unless the script is a file.
words_awk() {
  local options=()
  if [ ! -f "${file--}" ]; then
    options=(-v prompt=1)
    case $(awk -W version 2>&1 </dev/null) in mawk*) options+=(-W interactive) ;; esac
  fi
  LC_ALL=C awk ${options[@]+"${options[@]}"} "$@"
}

# behind_calls FILE [NUMBER]: each answer on standard input, behind its call from FILE; the first has the number, or 1. No awk
# needs to know of bytes that are zero.
behind_calls() {
  words_awk -v calls=<(exec stdbuf -oL tr '\000' '?' <"$1") -v before="$((${2:-1} - 1))" \
    -v reasons="$top/embed/sheetdesk_reason.h" -f "$top/tools/words.awk" 2>/dev/null
  local status=$?
  case $status in 0 | 141) return "$status" ;; *) return 1 ;; esac
}

# report NUMBER CALL ANSWER: one line of --echo.
report() {
  printf '%s\n' "$3" | behind_calls <(printf '%s\n' "$2") "$1"
}
