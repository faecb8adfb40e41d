# What tests of the command and of the history share: sourced from the checkout's root. $work is a folder for what they write.
export PYTHONDONTWRITEBYTECODE=1
self=$(basename "$0" .sh)
top=$PWD
work=$(mktemp -d) || exit 2
trap 'rm -rf "$work"' EXIT
program=target/bin/sheetdesk
tool=target/tools/history

bad() {
  echo "$self: $1"
  [ ! -s "$work/err" ] || head -n 5 "$work/err"
  exit 1
}

fail() {
  bad "$1"
}

# want STATUS WHAT COMMAND..: the exit status of a command; its output is in $work/out and $work/err.
want() {
  local due=$1 what=$2
  shift 2
  "$@" >"$work/out" 2>"$work/err"
  local got=$?
  [ "$got" -eq "$due" ] || bad "$what: exit $got, due $due"
}

# said TEXT: standard error has it.
said() {
  grep -q -e "$1" "$work/err" || bad "standard error doesn't say '$1'"
}

# Builds the tool of the history.
build_tool() {
  . tools/history.sh || exit 2
  history_is_built || compile_history -D warnings || bad "tools/history.rs"
}

# Builds the generator of scripts. tests/program.sh has built it, unless a test runs alone.
build_generate() {
  [ -n "$(find reference -newer target/reference/generate 2>&1)" ] || return 0
  mkdir -p target/reference
  rustc --edition 2021 -C opt-level=3 -o target/reference/generate reference/generate.rs || bad "reference/generate.rs"
}

# have MODE FILE [LINE]: the tool on a file.
have() {
  "$tool" "$1" "${2##*/}" ${3:+"$3"} <"$2"
}

# A script with its answers behind its lines is a log.
log_of() {
  paste -d '\n' "$1" <("$program" <"$1")
}

# many_calls K W N P: 20,000 calls on one desk. Runs from 1 on read and save all sheets but the last, shelves fetch and evict
# them; run 0 reads sheet 0 at some time, and breaks at the end over the last sheet, which is saved then for the first time.
many_calls() {
  awk -v K="$1" -v W="$2" -v N="$3" -v P="$4" '
    function below(n) { seed = seed * 16807 % 2147483647; return int(seed / 64) % n }
    function say(line) { print line; lines++ }
    function bit(k) { return sprintf("%.0f", 2 ^ k) }
    BEGIN { seed = 7; last = bit(K - 1); say("new " K " " W " " N " " P)
      for (k = 0; k < K - 1; k++) { say("open 1 0 0 0"); say("step 1 0"); say("issue 1 " k % W " " bit(k)) }
      while (lines < 19992) {
        r = 1 + below(P - 1); o = below(N); k = below(K - 1); d = below(K - 1)
        if (lines == 15000) { say("open 0 0 1 0 1 " last " 0"); say("step 0 0") }
        else if (below(10) < 2) say((below(3) ? "fetch " : "evict ") o " " k)
        else if (below(20) == 0) say(state[r] == 2 ? "look 2 " r " " reads[r] : "look 1 " o " " k)
        else if (state[r] == 1) { say("step " r " 0"); state[r] = 2 }
        else if (state[r] == 2) { say("issue " r " " below(W) " " bit(k)); state[r] = 0 }
        else { say("open " r " " o " " (k == d ? bit(k) : sprintf("%.0f", 2 ^ k + 2 ^ d)) " 0"); state[r] = 1; reads[r] = k }
      }
      r = P - 1; print "drop " r "\nopen " r " 2 0 0\nstep " r " 0\nissue " r " 3 " sprintf("%.0f", 1 + last)
      print "fetch 1 0\nlook 0 0 0\nexplain 0 1\nstep 0 1" }'
}
