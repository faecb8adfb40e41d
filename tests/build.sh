#!/usr/bin/env bash
# When and how the command builds its programs: on copies of it with a small tree of sources, spaces in its path, and an rt
# that proves nothing (tests/fake/rt). Usage: tests/build.sh [TRIAL..], all trials without one. Wants a built program.
set -u
cd "$(dirname "$0")/.." || exit 2
REAL=$PWD
work=$(mktemp -d) || exit 2
trap 'chmod -R u+w "$work"; rm -rf "$work"' EXIT
chmod 711 "$work"
export REAL FAKE="$work/fake"
real_path=$PATH
PATH=$REAL/tests/fake:$PATH

bad() {
  echo "build: $1"
  [ ! -s "$work/err" ] || sed 's/^/  /' "$work/err"
  exit 1
}

# A fresh copy, and its program built; the working folder is the copy.
begin() {
  cd "$work" && rm -rf "$FAKE" "a desk" && mkdir -p "$FAKE" "a desk/crates/"{one,sheetdesk,histories}/src || exit 2
  cd "a desk" && cp -R "$REAL/sheetdesk" "$REAL/tools" "$REAL/docs" "$REAL/embed" "$REAL/scripts" . || exit 2
  echo "fn one() {}" >crates/one/src/lib.rt
  echo "fn two() {}" >crates/one/src/two.rt
  echo "fn main() {}" >crates/sheetdesk/src/main.rt
  echo "fn main() {}" >crates/histories/src/main.rt
  printf 'one:\nsheetdesk: one\nhistories: one\n' >crates.txt
  answers ./sheetdesk
  : >"$FAKE/calls"
}

# answers COMMAND..: it must answer case A.
answers() {
  "$@" scripts/case-a.txt >"$work/out" 2>"$work/err" || bad "$*: exit status $?"
  cmp -s "$work/out" scripts/case-a.out || bad "$*: not case A's answers"
}

# built TIMES WHAT: how often rt was called since the copy was made, or since the last call of this.
built() {
  local times
  times=$(grep -c . "$FAKE/calls")
  [ "$times" -eq "$1" ] || bad "$2: built $times times, due $1"
  [ "$1" -ne 0 ] || [ ! -s "$work/err" ] || bad "$2: nothing to build, and yet a word"
  : >"$FAKE/calls"
}

trial_content() {
  begin
  answers ./sheetdesk && built 0 "as it was"
  touch crates/one/src/lib.rt && answers ./sheetdesk && built 0 "a source that was touched"
  touch -d 2100-01-01 crates/one/src/lib.rt && answers ./sheetdesk && built 0 "a source from the future"
  cp -Rp crates away && rm -rf crates && cp -R away crates && answers ./sheetdesk && built 0 "sources away and back"
  echo "// more" >>crates/one/src/lib.rt && touch -d 2000-01-01 crates/one/src/lib.rt
  answers ./sheetdesk && built 1 "an older source that differs"
  rm crates/one/src/two.rt && answers ./sheetdesk && built 1 "a source that is gone"
  rm target/bin/sheetdesk && answers ./sheetdesk && built 1 "a program that is gone"
  answers ./sheetdesk && built 0 "all built"
}

# The second program: built when it is asked for, and for itself.
trial_histories() {
  begin
  lists && built 1 "the listing, the first time"
  lists && built 0 "the listing again"
  answers ./sheetdesk && built 0 "the program, after the listing"
  echo "// more" >>crates/one/src/lib.rt
  lists && built 1 "the listing, with a source that differs"
  answers ./sheetdesk && built 1 "the program, with a source that differs"
  rm target/bin/histories && lists && built 1 "a listing that is gone"
}

# The command must list every small history.
lists() {
  ./sheetdesk --histories >"$work/out" 2>"$work/err" || bad "--histories: exit status $?"
  cmp -s "$work/out" "$REAL/crates/histories/stdout" || bad "--histories: not the listing"
}

# The best of some starts in the checkout itself, with all its sources: another program may slow any of them.
trial_quick() {
  cd "$REAL" || exit 2
  PATH=$real_path ./sheetdesk scripts/case-a.txt >"$work/out" 2>/dev/null || bad "the checkout's own program"
  local best=1000 from to
  for _ in {1..60}; do
    from=$EPOCHREALTIME
    ./sheetdesk scripts/case-a.txt >"$work/out" 2>"$work/err"
    to=$EPOCHREALTIME
    [ ! -s "$work/err" ] || bad "nothing to build, and yet a word"
    to=$(((${to/./} - ${from/./}) / 1000))
    [ "$to" -ge "$best" ] || best=$to
    [ "$best" -ge 100 ] || return 0
  done
  bad "a start with nothing to build takes $best ms, due under 100"
}

trial_two_at_once() {
  begin
  echo "// more" >>crates/one/src/lib.rt
  : >"$FAKE/slow"
  rm -f target/sheetdesk.log
  ./sheetdesk scripts/case-a.txt >"$work/out.1" 2>"$work/err.1" &
  local first=$!
  for _ in {1..100}; do grep -q "one proved, " target/sheetdesk.log 2>/dev/null && break || sleep 0.05; done
  answers ./sheetdesk
  grep -q "under way, crates proved: 1, the last: one; waiting for it" "$work/err" || bad "the second start doesn't say for what it waits"
  wait "$first" || { cp "$work/err.1" "$work/err"; bad "the first of two starts failed"; }
  cmp -s "$work/out.1" scripts/case-a.out || bad "the first of two starts: not case A's answers"
  built 1 "two starts at once"
}

trial_anywhere() {
  begin
  mkdir "$work/path" "$work/elsewhere" "$work/elsewhere/scripts" && ln -s "$PWD/sheetdesk" "$work/path/desk" || exit 2
  ln -s path/desk "$work/desk" && cp scripts/case-a.* "$work/elsewhere/scripts/" || exit 2
  cd "$work/elsewhere" || exit 2
  PATH=$work/path:$PATH answers desk
  answers ../desk
  [ ! -e target ] && [ ! -e ../path/target ] || bad "a link left a target/ beside it"
  cd "$work" && cp -R "a desk/scripts" . || exit 2
  export CDPATH=/usr:$work
  answers "a desk/sheetdesk"
}

# As nobody where this runs as root, who may write anywhere.
trial_read_only() {
  begin
  local as=()
  [ "$(id -u)" -ne 0 ] || as=(setpriv --reuid=65534 --regid=65534 --clear-groups)
  chmod -R a+rX,a-w . && chmod a+rwx "$work/out" "$work/err" || exit 2
  answers "${as[@]}" ./sheetdesk
  [ ! -s "$work/err" ] || bad "a read-only checkout with a built program: a word"
  chmod -R u+w . && rm -f target/sheetdesk.built && chmod -R a-w . || exit 2
  answers "${as[@]}" ./sheetdesk
  grep -q "used as it is" "$work/err" || bad "a read-only checkout with a program that rt built: no word"
  chmod -R u+w . && answers ./sheetdesk && echo "// more" >>crates/one/src/lib.rt && chmod -R a-w . || exit 2
  "${as[@]}" ./sheetdesk scripts/case-a.txt >"$work/out" 2>"$work/err"
  [ $? -eq 2 ] && grep -q "can't be written" "$work/err" || bad "a read-only checkout with other sources: not exit status 2"
  chmod -R u+w .
}

trial_failed() {
  begin
  echo "// more" >>crates/one/src/lib.rt
  : >"$FAKE/broken"
  ./sheetdesk scripts/case-a.txt >"$work/out" 2>"$work/err"
  [ $? -eq 2 ] || bad "a failed build: not exit status 2"
  grep -q "crate one;" "$work/err" || bad "a failed build doesn't name the crate"
  rm "$FAKE/broken" && : >"$FAKE/silent"
  ./sheetdesk scripts/case-a.txt >"$work/out" 2>"$work/err"
  grep -q "the build failed: rt left no word, and [0-9]* kB are free" "$work/err" || bad "a build without a word doesn't say what there is"
  rm "$FAKE/silent" && answers ./sheetdesk
}

# Ctrl-C goes to the whole group, and rt's own crates run where it is ignored.
trial_interrupted() {
  begin
  echo "// more" >>crates/one/src/lib.rt
  : >"$FAKE/hang"
  set -m
  env --default-signal=INT ./sheetdesk scripts/case-a.txt >"$work/out" 2>"$work/err" &
  local command=$!
  set +m
  for _ in {1..50}; do [ -s "$FAKE/pid" ] && break || sleep 0.1; done
  kill -INT -- "-$command"
  wait "$command"
  local status=$?
  sleep 0.2
  case $(ps -o stat= -p "$(cat "$FAKE/pid")") in
    "" | Z*) ;;
    *) kill "$(cat "$FAKE/pid")" && bad "Ctrl-C in a build left a process behind" ;;
  esac
  [ "$status" -eq 130 ] || bad "Ctrl-C in a build: exit status $status, due 130"
  rm -rf "$FAKE/hang" "$FAKE/busy" && answers ./sheetdesk
}

trials=("$@")
[ $# -gt 0 ] || trials=(content histories quick two_at_once anywhere read_only failed interrupted)
for trial in "${trials[@]}"; do
  (trial_"$trial") || exit 1
done
echo "build: by content alone, one at a time, from anywhere; failures and Ctrl-C as the user page says"
