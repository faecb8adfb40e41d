#!/usr/bin/env bash
# Desks in files: the format, saves that are killed or fail at any point, a full disk, many at once; and the command on them.
# Usage, after `make`: tests/saved.sh [TRIAL..], all trials without one; of a trial some parts:
# PARTS="damaged causes" tests/saved.sh format
set -u
cd "$(dirname "$0")/.." || exit 2
. tests/trials.sh || exit 2

build() {
  local sane="-fsanitize=address,undefined"
  build_tool
  CC=gcc sh tools/shared.sh || bad "tools/shared.sh"
  echo 'int main(void) { return 0; }' | gcc $sane -x c -o "$work/sane" - 2>/dev/null || sane=
  gcc -std=gnu99 -O1 -g -Wall -Wextra -Werror -pedantic $sane -o target/tools/desk_c tests/saved/desk.c -L target/staticlib \
    -lsheetdesk_c || bad "tests/saved/desk.c"
  rustc --edition 2021 -O -D warnings -o target/tools/desk_rs tests/saved/desk.rs -L native=target/staticlib \
    -l static=sheetdesk_c || bad "tests/saved/desk.rs"
  gcc -std=gnu99 -O2 -Wall -Wextra -Werror -shared -fPIC -o target/tools/shim.so tests/saved/shim.c -ldl || bad "tests/saved/shim.c"
  gcc -D_XOPEN_SOURCE=700 -std=c99 -Wall -Wextra -Werror -pedantic -fsyntax-only -x c embed/sheetdesk_file.h || bad "sheetdesk_file.h in C99"
  ! command -v g++ >/dev/null || g++ -Wall -Wextra -Werror -fsyntax-only -x c++ embed/sheetdesk_file.h || bad "sheetdesk_file.h in C++"
}

trial_format() {
  WORK=$work python3 tests/saved/format.py ${PARTS:-} || exit 1
}

trial_crash() {
  WORK=$work python3 tests/saved/crash.py ${PARTS:-} || exit 1
}

trial_command() {
  WORK=$work python3 tests/saved/command.py ${PARTS:-} || exit 1
}

trials=("$@")
[ $# -gt 0 ] || trials=(format crash command)
build
for trial in "${trials[@]}"; do
  (trial_"$trial") || exit 1
done
