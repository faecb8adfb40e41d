#!/usr/bin/env bash
# What an embedder reads in header and wrappers: versions, sizes, whose memory it is, names, answers as text, and texts of calls.
# Usage, after `make`: tests/library.sh [TRIAL..], all trials without one.
set -u
cd "$(dirname "$0")/.." || exit 2
out=target/library
mkdir -p "$out" || exit 2

bad() {
  echo "library: $1"
  exit 1
}

# The versions and sizes are the same in header, Rust, Python and text.
trial_versions() {
  local name due
  for name in VERSION LAYOUT ANSWER_WORDS LINE_ROOM MOST_WORDS; do
    due=$(sed -n "s/^#define SHEETDESK_$name //p" embed/sheetdesk.h)
    [ -n "$due" ] || bad "the header has no SHEETDESK_$name"
    [ "$(sed -n "s/^pub const $name: .* = \(.*\);/\1/p" embed/sheetdesk.rs | tr -d _)" = "$due" ] || bad "sheetdesk.rs: $name"
    [ "$(sed -n "s/^$name = //p" embed/sheetdesk.py)" = "$due" ] || bad "sheetdesk.py: $name"
  done
  [ "$(sed -n 's/^#define SHEETDESK_ANSWER_WORDS //p' embed/sheetdesk.h)" -eq 40 ] || bad "an answer's slice isn't 40 words"
  grep -qx "line_room = $(sed -n 's/^#define SHEETDESK_LINE_ROOM //p' embed/sheetdesk.h)" crates/print/specs/Print.antt ||
    bad "the room of a line isn't that of the definitions"
  for name in VERSION LAYOUT; do
    grep -q "SHEETDESK_$name.* rises" embed/README.md || bad "embed/README.md doesn't say when SHEETDESK_$name rises"
  done
}

# An answer's first words are the same in the program's definitions, header and Python; the wrapper's are in the golden scripts.
trial_words() {
  local due header python
  due=$(sed -n '/^answer_words =/,/\[\]/p' crates/print/specs/Print.antt | grep -o '"[a-z]*"' | tr -d '"' | paste -sd ' ')
  header=$(sed -n '/^enum sheetdesk_outcome/,/^}/s/^ *SHEETDESK_\([A-Z]*\) = \([0-9]*\),*$/\2 \1/p' embed/sheetdesk.h | sort -n |
    cut -d ' ' -f 2 | tr A-Z a-z | paste -sd ' ')
  python=$(sed -n 's/^_OUTCOMES = (\(.*\))/\1/p' embed/sheetdesk.py | tr -d '",')
  case $due in "ok broken refused"*) ;; *) bad "the definitions have no words" ;; esac
  [ "$header" = "$due" ] || bad "the header's first words: $header, due $due"
  [ "$python" = "$due" ] || bad "sheetdesk.py's first words: $python, due $due"
}

# The header says it all in one paragraph.
trial_memory() {
  local text
  text=$(sed -n '/^ \* Whose memory it is/,/^ \*$/p' embed/sheetdesk.h | sed 's/^ \* //' | paste -sd ' ')
  for words in "caller owns all buffers" "keeps no pointer" "nobody else may write the desk" "only answer" "hold no pointer" \
    "saved to a file" "byte order" "another layout gets a refusal"; do
    case $text in *"$words"*) ;; *) bad "the header's paragraph on memory lacks '$words'" ;; esac
  done
}

trial_header() {
  gcc -std=c99 -O2 -Wall -Wextra -Werror -pedantic -o "$out/header" tests/header.c -L target/staticlib -lsheetdesk_c ||
    bad "tests/header.c"
  "$out/header" || exit 1
}

# A text of calls in C.
trial_text() {
  gcc -std=c99 -O2 -Wall -Wextra -Werror -pedantic -o "$out/text" tests/text.c -L target/staticlib -lsheetdesk_c || bad "tests/text.c"
  "$out/text" || exit 1
}

trial_wrapper() {
  rustc --edition 2021 -O -D warnings -o "$out/wrapper" tests/wrapper.rs -L native=target/staticlib -l static=sheetdesk_c ||
    bad "tests/wrapper.rs"
  "$out/wrapper" || exit 1
}

# Python on a grid of sizes.
trial_python() {
  CC=gcc sh tools/shared.sh || bad "tools/shared.sh"
  PYTHONDONTWRITEBYTECODE=1 PYTHONPATH=embed python3 - <<'END' || bad "sheetdesk.py: a size isn't what new answers"
import itertools, sys
from sheetdesk import Desk, words
grid = itertools.product((0, 1, 2, 7, 33), (0, 1, 3, 17), (0, 1, 8, 9), (0, 1, 8, 9))
sys.exit(any(str(Desk(words(*c)).new(*c)) != ("ok %d" % words(*c) if words(*c) else "refused 2") for c in grid))
END
}

# By ./test alone, which has marked it: the command needn't prove the library again.
trial_marked() {
  top=$PWD name=sheetdesk program=$PWD/target/bin/sheetdesk
  . tools/build.sh || exit 2
  library_is_current || bad "the library isn't marked as built: the first --page would prove it again"
}

trials=("$@")
[ $# -gt 0 ] || trials=(versions words memory header text wrapper python)
for trial in "${trials[@]}"; do
  (trial_"$trial") || exit 1
done
echo "library: versions, first words, sizes of all counts, memory, refusals' names, printed answers and texts of calls as header and wrappers say"
