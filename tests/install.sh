#!/usr/bin/env bash
# `make install` in a copy of the checkout, with an rt that proves nothing (tests/fake/rt) and what is built here; then the
# installed command, and the examples by the lines that README.md shows, without a prover.
# Usage, after `make`: tests/install.sh
set -u
cd "$(dirname "$0")/.." || exit 2
REAL=$PWD
work=$(mktemp -d) || exit 2
trap 'rm -rf "$work"' EXIT
export REAL FAKE="$work/fake"
prefix=$work/prefix

bad() {
  echo "install: $1"
  [ ! -s "$work/log" ] || tail -n 5 "$work/log"
  exit 1
}

mkdir -p "$FAKE" "$work/a copy" "$work/use" || exit 2
cp -R Makefile README.md sheetdesk tools embed docs reference "$work/a copy/" || exit 2
tar cf - --exclude='crates/*/out' crates crates.txt | tar xf - -C "$work/a copy" || exit 2
make=(make -s -C "$work/a copy")
command -v make >/dev/null || make=(bash "$work/a copy/tools/install.sh")

# As make does it, where there is no make.
made() {
  if [ "${make[0]}" = make ]; then "${make[@]}" "$1" PREFIX="$prefix"; else "${make[@]}" build && "${make[@]}" "$1" "$prefix"; fi
}

PATH=$REAL/tests/fake:$PATH made install >"$work/log" 2>&1 || bad "make install failed"
: >"$FAKE/calls"
PATH=$REAL/tests/fake:$PATH made install >"$work/log" 2>&1 || bad "make install failed the second time"
[ ! -s "$FAKE/calls" ] || bad "make install proves again what hasn't changed"
rm -rf "$work/a copy"

# Nothing is left of the checkout, and there is no rt.
without() {
  local folder path=
  for folder in $(echo "$PATH" | tr ':' ' '); do [ -x "$folder/rt" ] || path=$path:$folder; done
  echo "${path#:}"
}
PATH=$prefix/bin:$(without)
sheetdesk --strict scripts/case-a.txt >"$work/out" 2>"$work/log"
[ $? -eq 1 ] && cmp -s "$work/out" scripts/case-a.out || bad "the installed command doesn't answer case A"
defined() {
  sed -n "s/^#define SHEETDESK_$1 //p" embed/sheetdesk.h
}
due="sheetdesk $(defined VERSION), layout $(defined LAYOUT), toolchain fake-kit"
[ "$(sheetdesk --version)" = "$due" ] || bad "the installed command's version: $(sheetdesk --version)"
sheetdesk --man | grep -q "^REFUSALS" || bad "the installed command has no page"
sheetdesk --page scripts/case-a.txt 2>"$work/log" | grep -q "<title>Sheet desk: case-a.txt" || bad "the installed command makes no page of a script"

# A desk is saved, checked and gone on with, by the command, in C and by the store; and the service shows its page.
sheetdesk --desk "$work/tower.desk" scripts/case-a.txt 2>"$work/log" | cmp -s - scripts/case-a.out || bad "the installed command has no --desk"
[ "$(sheetdesk --check "$work/tower.desk" | tail -n 1)" = admitted ] || bad "the installed command doesn't check a desk"
gcc -I "$prefix/include" -o "$work/desk_c" -x c - -L "$prefix/lib" -l:libsheetdesk_c.a >"$work/log" 2>&1 <<'END' || bad "sheetdesk_file.h as installed"
#include <sheetdesk_file.h>
int main(int count, char **words) {
    static uint32_t desk[SHEETDESK_MOST_WORDS];
    char message[SHEETDESK_MESSAGE_BYTES];
    return count != 2 || sheetdesk_load(words[1], desk, SHEETDESK_MOST_WORDS, message) || sheetdesk_save(words[1], desk, SHEETDESK_MOST_WORDS, message);
}
END
"$work/desk_c" "$work/tower.desk" || bad "sheetdesk_file.h as installed doesn't load and save a desk"
PYTHONDONTWRITEBYTECODE=1 PYTHONPATH=$prefix/share/sheetdesk python3 - "$work/tower.desk" "$work/desks.db" >"$work/log" 2>&1 <<'END' || bad "the store as installed"
import sys, service, sheetdesk_file, sheetdesk_store
store = sheetdesk_store.Store(sys.argv[2])
store.call("tower", open("scripts/case-a.txt").read().split("\n")[:-1])
assert store.content("tower") == open(sys.argv[1], "rb").read()
assert sheetdesk_file.load(sys.argv[1]).admit().outcome == "ok"
assert b"<title>Sheet desk" in service.page(store.log("tower"))[1]
END

# link WORD EXAMPLE: README's line that starts with the word, on the example, which must answer case A.
link() {
  local line
  line=$(sed -n "s/^    \($1 .*\)/\1/p" README.md | head -n 1)
  [ -n "$line" ] || bad "README.md shows no line for $1"
  (cd "$work/use" && PREFIX=$prefix PKG_CONFIG_PATH=$prefix/lib/pkgconfig bash -c "$line") >"$work/log" 2>&1 || bad "$line"
  (cd "$work/use" && LD_LIBRARY_PATH=$prefix/lib ./desk) >"$work/log" 2>&1 || bad "what '$line' made doesn't answer case A"
  rm -f "$work/use/desk"
}

cp "$prefix/share/sheetdesk/example.c" "$work/use/desk.c" && cp "$prefix/share/sheetdesk/example.rs" "$work/use/desk.rs" &&
  cp "$prefix/share/sheetdesk/sheetdesk.rs" "$work/use/" || exit 2
cat >"$work/use/desk.cpp" <<'END'
#include <sheetdesk.h>
#include <sheetdesk_record.h>
#include <vector>
int main() {
    std::vector<uint32_t> desk(SHEETDESK_WORDS(2, 2, 2, 1)), answer(SHEETDESK_ANSWER_WORDS);
    auto count = sheetdesk_new(desk.data(), desk.size(), 2, 2, 2, 1, answer.data(), answer.size());
    return count == 2 && answer[0] == SHEETDESK_OK && answer[1] == desk.size() ? 0 : 1;
}
END
tried="rustc"
link rustc
if command -v pkg-config >/dev/null; then
  sed "s|^prefix=.*|prefix=/a folder|" "$prefix/lib/pkgconfig/sheetdesk.pc" >"$work/use/spaced.pc"
  [ "$(PKG_CONFIG_PATH=$work/use pkg-config --cflags spaced | sed "s/ *$//")" = '-I/a\ folder/include' ] || bad "pkg-config: a space isn't escaped"
  link gcc && tried="$tried, gcc"
  ! command -v g++ >/dev/null || { link g++ && tried="$tried, g++"; }
fi
for example in example example_record; do
  PYTHONDONTWRITEBYTECODE=1 python3 "$prefix/share/sheetdesk/$example.py" >"$work/log" 2>&1 || bad "$example.py as installed"
done
[ -e "$prefix/share/sheetdesk/example_record.c" ] || bad "example_record.c isn't installed"
echo "install: program, libraries, header and pkg-config file in their places; linked by README's lines: $tried; python3"
