# Sourced by sheetdesk and tools/install.sh: proves and builds what isn't that of the sources. What decides is what the
# sources hold, not when they were written. Wants $top, the repository, $name, the program's crate, $program and a
# function `fail`. rt leaves what it builds in a crate's out/; what is used is a copy in target/.
built=$top/target/$name.built
made=$top/crates/$name/out/$name
library=$top/target/staticlib/libsheetdesk_c.a
archive=$top/crates/sheetdesk_c/out/libsheetdesk_c.a
log=$top/target/sheetdesk.log

# A sum over the names and the content of all sources; edits that must be refused are none.
sources() {
  (cd "$top" && find crates crates.txt \( -path 'crates/*/must-fail' -o -path 'crates/*/out' \) -prune -o -type f -print0 |
    LC_ALL=C sort -z | xargs -0 sha256sum | sha256sum)
}

# state SOURCES: what target/$name.built must say of a program that is built from them.
state() {
  printf 'sources %s\nprogram %s\n' "$1" "$(sha256sum <"$program")"
}

is_current() {
  [ -x "$program" ] && [ -r "$built" ] && [ "$(sed 2q "$built")" = "$(state "$(sources)")" ]
}

# Copies what rt says to the log, and tells there and on standard error which crate is proved, of how
# many at most: of one that hasn't changed rt says nothing.
progress() {
  local line crate= number=0
  while IFS= read -r line; do
    printf '%s\n' "$line"
    case $line in
      "rt: chose --jobs "*" for "*) crate=${line##* } ;;
      "logic=proved "*)
        number=$((number + 1))
        line="sheetdesk: $crate proved, crate $number of $1 at most"
        printf '%s\n' "$line"
        printf '%s\n' "$line" >&2
        ;;
    esac
  done >"$log"
}

# crates NAME: how many crates it is made of.
crates() {
  local name number=1
  for name in $(sed -n -E "s/^$1( staticlib)?://p" "$top/crates.txt"); do
    [ ! -d "$top/crates/$name" ] || number=$((number + 1))
  done
  echo "$number"
}

# Ends rt and all that it started: setsid made them a group of their own.
stop() {
  trap '' INT TERM HUP
  kill -TERM -- "-$building" 2>/dev/null
  wait
  rm -f "$top/target/sheetdesk.pipe"
  echo "sheetdesk: the build was stopped" >&2
  exit "$1"
}

# prove CRATE WORD: runs rt with this word in the crate's folder; its status. A signal ends all of it.
# `rt run` also runs the program, on no input, and says its own on standard error.
prove() {
  local status teller pipe=$top/target/sheetdesk.pipe
  rm -f "$pipe" && mkfifo "$pipe" || return 1
  progress "$(crates "$1")" <"$pipe" &
  teller=$!
  (cd "$top/crates/$1" && { [ "$2" = run ] || exec >&2; } && exec setsid rt "$2") </dev/null 2>"$pipe" >/dev/null &
  building=$!
  trap 'stop 130' INT
  trap 'stop 143' TERM
  trap 'stop 129' HUP
  wait "$building"
  status=$?
  trap - INT TERM HUP
  # The log is whole when its writer has ended.
  wait "$teller"
  rm -f "$pipe"
  return "$status"
}

# The crate at which rt failed, the one that it had begun, as the log has it; else the log's last line;
# else what may have kept it from being written.
fault() {
  local crate last
  crate=$(sed -n -E 's/^rt: chose --jobs [0-9]+ for ([A-Za-z0-9_]+)$/\1/p' "$log" | tail -n 1)
  last=$(tail -n 1 "$log" 2>/dev/null)
  if [ -n "$crate" ]; then
    echo "crate $crate"
  elif [ -n "$last" ]; then
    echo "$last"
  else
    echo "rt left no word, and $(df -Pk "$top/target" | awk 'NR == 2 { print $4 }') kB are free for $top/target"
  fi
}

# Takes the lock of target/, and says so if it has to wait for another build; fd 9 holds it.
lock() {
  { : >>"$top/target/sheetdesk.lock"; } 2>/dev/null || return 1
  exec 9>>"$top/target/sheetdesk.lock"
  flock -n 9 && return
  echo "sheetdesk: another build is under way$(under_way); waiting for it" >&2
  until flock -w 30 9; do echo "sheetdesk: still waiting for the other build$(under_way)" >&2; done
}

# What another build is at, by the log.
under_way() {
  local proved
  proved=$(sed -n -E 's/^sheetdesk: ([A-Za-z0-9_]+) proved, .*/\1/p' "$log" 2>/dev/null)
  [ -z "$proved" ] || echo ", crates proved: $(wc -l <<<"$proved"), the last: $(tail -n 1 <<<"$proved")"
}

# A program in a folder that can't be written is used as it is, unless it is known to be that of other sources.
unwritten() {
  [ -x "$program" ] && [ ! -e "$built" ] || fail "$top/target can't be written, and the program has to be built"
  echo "sheetdesk: $top/target can't be written: the program is used as it is" >&2
}

build_program() {
  local now
  mkdir -p "$top/target" 2>/dev/null
  lock || { unwritten && return; }
  if ! is_current; then
    command -v rt >/dev/null || fail "the Rattle toolchain's command rt is not on the PATH: it builds the program"
    now=$(sources)
    rm -f "$built"
    echo "sheetdesk: proving and building, $(crates "$name") crates; the first time it takes many minutes" >&2
    prove "$name" run && take_program "$now" || fail "the build failed: $(fault); target/sheetdesk.log has all that rt said"
  fi
  exec 9>&-
}

# take_program [SOURCES]: takes the program that rt left, which is built from them; without them, from
# those of now.
take_program() {
  [ -x "$made" ] && mkdir -p "$top/target/bin" && cp "$made" "$program.new" && mv "$program.new" "$program" || return 1
  { state "${1:-$(sources)}" && echo "toolchain $(rt version)"; } >"$built.new" &&
    mv "$built.new" "$built" || fail "can't write $built"
}

library_is_current() {
  [ -e "$library" ] && [ "$(cat "$top/target/staticlib/sources" 2>/dev/null)" = "$(sources)" ]
}

# take_library [SOURCES]: the same of the library.
take_library() {
  [ -e "$archive" ] && mkdir -p "${library%/*}" && cp "$archive" "$library.new" && mv "$library.new" "$library" || return 1
  echo "${1:-$(sources)}" >"$top/target/staticlib/sources"
}

# The static library, of the sources as they are now.
build_library() {
  local now
  ! library_is_current || return 0
  command -v rt >/dev/null || fail "the Rattle toolchain's command rt is not on the PATH: it builds the library"
  now=$(sources)
  echo "sheetdesk: proving and building the library, $(crates sheetdesk_c) crates" >&2
  rm -f "$top/target/staticlib/sources"
  prove sheetdesk_c lib && take_library "$now" ||
    fail "the build failed: $(fault); target/sheetdesk.log has all that rt said"
}
