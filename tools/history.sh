# Sourced by sheetdesk and tools/install.sh: has the script on standard input again (tools/history.rs), and builds what
# does it. Wants $top and a function `fail`; `have_again` also wants $mode, $file and $line.
history_tool=$top/target/tools/history

# What target/tools/history.built must say of a tool that is built from these files and this library.
history_state() {
  (cd "$top" && find tools/history.rs tools/history reference embed/sheetdesk*.rs embed/library.rs embed/sheetdesk_reason.h \
    target/staticlib/libsheetdesk_c.a -type f -print0 2>/dev/null | LC_ALL=C sort -z | xargs -0 sha256sum | sha256sum)
}

history_is_built() {
  [ -x "$history_tool" ] && [ "$(cat "$history_tool.built" 2>/dev/null)" = "$(history_state)" ]
}

history_is_current() {
  history_is_built && library_is_current
}

# compile_history [OPTION..]: compiles the tool over the library that is there.
compile_history() {
  mkdir -p "$top/target/tools" &&
    rustc --edition 2021 -O "$@" -o "$history_tool.new" "$top/tools/history.rs" \
      -L "native=$top/target/staticlib" -l static=sheetdesk_c &&
    mv "$history_tool.new" "$history_tool" && history_state >"$history_tool.built"
}

build_history() {
  command -v rustc >/dev/null || fail "rustc is not on the PATH: it builds what --replay, --page, --desk and the like run"
  mkdir -p "$top/target" 2>/dev/null
  lock || fail "$top/target can't be written, and what --$mode runs has to be built"
  if ! history_is_current; then
    echo "sheetdesk: building what --replay, --page and the like run" >&2
    build_library
    compile_history || fail "the build of tools/history.rs failed"
  fi
  exec 9>&-
}

# Builds the tool in a checkout whose sources have changed.
current_history() {
  if [ -d "$top/crates" ]; then
    . "$top/tools/build.sh" || exit 2
    history_is_current || build_history
  fi
  [ -x "$history_tool" ] || fail "--$mode isn't installed: there was no rustc when sheetdesk was"
}

have_again() {
  local name=$file
  [ "$file" != - ] || name="standard input"
  current_history
  exec "$history_tool" "$mode" "${name##*/}" ${line:+"$line"}
}
