#!/usr/bin/env bash
# Puts program, libraries, header and wrappers in their places, so that whoever embeds them needs no prover.
# Usage: bash tools/install.sh build, then bash tools/install.sh install|uninstall [PREFIX [DESTDIR]]
# PREFIX is /usr/local; DESTDIR, if given, stands in front of all places, for making packages. `make install` does both.
#
#   PREFIX/bin/sheetdesk                    the command: a link to the one below
#   PREFIX/lib/sheetdesk/                   the command with its program, its page and its tools
#   PREFIX/lib/libsheetdesk_c.a, .so        the libraries; the shared one has the version of the calls in its name
#   PREFIX/lib/pkgconfig/sheetdesk.pc       for pkg-config
#   PREFIX/include/sheetdesk.h              the header for C and C++; sheetdesk_record.h, to record calls; sheetdesk_reason.h, refusals in words;
#                                           sheetdesk_file.h, desks in files, with those that it includes
#   PREFIX/share/sheetdesk/                 the wrappers for Rust and Python, with those for files, the store, the examples, their pages
set -u
unset CDPATH
cd "$(dirname -- "${BASH_SOURCE[0]}")/.." || exit 2
top=$PWD
name=sheetdesk
program=$top/target/bin/$name
library=$top/target/staticlib/libsheetdesk_c.a

fail() {
  echo "install: $1" >&2
  exit 2
}

# A number that the C header defines.
defined() {
  sed -n "s/^#define SHEETDESK_$1 //p" embed/sheetdesk.h
}

build() {
  . tools/build.sh && . tools/history.sh || exit 2
  is_current || build_program
  lock || fail "target/ can't be written"
  build_library
  sh tools/shared.sh || fail "the shared library can't be made"
  if ! command -v rustc >/dev/null; then
    echo "install: there is no rustc: the command goes without --replay, --page, --desk and the like" >&2
    rm -f "$history_tool"
  elif ! history_is_current; then
    compile_history || fail "the build of tools/history.rs failed"
  fi
  exec 9>&-
}

# What pkg-config tells.
description() {
  cat <<END
prefix=$prefix
libdir=\${prefix}/lib
includedir=\${prefix}/include
layout=$(defined LAYOUT)

Name: sheetdesk
Description: the sheet desk, its calls over one lent buffer of words
Version: $version
Cflags: -I"\${includedir}"
Libs: -L"\${libdir}" -lsheetdesk_c
END
}

place() {
  local at=$dest$prefix
  [ -x "$program" ] && [ -e "$library" ] && [ -e "target/shared/$shared" ] || fail "something isn't built yet: run make first"
  mkdir -p "$at/bin" "$at/lib/pkgconfig" "$at/include" "$at/share/sheetdesk" || exit 2
  mkdir -p "$at/lib/sheetdesk/"{target/bin,target/tools,tools,docs,embed} || exit 2
  install -m 755 sheetdesk "$at/lib/sheetdesk/" && install -m 755 "$program" "$at/lib/sheetdesk/target/bin/" &&
    install -m 644 tools/run.sh tools/words.sh tools/words.awk tools/history.sh tools/saved.sh "$at/lib/sheetdesk/tools/" &&
    install -m 644 docs/USER.md docs/page.png "$at/lib/sheetdesk/docs/" &&
    install -m 644 "${headers[@]/#/embed/}" "$at/include/" &&
    install -m 644 "$library" "$at/lib/" && install -m 755 "target/shared/$shared" "$at/lib/" &&
    install -m 644 embed/README.md docs/FORMAT.md embed/sheetdesk*.{rs,py} embed/example.{c,rs,py} embed/example_record.{c,py} embed/service.py "$at/share/sheetdesk/" || exit 2
  [ ! -x target/tools/history ] || install -m 755 target/tools/history "$at/lib/sheetdesk/target/tools/" || exit 2
  [ ! -r target/sheetdesk.built ] || install -m 644 target/sheetdesk.built "$at/lib/sheetdesk/target/" || exit 2
  ln -sfn ../lib/sheetdesk/sheetdesk "$at/bin/sheetdesk" && ln -sfn "$shared" "$at/lib/libsheetdesk_c.so" &&
    ln -sfn ../../../include/sheetdesk.h "$at/lib/sheetdesk/embed/sheetdesk.h" &&
    ln -sfn ../../../include/sheetdesk_reason.h "$at/lib/sheetdesk/embed/sheetdesk_reason.h" || exit 2
  description >"$at/lib/pkgconfig/sheetdesk.pc" || exit 2
  echo "install: in $at: bin/sheetdesk, lib/libsheetdesk_c.a and .so, include/sheetdesk.h, share/sheetdesk/"
}

remove() {
  local at=$dest$prefix
  rm -rf "$at/lib/sheetdesk" "$at/share/sheetdesk" "$at/bin/sheetdesk" "$at/lib/libsheetdesk_c.a" "$at/lib/libsheetdesk_c.so" \
    "$at/lib/$shared" "$at/lib/pkgconfig/sheetdesk.pc" "${headers[@]/#/$at/include/}"
}

headers=(sheetdesk.h sheetdesk_record.h sheetdesk_reason.h sheetdesk_file.h sheetdesk_format.h sheetdesk_why.h sheetdesk_places.h)
prefix=${2:-/usr/local}
dest=${3:-}
version=$(defined VERSION)
shared=libsheetdesk_c.so.$version
case $prefix in
  /*) ;;
  *) fail "PREFIX must be a whole path: $prefix" ;;
esac
case ${1:-} in
  build) build ;;
  install) place ;;
  uninstall) remove ;;
  *) fail "build, install or uninstall?" ;;
esac
