#!/bin/sh
# Makes the shared library of the static one: sh tools/shared.sh, from the repository's root, where that is
# built (`make` does both). Its name has the version of the calls, as the header has it.
set -eu
version=$(sed -n 's/^#define SHEETDESK_VERSION //p' embed/sheetdesk.h)
mkdir -p target/shared
"${CC:-cc}" -shared -Wl,-soname,"libsheetdesk_c.so.$version" -o "target/shared/libsheetdesk_c.so.$version" \
    -Wl,--whole-archive target/staticlib/libsheetdesk_c.a -Wl,--no-whole-archive
