#!/bin/sh
# Case A through the library in C, Rust and Python, and a record in C and Python: builds the examples and runs them.
# Usage, from the repository's root, after `make`: sh embed/run.sh
set -eu
library=target/staticlib
out=target/embed
mkdir -p "$out"
gcc -std=c99 -O2 -Wall -Wextra -Werror -pedantic -o "$out/example_c" embed/example.c -L "$library" -lsheetdesk_c
gcc -std=c99 -O2 -Wall -Wextra -Werror -pedantic -o "$out/example_record" embed/example_record.c -L "$library" -lsheetdesk_c
# The header is for C++ too.
if command -v g++ >/dev/null; then
    g++ -Wall -Wextra -Werror -fsyntax-only -x c++ embed/sheetdesk.h
fi
rustc --edition 2021 -O -D warnings -o "$out/example_rs" embed/example.rs -L "native=$library" -l static=sheetdesk_c
CC=gcc sh tools/shared.sh
"$out/example_c"
"$out/example_record"
"$out/example_rs"
PYTHONDONTWRITEBYTECODE=1 python3 embed/example.py
PYTHONDONTWRITEBYTECODE=1 python3 embed/example_record.py
