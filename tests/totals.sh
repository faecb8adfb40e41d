#!/bin/sh
# Writes the totals that `new` answers in the golden scripts, and in the program's own test, anew by the reference: for a
# request that changes the layout. A line that would change in any other way is told, and then nothing is written: such an
# answer is worked out by hand. Usage, from the repository's root: sh tests/totals.sh. Not part of ./test.
set -eu
work=$(mktemp -d)
trap 'rm -rf "$work"' EXIT
rustc --edition 2021 -O -o "$work/reference" reference/sheetdesk.rs

# One pair: its answers anew in a file of the same name; tells each other line that differs.
anew() {
    "$work/reference" <"$1" >"$work/anew"
    LC_ALL=C awk -v name="$1" '
        FILENAME == ARGV[1] { call[FNR] = $0; next }
        FILENAME == ARGV[2] { old[FNR] = $0; next }
        { total = call[FNR] ~ /^new / && old[FNR] ~ /^ok / && $0 ~ /^ok / }
        old[FNR] != $0 && !total { print name ":" FNR ": " call[FNR] " -> " $0 ", the file has " old[FNR]; other = 1 }
        END { exit other }' "$1" "$2" "$work/anew"
}

pairs() {
    for script in scripts/*.txt; do
        echo "$script ${script%.txt}.out"
    done
    echo "crates/sheetdesk/stdin crates/sheetdesk/stdout"
}

pairs | while read -r script answers; do
    anew "$script" "$answers" || echo "$script" >>"$work/other"
done
if [ -s "$work/other" ]; then
    echo "totals: other answers than totals would change: nothing is written"
    exit 1
fi
pairs | while read -r script answers; do
    "$work/reference" <"$script" >"$work/anew"
    cmp -s "$work/anew" "$answers" || { cat "$work/anew" >"$answers"; echo "totals: $answers"; }
done
