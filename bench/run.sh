#!/bin/sh
# Measures, and writes docs/FIGURES.md.
# Usage, from the repository's root, on a quiet machine, after `make`:
#   sh bench/run.sh [PROGRAM]
#   sh bench/run.sh --try      only builds, and makes each call and each list of calls once on each side: all must leave the same desk
# PROGRAM is the text program (target/bin/sheetdesk); without it its tables, and its column for lists, are left out.
# Needs rustc, and valgrind for the counts of instructions. About 3 minutes.
set -eu
program=${1:-target/bin/sheetdesk}
out=target/bench
page=docs/FIGURES.md
mkdir -p "$out"
rustc --edition 2021 -C opt-level=3 -o "$out/calls" bench/calls.rs \
    -L native=target/staticlib -l static=sheetdesk_c
rustc --edition 2021 -C opt-level=3 -o "$out/lists" bench/lists.rs \
    -L native=target/staticlib -l static=sheetdesk_c
rustc --edition 2021 -C opt-level=3 -o "$out/program" bench/program.rs
for name in sheetdesk generate; do
    rustc --edition 2021 -C opt-level=3 -o "$out/$name" "reference/$name.rs"
done

if [ "$program" = --try ]; then
    for desk in "2 2 2 1" "8 4 4 4" "32 16 8 8"; do
        "$out/calls" --count $desk >"$out/names.txt"
    done
    if [ -x target/bin/sheetdesk ]; then
        "$out/lists" --try target/bin/sheetdesk
    else
        "$out/lists" --try
    fi
    echo "bench: each call does the same on both sides, and so does each list of calls on all"
    exit 0
fi

# Instructions of one call on each side: a dump after each counted function, in order.
instructions() {
    rm -f "$out"/callgrind.*
    valgrind -q --tool=callgrind --callgrind-out-file="$out/callgrind" \
        --toggle-collect='counted_*' --dump-after=counted_library \
        --dump-after=counted_reference "$out/calls" --count "$@" >"$out/names.txt" 2>/dev/null
    number=0
    while read -r name; do
        mine=$(sed -n 's/^totals: //p' "$out/callgrind.$((2 * number + 1))")
        theirs=$(sed -n 's/^totals: //p' "$out/callgrind.$((2 * number + 2))")
        awk -v desk="$*" -v name="$name" -v a="$mine" -v b="$theirs" \
            'BEGIN { printf "| %s | %s | %d | %d | %.2f |\n", desk, name, a, b, a / b }'
        number=$((number + 1))
    done <"$out/names.txt"
}

{
    echo "# Figures"
    echo "Written by \`sh bench/run.sh\`, all of it; docs/PERFORMANCE.md says how the figures are made and what they mean."
    echo
    echo "Made on $(uname -m), $(nproc) processors,"
    echo "$(sed -n 's/^model name[^:]*: //p' /proc/cpuinfo | head -n 1), $(rustc --version)."
    echo
    echo "Calls of the library on full desks, how their cost grows from the desk 8 4 4 4, and audits of long records:"
    echo
    "$out/calls"
    echo
    echo "A call of a list of 10,000 everyday calls, on a desk that is fresh (just after new), everyday (after 500 such calls) or full (all shelves, and all"
    echo "cards but one). The single calls take numbers and give words; text, program and the reference's text read a line for each call and print one."
    echo "The text is handed over at once, to the program through a pipe, behind what leads to the desk; it has no room for desks over 16,384 words:"
    echo
    if [ -x "$program" ]; then
        "$out/lists" "$program"
    else
        "$out/lists"
    fi
    if command -v valgrind >/dev/null; then
        echo
        echo "Instructions of one call (callgrind):"
        echo
        echo "| Desk | Call | Library | Reference | Ratio |"
        echo "|---|---|---|---|---|"
        instructions 2 2 2 1
        instructions 8 4 4 4
        instructions 32 16 8 8
    fi
    if [ -x "$program" ]; then
        "$out/generate" 1 1000000 >"$out/million.txt"
        echo
        echo "The program, and how the cost of a line grows from the desk 8 2 2 2:"
        echo
        "$out/program" "$program" "$out/sheetdesk" "$out/million.txt"
    fi
} >"$out/figures.md"

# This state's row of a table over the requests: of fetch, prepare and step on each desk the median ratio, or with `one` the
# library's instructions.
state="version $(sed -n 's/^#define SHEETDESK_VERSION //p' embed/sheetdesk.h), layout $(
    sed -n 's/^#define SHEETDESK_LAYOUT //p' embed/sheetdesk.h)"
row() {
    awk -F ' *[|] *' -v state="$state" -v one="${1:-}" '
        { parts = split($6, part, " ") }
        NF == 7 && $3 ~ /^(fetch|prepare|step)$/ && (one ? parts == 1 : parts == 3) {
            told[$2] = told[$2] (told[$2] ? " " : "") (one ? $4 : part[2]) }
        END { print "| " state " | " told["2 2 2 1"] " | " told["8 4 4 4"] " | " told["32 16 8 8"] " |" }' "$out/figures.md"
}

# The tables over the requests, as the page has them, each with this state's row at its end.
over() {
    awk -v title="## From request to request: $1" -v row="| $state |" '
        /^## / { on = $0 == title; gap = on }
        on && $0 == "" { gap = 1 }
        on && $0 != "" && index($0, row) != 1 { printf "%s%s\n", gap ? "\n" : "", $0; gap = 0 }' "$page"
}
{
    over ratios
    row
    over instructions
    row one
} >"$out/over.md"

cat "$out/figures.md" "$out/over.md" >"$page"
echo "bench: $page has the figures"
