#!/bin/sh
# The program against the golden scripts and against the reference's own on generated scripts.
# Usage, from the repository's root: sh tests/program.sh PROGRAM [SCRIPTS [FIRST_SEED]]
# Builds the reference into target/reference/, and runs its selftest and its witness too.
# Exits 1 at the first difference and leaves the script and both outputs in target/program/.
set -eu
program=${1:?usage: program.sh PROGRAM [SCRIPTS [FIRST_SEED]]}
scripts=${2:-300}
first=${3:-1}
built=target/reference
work=target/program
mkdir -p "$built" "$work"
for name in sheetdesk witness generate; do
    rustc --edition 2021 -C opt-level=3 -o "$built/$name" "reference/$name.rs"
done
rustc --edition 2021 -C opt-level=3 -C debug-assertions=on -C overflow-checks=on \
    -o "$built/selftest" reference/selftest.rs
rustc --edition 2021 -C opt-level=3 -o "$built/feed" tests/feed.rs

# compare WHAT SCRIPT DUE [BYTES]: what the program prints for the script, fed in parts of so
# many bytes, must be the file DUE.
compare() {
    status=0
    if [ -n "${4:-}" ]; then
        "$built/feed" "$4" <"$2" | "$program" >"$work/given.txt" || status=$?
    else
        "$program" <"$2" >"$work/given.txt" || status=$?
    fi
    if [ "$status" -ne 0 ] || ! cmp -s "$work/given.txt" "$3"; then
        [ "$2" = "$work/script.txt" ] || cp "$2" "$work/script.txt"
        [ "$3" = "$work/due.txt" ] || cp "$3" "$work/due.txt"
        echo "program: $1: status $status; given (<) and due (>), first lines that differ:"
        diff -a "$work/given.txt" "$work/due.txt" | cut -c 1-200 | head -n 6
        echo "program: the script is $work/script.txt, the answers given.txt and due.txt"
        exit 1
    fi
}

# The witness holds desk and book against each other.
witness() {
    "$built/witness" <"$1" >"$work/witness.txt" || { cat "$work/witness.txt"; exit 1; }
}

"$built/selftest"
golden=0
for script in scripts/*.txt; do
    due=${script%.txt}.out
    compare "$script" "$script" "$due"
    "$built/sheetdesk" <"$script" | cmp - "$due"
    for bytes in 1 7 1000; do
        compare "$script in parts of $bytes" "$script" "$due" "$bytes"
    done
    witness "$script"
    golden=$((golden + 1))
done
echo "program: $golden golden scripts answered as written, whole and in parts"

: >"$work/counts.txt"
seed=$first
last=$((first + scripts - 1))
while [ "$seed" -le "$last" ]; do
    "$built/generate" "$seed" 300 --count >"$work/script.txt" 2>>"$work/counts.txt"
    "$built/sheetdesk" <"$work/script.txt" >"$work/due.txt"
    compare "seed $seed" "$work/script.txt" "$work/due.txt"
    # A few scripts in parts, and before the witness, which is slow.
    case $((seed % 10)) in
    1) compare "seed $seed in parts of 1" "$work/script.txt" "$work/due.txt" 1 ;;
    2) compare "seed $seed in parts of 7" "$work/script.txt" "$work/due.txt" 7 ;;
    3) compare "seed $seed in parts of 1000" "$work/script.txt" "$work/due.txt" 1000 ;;
    4) witness "$work/script.txt" ;;
    esac
    seed=$((seed + 1))
done

# What the scripts met, summed, against the least that a script must meet on average (in
# hundredths).
awk '
BEGIN {
    n = split("unread 100 rivals 1000 fetches-of-more 300 evicts-of-more 50 prepares 300 " \
        "prepares-unlike 40 steps 2000 breaks 200 issues 2000 looks-older 500 " \
        "looks-several 500 stales 500 stales-marked 200 admits 200 allows 100 picks 100 nothing 20 " \
        "hidden-breaks 5 breaks-marked 15 clear 500 " \
        "paths 100 paths-of-3 30 paths-tied 15 paths-carried 10 refused-1 10 refused-2 10 " \
        "refused-3 20 refused-4 100 refused-5 10 refused-6 50 refused-7 10 refused-8 50 " \
        "refused-12 50 refused-13 100 mayholds 150 mayholds-evicting 50 mayholds-evicting-more 40 " \
        "maysaves 30 rights-before-7 10 rights-before-12 3 rights-before-a-break 8 " \
        "forks 150 forks-read 30 joins 60 joins-apart 10 joins-broken 10 steps-on-1 60 breaks-on-1 20 " \
        "breaks-on-one-alone 2 paths-on-1 20 refused-14 150 audits-accepted 130 audits-of-reads 100 " \
        "audits-followed 12 audits-named 35 audits-named-later 20 refused-15 70", word, " ")
    for (i = 1; i < n; i += 2) least[word[i]] = word[i + 1]
}
{ for (i = 1; i < NF; i += 2) { if (!($i in sum)) order[++k] = $i; sum[$i] += $(i + 1) } }
END {
    line = "program: " NR " generated scripts answered as by the reference:"
    for (i = 1; i <= k; i++) line = line " " order[i] " " sum[order[i]]
    print line
    for (name in least) if (sum[name] * 100 < least[name] * NR) {
        print "program: too few: " name " " sum[name] + 0 " in " NR " scripts"; bad = 1
    }
    exit bad
}' "$work/counts.txt"
