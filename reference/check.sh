#!/bin/sh
# Builds the reference into target/, runs the selftest, desks read back, all scripts and some generated
# ones, and lists the small histories.
# Run it from the repository's root: sh reference/check.sh [FIRST_SEED [LAST_SEED]]
set -eu
mkdir -p target
for name in sheetdesk witness generate readback histories; do
    rustc --edition 2021 -C opt-level=3 -o "target/$name" "reference/$name.rs"
done
rustc --edition 2021 -C opt-level=3 -C debug-assertions=on -C overflow-checks=on \
    -o target/selftest reference/selftest.rs
target/selftest
target/readback
target/histories >target/histories.txt
echo "$(wc -l <target/histories.txt) small histories listed"
good=0
for script in scripts/*.txt; do
    target/sheetdesk <"$script" | cmp - "${script%.txt}.out"
    target/witness <"$script" >target/witness.out || { cat target/witness.out; exit 1; }
    good=$((good + 1))
done
echo "$good scripts answered as written"
: >target/counts.txt
seed=${1:-1}
last=${2:-20}
while [ "$seed" -le "$last" ]; do
    target/generate "$seed" 300 --count >target/script.txt 2>>target/counts.txt
    target/witness <target/script.txt >target/witness.out || { cat target/witness.out; exit 1; }
    seed=$((seed + 1))
done
echo "generated scripts that the witness passed, and what they met:"
awk '{ for (i = 1; i < NF; i += 2) { if (!($i in sum)) { order[++n] = $i }; sum[$i] += $(i + 1) } }
     END { print "scripts", NR; for (i = 1; i <= n; i++) print order[i], sum[order[i]] }' \
    target/counts.txt
