#!/usr/bin/env bash
# Every script of one to three calls after `new 2 2 2 1`, as the second implementation lists and answers them
# (reference/histories.rs, from the change request's text alone), against crates/histories/stdout, which is what the proved
# program writes: byte for byte. Usage: tests/histories.sh [PROGRAM]; without one, the reference's is built.
set -u
cd "$(dirname "$0")/.." || exit 2
lines=crates/histories/stdout
program=${1:-target/histories-reference}
if [ $# -eq 0 ]; then
  mkdir -p target && rustc --edition 2021 -O reference/histories.rs -o "$program" || exit 1
fi
out=$(mktemp) || exit 2
trap 'rm -f "$out"' EXIT
"$program" >"$out" </dev/null || { echo "histories: $program: exit status $?"; exit 1; }
if cmp -s "$out" "$lines"; then
  echo "histories: $(grep -c '' "$lines") lines, each as the second implementation has it"
  exit 0
fi

# The first line that differs, or that one of the two lacks, from both.
awk -v lines="$lines" '
  function tell(number, a, b) { print "histories: line " number " differs\n  " lines ": " a "\n  second implementation: " b; told = 1; exit }
  FILENAME == lines { line[FNR] = $0; n = FNR; next }
  { m = FNR }
  m > n || $0 != line[m] { tell(m, m > n ? "(none)" : line[m], $0) }
  END { if (!told && m < n) tell(m + 1, line[m + 1], "(none)"); if (!told) print "histories: the end of the last line differs" }
' "$lines" "$out"
exit 1
