#!/usr/bin/env bash
# A writer's count taken for an issue number, or the reverse, must not compile: the compiler refuses it before the prover
# sees it, so it can't be a must-fail edit. Swaps the two in a copy, at each place where one is read, tested, stored or
# handed on, and wants the compiler's refusal. Where rows are compared and merged no issue number is in reach: a plain word
# or an index is put there. So for an Input or Output of the program that no read or write gave.
# Each swap: crate, file, text, other text.
set -u
cd "$(dirname "$0")/.." || exit 2
copy=$(mktemp -d) || exit 2
trap 'rm -rf "$copy"' EXIT
tar cf - --exclude='crates/*/out' crates crates.txt tools/kit.py | tar xf - -C "$copy" || exit 2
cd "$copy" || exit 2
failed=0 refused=0
swap() { # CRATE FILE OLD NEW
  local file=crates/$1/src/$2 said
  cp "$file" kept
  OLD=$3 NEW=$4 python3 - "$file" <<'P' || { echo "swapped: the text to swap is gone: $1/$2: $3"; failed=1; return; }
import os, sys
text = open(sys.argv[1]).read()
old = os.environ['OLD']
if text.count(old) != 1: sys.exit(1)
open(sys.argv[1], 'w').write(text.replace(old, os.environ['NEW']))
P
  said=$(python3 tools/kit.py "$1" 2>&1)
  mv kept "$file"
  case $said in
    *"error[mismatched-types]: expected \`IssueNumber\`, found \`WriterCount\`"*) refused=$((refused + 1)) ;;
    *"error[mismatched-types]: expected \`WriterCount\`, found \`IssueNumber\`"*) refused=$((refused + 1)) ;;
    *"error[mismatched-types]: expected \`WriterCount\`, found \`u32\`"*) refused=$((refused + 1)) ;;
    *"error[mismatched-types]: expected \`WriterCount\`, found \`usize\`"*) refused=$((refused + 1)) ;;
    *"cannot compare \`IssueNumber\` with \`WriterCount\`"*) refused=$((refused + 1)) ;;
    *"cannot compare \`WriterCount\` with \`IssueNumber\`"*) refused=$((refused + 1)) ;;
    *"cannot compare \`WriterCount\` with \`u32\`"* | *"cannot compare \`u32\` with \`WriterCount\`"*)
      refused=$((refused + 1)) ;;
    *"cannot compare \`WriterCount\` with \`usize\`"*) refused=$((refused + 1)) ;;
    *"error[private-field]"* | *"error[unknown-method]"*) refused=$((refused + 1)) ;;
    *) echo "swapped: the compiler took it: $1/$2: $4"; printf '%s\n' "$said" | tail -n 5; failed=1 ;;
  esac
}
# compared and merged: rows
swap clock lib.rt 'let x = count_at(p, a + i);' 'let x = p[a + i];'
swap clock lib.rt 'let y = count_at(q, b + i);' 'let y = q[b + i];'
swap clock lib.rt 'over | (x > y);' 'over | (x > (b + i));'
swap clock lib.rt 'under | (x < y);' 'under | (x.0 < y.0);'
swap clock lib.rt 'let y = count_at(words, src + i);' 'let y = words[src + i];'
swap clock lib.rt 'set_count(words, dst + i, x.max(y));' 'set_count(words, dst + i, words[src + i]);'
swap sheetdesk_c clocks.rt 'let y = count_at(source, i);' 'let y = source[i];'
swap sheetdesk_c clocks.rt 'set_count(target, i, x.max(y));' 'set_count(target, i, source[i]);'
# compared: rows with writers' counts, issue numbers with the last
swap admit lib.rt 'count_at(words, row + u) <=' 'numbers::version_issue(words, row + u) <='
swap admit lib.rt '<= count_at(words, z.writer_at(u))' '<= last_issue(words)'
swap admit lib.rt 'let last = last_issue(words);' 'let last = count_at(words, 4);'
swap admit place.rt 'version_issue(words, z.key_at(at, k)) <=' 'clock::count::count_at(words, z.key_at(at, k)) <='
swap admit place.rt '<= last)' '<= clock::count::count_at(words, at))'
# raised
swap numbers lib.rt 'issue: issue.next(),' 'issue: count.next(),'
swap issue lib.rt 'raised(old.issue, old.count)' 'raised(old.count, old.issue)'
swap issue lib.rt 'old.issue.is_last()' 'old.count.is_last()'
swap issue lib.rt 'old.count.is_full()' 'old.issue.is_full()'
# read
swap issue lib.rt 'let issue = last_issue(words);' 'let issue = count_at(words, 4);'
swap issue lib.rt 'let count = count_at(words, at);' 'let count = numbers::version_issue(words, at);'
swap version merge.rt $'let old = version_issue(words, dst);\n    let new' $'let old = clock::count::count_at(words, dst);\n    let new'
swap version merge.rt 'let number = version_issue(words, s);' 'let number = clock::count::count_at(words, s);'
swap look lib.rt 'let issue = version_issue(words, version);' 'let issue = clock::count::count_at(words, version);'
swap version lib.rt 'let number = version_issue(words, version);' 'let number = clock::count::count_at(words, version);'
swap version merge.rt 'let new = old.max(number);' 'let new = old.max(clock::count::count_at(words, dst));'
swap version merge.rt $'let y = count_at(words, q + u as usize);\n        leads_on' $'let y = numbers::version_issue(words, q + u as usize);\n        leads_on'
swap version merge.rt 'leads_on(m, x, n, y, u)' 'leads_on(m, x, n, numbers::version_issue(words, p), u)'
swap issue lib.rt 'Tally { issue, count }' 'Tally { issue: count, count: issue }'
# stored
swap issue lib.rt 'set_last_issue(words, tally.issue);' 'set_last_issue(words, tally.count);'
swap version merge.rt 'set_version_issue(words, dst, new);' 'clock::count::set_count(words, dst, new);'
swap issue past.rt 'set_count(words, row + w, new);' 'numbers::set_version_issue(words, row + w, new);'
swap issue past.rt 'set_count(words, at, new);' 'numbers::set_version_issue(words, at, new);'
# handed on
swap issue lib.rt 'w, mask, tally.count);' 'w, mask, tally.issue);'
swap issue lib.rt 'at, w, mask, tally.issue);' 'at, w, mask, tally.count);'
# answered, or taken out of its type
swap look lib.rt 'pub issue: IssueNumber,' 'pub issue: clock::count::WriterCount,'
swap issue lib.rt 'set_last_issue(words, tally.issue);' 'words[4] = tally.count.0;'
# made up
swap sheetdesk main.rt 'let input = Input::none();' 'let input = Input { all: 0, got: 0, room: 0, ended: true };'
swap sheetdesk main.rt 'let output = Output::none();' 'let output = Output { all: 0, count: 0, room: 0, failed: true };'
echo "swapped: $refused swaps refused by the compiler"
exit $failed
