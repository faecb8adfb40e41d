#!/usr/bin/env bash
# Pages of scripts and logs: their words, and that a headless browser loads them and finds what must stand there. A browser is
# installed if there is none. Usage, after `make`: tests/pages.sh [TRIAL..], all trials
# without one.
set -u
cd "$(dirname "$0")/.." || exit 2
. tests/trials.sh || exit 2

# The page's words for what isn't ok are those of --echo.
trial_words() {
  local script
  . tools/words.sh || exit 2
  for script in scripts/refused-?.txt scripts/unread-forms.txt scripts/line-lengths.txt; do
    log_of "$script" >"$work/log"
    have page "$work/log" 2>/dev/null | grep -o 'class="words">.*</a>[^<]*' |
      sed -n "s/.*>\(Refused\|No call\), nothing changed: \(.*\)\./\2/p" >"$work/given"
    paste -d '|' - - <"$work/log" | awk -F '|' '{ print NR "|" $0 }' | while IFS='|' read -r number call answer; do
      report "$number" "$call" "$answer"
    done | sed -n 's/.* -> \(refused [0-9]*\|unread\): \(.*\)/\2/p' >"$work/due"
    diff "$work/given" "$work/due" >"$work/err" || bad "$script: other words than --echo's"
    [ -s "$work/due" ] || bad "$script: no words"
  done
}

# The sentence of a break is what the program explains, on generated scripts.
trial_sentences() {
  mkdir "$work/generated" || exit 2
  for seed in {1..40}; do target/reference/generate "$seed" 185 | head -n 200 >"$work/generated/$seed"; done 2>"$work/err"
  # Office 0 carries the old sheet 0, and office 1 reads it.
  printf '%s\n' 'new 3 2 2 2' 'open 1 0 0 0' 'step 1 0' 'issue 1 0 1' 'open 1 0 1 0' 'step 1 0' 'issue 1 0 2' 'fetch 0 1' \
    'open 1 0 0 0' 'step 1 0' 'issue 1 1 5' 'open 0 0 2 0 1 1 0 0 4 0' 'step 0 0' 'step 0 1' 'step 0 2' >"$work/generated/carried"
  python3 tests/sentences.py "$program" "$tool" "$work/generated"/* scripts/break-several.txt scripts/audit-had-read.txt scripts/audit-case-a.txt || bad "tests/sentences.py"
}

# long_list: a new, 400 issues by two writers in turn, and a look that needs them all: 1,202 calls.
long_list() {
  local issue
  echo 'new 3 2 2 1'
  for issue in {1..400}; do printf 'open 0 0 0 0\nstep 0 0\nissue 0 %d 1\n' $((issue % 2)); done
  echo 'look 0 0 0'
}

# Of a long list the page has the last 1,000 calls and says so, and behind an issue the last 100 issues.
trial_long() {
  long_list >"$work/long"
  want 0 "the page of 1,202 calls" have page "$work/long" 1202
  [ "$(grep -c 'class="row ' "$work/out")" -eq 1000 ] || bad "of 1,202 calls not 1,000 are on the page"
  grep -q 'The page shows the last 1000 of these calls; --shrink prints the 202 before them too' "$work/out" ||
    bad "the page doesn't say which calls it shows"
  [ "$(grep 'Behind issue 400 stand 199 issues' "$work/out" | grep -o '<li>' | wc -l)" -eq 101 ] &&
    grep -q '<li>and 99 earlier ones</li>' "$work/out" || bad "behind issue 400 not the last 100 are listed"
}

# browser: names a headless browser, and installs one if there is none.
browser() {
  local name
  for name in chromium chromium-browser google-chrome; do
    command -v "$name" && return
  done
  local install=(apt-get install -y --no-install-recommends chromium)
  { "${install[@]}" || { apt-get update && "${install[@]}"; }; } >"$work/apt" 2>&1
  command -v chromium && return
  tail -n 3 "$work/apt" >&2
  return 1
}

# Every golden script makes a page that a browser loads, and so do some generated ones and a recorded log.
trial_pages() {
  local script name chromium
  mkdir "$work/pages" || exit 2
  for script in scripts/*.txt; do
    name=${script##*/}
    have page "$script" >"$work/pages/${name%.txt}.html" 2>"$work/err"
    case $?:$([ -s "$script" ] && ! grep -q '^unread' "${script%.txt}.out" && echo fine) in
      0:fine | 2:) ;;
      *) bad "$script: a status that isn't due" ;;
    esac
  done
  for seed in 1 2 3 4 5 6; do
    target/reference/generate "$seed" 180 >"$work/script"
    have page "$work/script" >"$work/pages/generated-$seed.html" 2>"$work/err"
  done
  # Signs of HTML in a line are text on the page.
  printf 'new 1 1 1 1\n<script>throw 1</script>\n"&lt;\n' >"$work/signs"
  have page "$work/signs" >"$work/pages/signs.html" 2>"$work/err"
  { echo 'new 1 1 1 1'; yes 'look 0 0 0' | head -n 123456; echo 'fetch 0 0'; } >"$work/far"
  have page "$work/far" >"$work/pages/far.html" 2>"$work/err"
  log_of scripts/explain-next.txt >"$work/log"
  want 0 "the page of a log" have page "$work/log"
  cp "$work/out" "$work/pages/log.html"
  long_list >"$work/long"
  have page "$work/long" 1202 >"$work/pages/long.html" 2>"$work/err"
  many_calls 6 4 8 8 | head -n 150 >"$work/eight"
  have page "$work/eight" >"$work/pages/eight.html" 2>"$work/err"
  { echo 'new 2 2 2 1'; yes 'look 0 0 0' | head -n 5; printf 'open 0 0 0 0\nstep 0 0\nissue 0 0 1\n'; } >"$work/folded"
  have page "$work/folded" >"$work/pages/folded.html" 2>"$work/err"
  # Sheet 2 draws in 0 and 1, which the plan has too.
  printf '%s\n' 'new 3 2 2 1' 'open 0 0 0 0' 'step 0 0' 'issue 0 0 1' 'open 0 0 0 0' 'step 0 0' 'issue 0 0 2' \
    'open 0 0 0 0' 'step 0 0' 'issue 0 0 4' 'open 0 0 4 0 0 3 0' 'step 0 0' >"$work/carried"
  have page "$work/carried" >"$work/pages/carried.html" 2>"$work/err"
  chromium=$(browser) || bad "no browser: chromium is missing, and apt-get can't install it"
  python3 tests/pages.py "$chromium" "$work/pages" || exit 1
}

trials=("$@")
[ $# -gt 0 ] || trials=(words sentences long pages)
build_tool
build_generate
for trial in "${trials[@]}"; do
  (trial_"$trial") || exit 1
done
