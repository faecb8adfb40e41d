#!/bin/sh
# Plants faults, one at a time, in copies of the sources; the differential tests must find each.
# Usage, from the repository's root: sh tests/faults.sh program|library [FIRST [LAST]]
# FIRST and LAST number the faults of the list; all of them if they aren't given.
#
# program: faults of tests/faults/program.txt in a copy of the Rattle sources. The toolchain
#   builds a library only if it is proved, so the faulty program is run unproved by `rt try`,
#   on some scripts with the reference's answers. Half a minute for each fault.
# library: faults of tests/faults/library.txt, in what no script reaches (the test of form, spent
#   numbers, buffers), in a copy of the reference behind the library's names, against the
#   reference itself by tests/differential.rs. 5 minutes.
# Not part of ./test. Exits 1 if a fault isn't found.
set -u
kind=${1:?usage: faults.sh program|library [FIRST [LAST]]}
first=${2:-1}
last=${3:-1000}
crate=sheetdesk
top=$PWD
work=$(mktemp -d) || exit 2
list=$top/tests/faults/$kind.txt

# fault NUMBER: sets what, file, old and new to the fault with that number, or fails.
fault() {
    awk -v want="$1" 'BEGIN { RS = ""; FS = "\n" } NR == want { print; found = 1 }
        END { exit !found }' "$list" >"$work/fault.txt" || return 1
    what=$(head -n 1 "$work/fault.txt")
    file=$(sed -n 's/^file: //p' "$work/fault.txt")
    old=$(sed -n 's/^old: //p' "$work/fault.txt")
    new=$(sed -n 's/^new: //p' "$work/fault.txt")
}

# plant FOLDER: replaces the old text, which must stand on one line of the file alone.
plant() {
    OLD=$old NEW=$new awk '
        { at = index($0, ENVIRON["OLD"])
          if (at) { found++
              $0 = substr($0, 1, at - 1) ENVIRON["NEW"] substr($0, at + length(ENVIRON["OLD"])) }
          print }
        END { exit found != 1 }' "$top/${2:-.}/$file" >"$work/planted.txt" || {
        echo "faults: not planted (its text must stand once in $file): $what"
        exit 2
    }
    cp "$work/planted.txt" "$1/$file"
}

# In the copy without a fault the program must answer as the reference does.
prepare_program() {
    mkdir -p "$work/copy" "$work/cases"
    tar cf - --exclude='crates/*/out' crates crates.txt | tar xf - -C "$work/copy" || exit 2
    for name in sheetdesk generate; do
        rustc --edition 2021 -C opt-level=3 -o "$work/$name" "reference/$name.rs" || exit 2
    done
    for script in 1 2 3 4 line-lengths unread-forms refused-2; do give_script "$script"; done
}

# give_script SEED or NAME: a case of the program, its input, generated or golden, and what it must write.
give_script() {
    case $1 in
    [0-9]*) "$work/generate" "$1" 600 ;;
    *) cat "scripts/$1.txt" ;;
    esac >"$work/cases/$1"
    "$work/sheetdesk" <"$work/cases/$1" >"$work/cases/$1.stdout"
}

# Whether the program answers a script otherwise. A fault that doesn't compile is no trial. Some forecasts take more steps
# than the interpreter is allowed: then what is built decides.
differs_program() {
    (cd "$work/copy/crates/$crate" && rt try --cases "$work/cases") >"$work/try.txt" 2>&1
    case $(tail -n 1 "$work/try.txt") in
    "cases=7 ended=7 fault=0 differs=0 no-answer=0 "*) return 1 ;;
    cases=*" fault="[1-9]* | cases=*" differs="[1-9]*) return 0 ;;
    esac
    echo "faults: no trial:"
    tail -n 5 "$work/try.txt"
    exit 2
}

prepare_library() {
    mkdir -p "$work/copy"
    cp -r reference/desk.rs reference/desk reference/text.rs reference/script.rs tests/faults/exports.rs "$work/copy/"
}

differs_library() {
    rustc --edition 2021 -O -A warnings --crate-type cdylib --crate-name sheetdesk_c \
        --out-dir "$work" "$work/copy/exports.rs" || exit 2
    [ -x "$work/differential" ] || rustc --edition 2021 -O tests/differential.rs \
        -L "native=$work" -l dylib=sheetdesk_c -C "link-arg=-Wl,-rpath,$work" \
        -o "$work/differential" || exit 2
    "$work/differential" 1 4000 >"$work/try.txt" 2>&1
    status=$?
    [ "$status" -ne 0 ] || return 1
    # Ended by a signal: the faulty library went outside its buffer.
    [ "$status" -lt 128 ] || return 0
    grep -q "library and reference differ" "$work/try.txt" && return 0
    tail -n 3 "$work/try.txt"
    exit 2
}

from=.
[ "$kind" = program ] || from=reference
"prepare_$kind"
if "differs_$kind"; then
    echo "faults: without a fault there is a difference; see $work/try.txt"
    exit 2
fi
number=$first
missed=0
while [ "$number" -le "$last" ] && fault "$number"; do
    plant "$work/copy" "$from"
    if "differs_$kind"; then
        echo "found: $what"
    else
        echo "NOT FOUND: $what"
        missed=$((missed + 1))
    fi
    cp "$top/$from/$file" "$work/copy/$file"
    number=$((number + 1))
done
rm -rf "$work"
echo "faults: $((number - first)) planted, $missed not found"
[ "$missed" -eq 0 ]
