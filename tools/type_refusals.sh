#!/bin/sh
# What the types refuse: makes wrong programs out of `evenline` in a copy, and expects the compiler's words.
# A must-fail edit has to reach the prover, and these do not: the compiler turns them away before.
set -eu
cd "$(dirname "$0")/.."
(cd crates/evenline && rt check) > /dev/null || { echo "evenline itself is not proved"; exit 1; }
copy=$(mktemp -d)
trap 'rm -rf "$copy"' EXIT
tar -c --exclude=out crates crates.txt | tar -x -C "$copy"
program=crates/evenline/src/main.rt
failed=0

# refused NAME OLD NEW WORDS: with OLD turned into NEW the check has to fail with WORDS
refused() {
    sed "s/$2/$3/" "$program" > "$copy/$program"
    if cmp -s "$program" "$copy/$program"; then
        echo "$1: nothing was changed"
        failed=1
    elif (cd "$copy/crates/evenline" && rt check) > "$copy/log" 2>&1; then
        echo "$1: NOT refused"
        failed=1
    elif grep -qF "$4" "$copy/log"; then
        echo "$1: refused, $4"
    else
        echo "$1: refused, but not for the reason expected"
        tail -n 5 "$copy/log"
        failed=1
    fi
}

refused "a verdict of an unsettled comparison" 'comparison\.settle()\.verdict()' 'comparison.verdict()' \
    'the method `verdict` takes `self` as `&Comparison<S, Quiet>`, and is called on `Comparison<Mask>`'
refused "a comparison tried with a draft" 'can_begin(left, right,' 'can_begin(\&families::Draft::open(2, 0, \&mut []), right,' \
    'expected `&Family<_>`, found `&Draft<_>`'
refused "a comparison begun with a draft" 'Comparison::begin(left, right,' 'Comparison::begin(\&families::Draft::open(2, 0, \&mut []), right,' \
    'expected `&Family<_>`, found `&Draft<_>`'
refused "a settled comparison that is run" 'comparison\.settle()\.verdict()' 'comparison.settle().run(9, left, right)' \
    'the method `run` takes `self` as `&mut Comparison<S>`, and is called on `Comparison<Mask, Quiet>`'
exit $failed
