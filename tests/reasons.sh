#!/usr/bin/env bash
# The filter of reasons, .ci/reasons, on lines written here: it refuses an edit whose line names no fact, and takes one whose line names one.
# Run as: tests/reasons.sh PATH_OF_THE_FILTER
set -euo pipefail
filter=$(realpath "$1")
dir=$(mktemp -d)
trap 'rm -rf "$dir"' EXIT
cd "$dir"
wrong=0

# expect STATUS NAME WHY: an edit of that name, and what follows 'refused, as it must be'
expect() {
    printf 'rt: words: trying its must-fail edits (1)\nrt: must-fail c/%s.edit: refused, as it must be%s\n1 passed, 0 failed\n' "$2" "$3" >log
    local got=0
    "$filter" log 2>/dev/null || got=$?
    if [ "$got" -ne "$1" ]; then
        echo "reasons: $2 ended with $got, not $1" >&2
        wrong=1
    fi
}

expect 1 only_binders ': proofs/A.antt:5:2: error: `f`: this λ has 3 binders, but its type has room for only 1'
expect 1 only_not_admitted ': proofs/g/Answers.antt:5:2: error: `returns`: `close` was not admitted (it has holes or was rejected), so this cannot be checked'
expect 1 named_what_is_not_there ': proofs/A.antt:5:2: error: `f`: `x` is not in scope'
expect 1 proof_names_what_is_gone ' (only because a proof file names what the edit took away, so this says little of the contract: change a value and keep the names): a'
expect 1 limit_of_the_prover ' (only by a limit of the prover, which gave no verdict, so this says less of the contract: choose a change that it refuses sooner): a'
expect 1 nothing_said ''
expect 0 fact_of_a_law ': proofs/A.antt:5:2: error: `f`: expected type `P 1`, but this has type `P 0`'
expect 0 fact_of_a_case ': proofs/Examples.antt:5:2: error: `f`: expected type `P 1`, but this has type `P 0`'
expect 0 fact_of_an_answer ': proofs/g/Answers.antt:5:2: error: `returns`: the two types differ only where one has `1` (expected) and the other has `0` (found)'
expect 0 promise_without_an_answer ': note: src/lib.rt:5:1: it is not proved that what the function ensures holds when it returns (`returns-2`)'
exit "$wrong"
