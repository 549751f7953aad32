#!/usr/bin/env bash
# Compares crate cnftl, on this processor, with the model of document 01 in tests/c, call by call and byte by byte, and then shows that each mutant
# of the model is noticed. CALLS, MUTANT_CALLS, SEED and SECONDS_EACH (after which a run counts as failed) may be set.
# The comparison counts as one, and so does each mutant.
set -u
cd "$(dirname "$0")/.."
here=1
. tests/c/common.sh
seed=${SEED:-1}
seconds=${SECONDS_EACH:-1800}
calls=${CALLS:-1000000}

"$cc" -std=c11 -O2 "${strict[@]}" -o "$room/fuzz" tests/c/fuzz.c tests/c/model.c "$archive" || exit 2
check "the layer and the model, $calls calls from seed $seed" timeout "$seconds" "$room/fuzz" --calls "$calls" --seed "$seed"

# A mutant is noticed where the comparison stops with status 3.
notices() {
    timeout "$seconds" "$room/fuzz" --calls "${MUTANT_CALLS:-300000}" --seed "$seed" \
        --mutant "$1" >"$room/out" 2>"$room/err"
    [ $? -eq 3 ]
}
run "$room/fuzz" --mutants >"$room/mutants" || exit 2
while IFS=$'\t' read -r number name; do
    check "mutant $number is not noticed: $name" notices "$number"
    echo "mutant $number, $name: $(sed -n 's/^fuzz: difference in .* at call \([0-9]*\) .*/noticed at call \1/p' "$room/out")"
done <"$room/mutants"
counted
