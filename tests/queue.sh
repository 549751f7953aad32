#!/usr/bin/env bash
# Compares the queue over lists of structs, which C cannot lend, with the model of documents 01 and 02 in tests/c: the archive of crate queue_test
# makes such lists of two requests each, and gives the third counts too. Then it shows that each mutant of the model that counts them otherwise is
# noticed. PAIRS, MUTANT_PAIRS and SEED may be set. The comparison counts as one, and so does each mutant.
set -u
cd "$(dirname "$0")/.."
crate=queue_test
here=1
. tests/c/common.sh
seed=${SEED:-1}
pairs=${PAIRS:-1000000}

"$cc" -std=c11 -O2 -DCNFTL_UNLINKED "${strict[@]}" -o "$room/queue" tests/c/queue.c tests/c/model.c "$archive" || exit 2
check "the queue and the model, $pairs pairs of writes from seed $seed" run "$room/queue" "$pairs" "$seed"

# A mutant is noticed where the comparison stops with status 3.
notices() {
    run "$room/queue" "${MUTANT_PAIRS:-100000}" "$seed" "$1" >"$room/out"
    [ $? -eq 3 ]
}
run "$room/queue" --mutants >"$room/mutants" || exit 2
while IFS=$'\t' read -r number name; do
    check "mutant $number is not noticed: $name" notices "$number"
    echo "mutant $number, $name: $(sed -n 's/^queue: difference at/noticed at/p' "$room/out")"
done <"$room/mutants"
counted
