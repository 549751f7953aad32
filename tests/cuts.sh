#!/usr/bin/env bash
# T-07: takes the power away after every operation of every format, write, queue and start of many runs on small boards, starts each board again, and
# looks that every sector reads as it should, with all bytes compared with the model of tests/c. On half of the boards blocks wear out (T-12). Then it
# shows that wrong layers are noticed by what the host knows alone. CUTS and SEED may be set, for a long run by hand too. The run counts as one, its
# number of cuts as one, and each wrong layer.
set -u
cd "$(dirname "$0")/.."
here=1
. tests/c/common.sh
seed=${SEED:-1}
cuts=${CUTS:-300000}

"$cc" -std=c11 -O2 "${strict[@]}" -o "$room/cuts" tests/c/cuts.c tests/c/model.c "$archive" || exit 2
every_board() { run "$room/cuts" --cuts "$cuts" --seed "$seed" | tee "$room/out"; return "${PIPESTATUS[0]}"; }
check "every board comes back, $cuts cuts from seed $seed" every_board
made=$(sed -n 's/^cuts: \([0-9]*\) cuts on .*/\1/p' "$room/out")
check "the cuts made: ${made:-none}" [ "${made:-0}" -ge "${CUTS:-100000}" ]

# A wrong layer is noticed where the run stops with status 3.
notices() {
    run "$room/cuts" --cuts 1000000 --seed "$seed" --layer "$1" >"$room/out" 2>"$room/err"
    [ $? -eq 3 ]
}
run "$room/cuts" --layers >"$room/layers" || exit 2
while IFS=$'\t' read -r number name; do
    check "layer $number is not noticed: $name" notices "$number"
    echo "layer $number, $name: $(sed -n 's/^cuts: \(.*\), after \([0-9]*\) cuts.*/noticed after \2 cuts, \1/p' "$room/out")"
done <"$room/layers"
counted
