#!/usr/bin/env bash
# T-10: writes many small boards for long through the archive, and looks that two erases of one region are never fewer accepted writes apart than
# cnftl_writes_per_erase says, and that some are no more. Then it shows that a figure of one more is noticed. CALLS and SEED may be set.
# The long run counts as one, and so does the wrong figure.
set -u
cd "$(dirname "$0")/.."
here=1
. tests/c/common.sh
seed=${SEED:-1}
calls=${CALLS:-10000000}

"$cc" -std=c11 -O2 "${strict[@]}" -o "$room/erases" tests/c/erases.c "$archive" || exit 2
check "the erases of each region, $calls calls from seed $seed" run "$room/erases" "$calls" "$seed"

# A wrong figure is noticed where the run stops with status 3.
notices() {
    run "$room/erases" "$calls" "$seed" "$1" >"$room/out"
    [ $? -eq 3 ]
}
check "one write more per erase is not noticed" notices 1
echo "one write more per erase: $(sed -n 's/^erases: \(.*\)/noticed, \1/p' "$room/out")"
counted
