#!/usr/bin/env bash
# The archive as it is delivered, for x86-64, beside the model of document 01 in tests/c: a short run of the fuzz, on another processor under the emulator.
# The long run (tests/fuzz.sh) takes the archive for this processor. CALLS and SEED may be set. The comparison counts as one.
set -u
cd "$(dirname "$0")/.."
. tests/c/common.sh
calls=${CALLS:-40000} seed=${SEED:-2}
"$cc" -std=c11 -O2 "${strict[@]}" ${link[@]+"${link[@]}"} -o "$room/fuzz" tests/c/fuzz.c tests/c/model.c "$archive" || exit 2
check "the archive and the model, $calls calls from seed $seed" run "$room/fuzz" --calls "$calls" --seed "$seed"
counted
