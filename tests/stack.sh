#!/usr/bin/env bash
# T-04: the stack that the calls use, read off the archive's instructions, with the deepest chain of each; and the largest local array in the code
# that they reach. The limits are the bench card's 4 KiB, for a write's arrays one page's buffer, and for any call's half of the card.
set -u
cd "$(dirname "$0")/.."
. tests/c/common.sh
card=4096 page=528

"$objdump" -dr --no-show-raw-insn "$archive" | awk -v exported="$exported" -v outside=256 -f tests/c/stack.awk >"$room/stack"
grep '^cnftl_' "$room/stack"
most=$(sed -n 's/^most //p' "$room/stack")
check "the deepest chain, $most bytes, is under $card" [ "$most" -gt 0 -a "$most" -lt "$card" ]

reaches() { # NAME..: these crates and all under them
    local all="$*" more
    while :; do
        more=$(for each in $all; do echo "$each"; sed -n "s/ staticlib:/:/; s/^$each: *//p" crates.txt | tr ' ' '\n'; done | sort -u | grep .)
        [ "$more" != "$all" ] || break
        all=$more
    done
    echo "$all"
}
# Bytes of the longest array value in the crates that NAME.. reach, by the width that stands in its first element or its type.
longest() {
    for each in $(reaches "$@"); do grep -o -h -E '(u8|u16|u32|u64|usize); [0-9]+\]' "crates/$each/src/lib.rt"; done |
        sed 's/usize/u64/; s/[^0-9]/ /g' | awk '{ n = $1 / 8 * $2; if (n > most) most = n } END { print most + 0 }'
}
one=$(longest call_write)
echo "largest local array of a write: $one bytes"
check "a write's largest local array, $one bytes, is at most $page" [ "$one" -gt 0 -a "$one" -le "$page" ]
all=$(longest cnftl)
echo "largest local array of any call: $all bytes"
check "the largest local array, $all bytes, is at most half the card" [ "$all" -gt 0 -a "$all" -le $((card / 2)) ]
counted
