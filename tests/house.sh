#!/usr/bin/env bash
# The picture of the house is that of crates.txt, and that of the cuts of what the rules compute; each crate stands behind all that it uses; and the README's table has each crate once.
set -u
cd "$(dirname "$0")/.."
passed=0 failed=0

# Counts one check, and says what is wrong where it failed: `check WRONG COMMAND ..`.
check() {
    local wrong=$1
    shift
    if "$@"; then
        passed=$((passed + 1))
    else
        echo "$wrong"
        failed=$((failed + 1))
    fi
}

# From top to bottom no crate names one that comes later. The toolchain's own libraries are in no line; `staticlib` behind a name is no crate.
rising() {
    awk '/^#/ || NF == 0 { next }
        { sub(/ staticlib:/, ":"); name = $1; sub(/:$/, "", name); line[name] = NR; for (i = 2; i <= NF; i++) uses[NR] = uses[NR] " " $i }
        END { for (n in uses) { split(uses[n], one, " "); for (k in one) if (one[k] in line && line[one[k]] >= n + 0) bad = 1 }; exit bad }' crates.txt
}

# The README's table, in the order of crates.txt.
in_table() {
    cmp -s <(sed -n 's/^| [A-Za-z]* *| `\([a-z_]*\)` | .*/\1/p' README.md) <(sed -n 's/ staticlib:/:/; s/^\([a-z_]*\):.*/\1/p' crates.txt)
}

check "docs/house.svg is not that of crates.txt: run tools/house" tools/house --check
check "docs/cuts.svg is not that of crates/cases/specs/CutT.antt: run tools/cuts" tools/cuts --check
check "crates.txt: a crate uses one that comes later" rising
check "README.md, The house: not the crates of crates.txt in their order" in_table
echo "$passed passed, $failed failed"
[ "$failed" -eq 0 ]
