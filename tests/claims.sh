#!/usr/bin/env bash
# Each name in backquotes in docs/CLAIMS.md stands in the sources: a definition, a theorem, a function, one of the header's, a must-fail edit or a test.
set -u
cd "$(dirname "$0")/.."
passed=0 failed=0
names=$(grep -o '`[^`]*`' docs/CLAIMS.md | tr -d '`' | sort -u)
words=$(mktemp)
trap 'rm -f "$words"' EXIT
{
    find crates -name '*.antt' -o -name '*.rt' | xargs grep -h -o -E '^ *((unfoldable|abbrev) )?(pub )?(record |data |struct |enum |fn |extern "C" fn )?[^ (:{]+' |
        awk '{ print $NF }'
    find crates -name '*.rt' | xargs grep -h -o -E 'fn [a-z_0-9]+' | sed 's/^fn //'
    grep -h -o -E 'cnftl_[a-z_]+\(' include/cnftl.h | tr -d '('
    find crates -path '*/must-fail/*.edit' | sed 's,^crates/,,; s,/must-fail/,/,; s,\.edit$,,'
    find tests bench examples include docs crates -type f 2>/dev/null
    ls
} | sort -u >"$words"
while IFS= read -r name; do
    [ -n "$name" ] || continue
    if grep -q -x -F -- "$name" "$words"; then
        passed=$((passed + 1))
    else
        echo "docs/CLAIMS.md names what is nowhere: $name"
        failed=$((failed + 1))
    fi
done <<<"$names"
echo "$passed passed, $failed failed"
[ "$failed" -eq 0 ] && [ "$passed" -gt 0 ]
