#!/usr/bin/env bash
# Runs the linked bench program on document 01's example, on a long file of odd lines, and on inputs that end or arrive in odd ways,
# and compares what it prints to the byte. `rt run` in crates/demo links it. The last line is 'N passed, M failed'.
set -u
cd "$(dirname "$0")/.."
room=$(mktemp -d)
trap 'rm -rf "$room"' EXIT
passed=0 failed=0

# Compares what the program prints for standard input with a file.
compare() { # NAME EXPECTED
    if tools/bench-program >"$room/printed" 2>"$room/said" && cmp "$room/printed" "$2"; then
        passed=$((passed + 1))
    else
        echo "$1: not what $2 has"
        failed=$((failed + 1))
    fi
}

if ! tools/bench-program --make >"$room/made" 2>&1; then
    cat "$room/made"
    echo "the bench program is not proved, or does not link"
    echo "0 passed, 1 failed"
    exit 1
fi

compare "01's example" crates/demo/stdout <crates/demo/stdin
compare "odd lines" tests/lines/odd.out <tests/lines/odd.in

# byte by byte through a pipe: a line may come in any pieces
compare "odd lines in pieces" tests/lines/odd.out < <(dd bs=1 if=tests/lines/odd.in 2>/dev/null)

# no input; an LF alone; a last line without LF that is no line of the grammar; a line that never ends
printf 'F\t0\t0\t5\n' >"$room/format"
printf 'F\t0\t0\t5\n?\n' >"$room/unknown"
compare "no input" "$room/format" </dev/null
printf '\n' >"$room/in"
compare "an LF alone" "$room/unknown" <"$room/in"
printf 'R' >"$room/in"
compare "a letter without LF" "$room/unknown" <"$room/in"
head -c 3000000 /dev/zero >"$room/in"
compare "three million bytes without LF" "$room/unknown" <"$room/in"

echo "$passed passed, $failed failed"
[ "$failed" -eq 0 ]
