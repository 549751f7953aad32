#!/usr/bin/env bash
# Compiles include/cnftl.h as C99 and as C++ without a warning, links the archive, and runs Board T's cases through all calls, and the example of
# the header's comment as it stands there.
# It also looks that the archive offers these functions and asks for no other than the C library's memory functions.
set -u
cd "$(dirname "$0")/.."
. tests/c/common.sh

offers() {
    ${objdump} -t "$archive" 2>/dev/null | awk '$2 == "g" && $4 == ".text" || $2 == "g" && $4 ~ /^\.text/ { print $NF }' | sort | tr '\n' ' '
}
asks() { ${objdump} -t "$archive" 2>/dev/null | awk '/\*UND\*/ { print $NF }' | sort -u | grep -v -x -e memcpy -e memset -e memmove -e memcmp -e bcmp; }

# The example of the comment as a program: what stands there indented is the body of its main.
example() {
    printf '#include "cnftl.h"\n#include <stdio.h>\n#include <string.h>\n\nint main(void)\n{\n'
    sed -n '/^ \* Example/,/^ \*\//s/^ \*   //p' include/cnftl.h
    printf 'return 0;\n}\n'
}
example >"$room/example.c"

# An object that was compiled with the header of another number: it compiles, and does not link.
other_number() {
    mkdir -p "$room/other"
    sed 's/cnftl_api_3/cnftl_api_2/' include/cnftl.h >"$room/other/cnftl.h"
    "$cc" -std=c99 -I"$room/other" -c -o "$room/other.o" "$room/example.c" &&
        ! "$cc" ${link[@]+"${link[@]}"} -o "$room/other.out" "$room/other.o" "$archive" 2>/dev/null
}

check "the header as C99" "$cc" -std=c99 -O2 "${strict[@]}" ${link[@]+"${link[@]}"} -o "$room/c99" tests/c/header.c "$archive"
check "its cases" run "$room/c99"
check "the header as C++" "$cxx" -std=c++17 -O2 "${strict[@]}" ${link[@]+"${link[@]}"} -o "$room/cxx" tests/c/header.cc "$archive"
check "its cases" run "$room/cxx"
check "the example of its comment" "$cc" -std=c99 -O2 "${strict[@]}" ${link[@]+"${link[@]}"} -o "$room/example" "$room/example.c" "$archive"
check "its answer" [ "$(run "$room/example")" = accepted ]
check "an object of another number links" other_number
check "the archive's functions: $(offers)" [ "$(offers)" = "$exported " ]
check "what the archive asks for: $(asks)" [ -z "$(asks)" ]
counted
