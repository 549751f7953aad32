# For the tests of the examples, after common.sh: builds the programs, and makes images with one thing wrong out of the one in $room/board, which
# examples/control.c has made (docs/IMAGE.md has the offsets).

chip=48 ct=3888 fst=3940 bst=3944 marks=3994 stamps=4186 # where chip and these tables begin in control's images
page=48 spare=32                                         # bytes of a page, and where its spare area begins

# `build NAME` compiles examples/NAME.c.
build() { "$cc" -std=c11 -O2 "${strict[@]}" ${link[@]+"${link[@]}"} -o "$room/$1" "examples/$1.c" examples/image.c "$archive"; }

# `put IMAGE OFFSET BYTES` puts bytes, as printf takes them, at an offset.
put() { printf "$3" | dd of="$1" bs=1 seek="$2" conv=notrunc 2>"$room/err"; }

# `broken COPY OFFSET BYTES` copies the image and does so with the copy.
broken() { cp "$room/board" "$1" && put "$1" "$2" "$3"; }

# `bare COPY` copies the image up to the end of its chip.
bare() { head -c "$ct" "$room/board" >"$1"; }

# `complains STATUS TEXT PROGRAM ARGUMENTS` runs a program; it should print nothing but this text, as one line on standard error after its own name.
complains() {
    local expected=$1 text=$2 program=$3 status
    shift 3
    run "$room/$program" "$@" >"$room/out" 2>"$room/err"
    status=$?
    [ "$status" -eq "$expected" ] && [ ! -s "$room/out" ] && [ "$(cat "$room/err")" = "$program: $text" ]
}

# Makes a file for each fault of an image, and calls `$1 KIND FILE MESSAGE` for each. KIND is access for a file that cannot be read, board for one that
# is no board image of this version, and size for one that is too short or too long.
each_fault() {
    local f=$room/faulty
    mkdir "$f"
    "$1" access "$f" "cannot be read"
    : >"$f/empty"
    "$1" size "$f/empty" "too short for a board image: 0 bytes"
    head -c 47 "$room/board" >"$f/stub"
    "$1" size "$f/stub" "too short for a board image: 47 bytes"
    head -c 4193 "$room/board" >"$f/short"
    "$1" size "$f/short" "too short: 4193 bytes, not 4194"
    { cat "$room/board" && printf 'x'; } >"$f/long"
    "$1" size "$f/long" "too long: 4195 bytes, not 4194"
    broken "$f/other" 7 'X'
    "$1" board "$f/other" "not a board image"
    broken "$f/old" 8 '\001'
    head -c "$marks" "$f/old" >"$f/older1"
    "$1" board "$f/older1" "board image of version 1, and only version 5 is read: such a board is formatted anew"
    broken "$f/old" 8 '\002'
    head -c "$stamps" "$f/old" >"$f/older2"
    "$1" board "$f/older2" "board image of version 2, and only version 5 is read: such a board is formatted anew"
    broken "$f/older3" 8 '\003'
    "$1" board "$f/older3" "board image of version 3, and only version 5 is read: such a board is formatted anew"
    { head -c 44 "$room/board" && tail -c +49 "$room/board"; } >"$f/older4"
    put "$f/older4" 8 '\004'
    "$1" board "$f/older4" "board image of version 4, and only version 5 is read: such a board is formatted anew"
    broken "$f/newer" 8 '\006'
    "$1" board "$f/newer" "board image of version 6, and only version 5 is read"
    broken "$f/regions" 28 '\000'
    "$1" board "$f/regions" "its parameters are not allowed"
    broken "$f/rated" 44 '\000\000\000\000'
    "$1" board "$f/rated" "its parameters are not allowed"
}
