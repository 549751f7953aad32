#!/usr/bin/env bash
# Builds examples/control.c, and runs it as a bench would: on a new board, on the same board until both of its ledgers are full, and on files that are
# not right. The output and the statuses are compared with what they should be.
set -u
cd "$(dirname "$0")/.."
. tests/c/common.sh
. tests/c/images.sh

# Runs the program on the image; its standard output should be what this function is given on its own standard input.
says() {
    cat >"$room/expected"
    (cd "$room" && run ./control board) >"$room/out" 2>"$room/err" && diff "$room/expected" "$room/out" && [ ! -s "$room/err" ]
}

# The sectors of each ledger, as document 01 has them: two to a cluster, and the clusters by turns. Prints the first serials up to a number.
list() {
    local i
    for i in $(seq 0 $(($1 - 1))); do echo "ledger 0, sector $((i / 2 * 4 + i % 2)): serial $((1001 + i))"; done
    for i in $(seq 0 $(($1 - 1))); do echo "ledger 1, sector $((i / 2 * 4 + 2 + i % 2)): serial $((2001 + i))"; done
}

# Runs the program until it has run so many times on the image.
runs=2
fill() {
    while [ "$runs" -lt "$1" ]; do
        run "$room/control" "$room/board" >"$room/out" || return 1
        runs=$((runs + 1))
    done
}

check "it builds" build control
check "a new board" says <<'END'
board: a new board, 10 blocks erased
ledger 0, sector 0: serial 1001 entered
ledger 0, sector 1: serial 1002 entered
ledger 0, sector 4: serial 1003 entered
ledger 1, sector 2: serial 2001 entered
ledger 1, sector 3: serial 2002 entered
ledger 1, sector 6: serial 2003 entered
ledger 0: 0 serials found, 3 entered, 3 now
ledger 1: 0 serials found, 3 entered, 3 now
12 pages programmed, 10 blocks erased
END
check "its length, as docs/IMAGE.md has it" [ "$(wc -c <"$room/board")" -eq 4194 ]
check "both ledgers are found again" says <<'END'
ledger 0, sector 0: serial 1001
ledger 0, sector 1: serial 1002
ledger 0, sector 4: serial 1003
ledger 1, sector 2: serial 2001
ledger 1, sector 3: serial 2002
ledger 1, sector 6: serial 2003
ledger 0, sector 5: serial 1004 entered
ledger 0, sector 8: serial 1005 entered
ledger 0, sector 9: serial 1006 entered
ledger 1, sector 7: serial 2004 entered
ledger 1, sector 10: serial 2005 entered
ledger 1, sector 11: serial 2006 entered
ledger 0: 3 serials found, 3 entered, 6 now
ledger 1: 3 serials found, 3 entered, 6 now
12 pages programmed, 0 blocks erased
END

# All blocks that are used are full, and the free ones, 6 to 9, are worn: no more goes in, and what is there still reads.
worn_out() {
    broken "$room/worn" $((bst + 6)) '\002\002\002\002' && cp "$room/worn" "$room/before" || return 1
    run "$room/control" "$room/worn" >"$room/out" 2>"$room/err"
    [ $? -eq 8 ] && [ ! -s "$room/err" ] && cmp "$room/before" "$room/worn" && diff - "$room/out" < <(
        list 12
        printf 'ledger %d: the board is worn out: no free block is left for the write (reply 10)\n' 0 1
        printf 'ledger %d: 12 serials found, 0 entered, 12 now\n' 0 1
        echo '0 pages programmed, 0 blocks erased'
    )
}
# Blocks rated for two erases, of which each has had one: each reclaim wears its block out, and a run ends when all four free ones are taken.
wears_out() {
    broken "$room/rated" 44 '\002\000\000\000' || return 1
    run "$room/control" "$room/rated" >"$room/out" || return 1
    run "$room/control" "$room/rated" >"$room/out"
    [ $? -eq 8 ] && grep -q -x -e 'ledger 1: the board is worn out: no free block is left for the write (reply 10)' "$room/out" &&
        run "$room/cnftl-why" "$room/rated" 2 | grep -q -e '^A write is refused with reply 10'
}
check "cnftl-why builds" build cnftl-why
check "half of the serials of each" fill 4
check "no block is free" worn_out
check "blocks wear out" wears_out
check "all but two serials of each" fill 6
check "they are 18 of each" grep -q -x -e 'ledger 1: 15 serials found, 3 entered, 18 now' "$room/out"
check "the last two" fill 7
check "these go in" [ "$(grep -c ' entered$' "$room/out")" -eq 4 ]
check "and no more" [ "$(grep -c -x -e 'ledger [01] is full' "$room/out")" -eq 2 ]
check "both ledgers are full" says < <(
    list 20
    printf 'ledger %d is full\n' 0 1
    printf 'ledger %d: 20 serials found, 0 entered, 20 now\n' 0 1
    echo '0 pages programmed, 0 blocks erased'
)

# Starts: the board without its tables, and with an FST entry lost; both ledgers are whole, and the image is one with tables again.
both() {
    list 20
    printf 'ledger %d is full\n' 0 1
    printf 'ledger %d: 20 serials found, 0 entered, 20 now\n' 0 1
    echo '0 pages programmed, 0 blocks erased'
}
cp "$room/board" "$room/whole"
check "an image without its tables" bare "$room/bare"
check "it takes the board's place" mv "$room/bare" "$room/board"
check "the board is started from its chip" says < <(
    echo 'board: its tables are missing, so it was started from its chip'
    echo '  6 blocks in use, 4 free, 0 bad or worn; 0 left over and erased'
    echo '  20 of 20 clusters found'
    both
)
check "the image has its tables again" says < <(both)
check "and is as it was, but for FST and wear" [ "$(cmp -l "$room/whole" "$room/board" | awk '{ print ($1 > 3940 && $1 <= 3944) || ($1 > 3954 && $1 <= 3994) }' | sort -u)" = 1 ]
# The CT entry of a cluster is gone, and its mark is not, so that the tables do not fit.
check "cluster 19 loses its entry" broken "$room/lost" $((ct + 2 * 19)) '\377\377'
check "the board with it" mv "$room/lost" "$room/board"
check "a start brings it back" says < <(
    echo 'board: its tables do not fit the chip, so it was started from its chip'
    echo '  6 blocks in use, 4 free, 0 bad or worn; 0 left over and erased'
    echo '  20 of 20 clusters found'
    echo '  1 of them had been released, or had lost their entry'
    both
)
# The first frame of block 0 stands in block 9 too, as a reclaim that was cut short leaves it.
left_over() { dd if="$room/board" of="$room/board" bs=1 skip="$chip" seek=$((chip + 9 * 8 * page)) count=$((2 * page)) conv=notrunc 2>"$room/err"; }
check "a block is left over" left_over
check "a start erases it" says < <(
    echo 'board: its tables do not fit the chip, so it was started from its chip'
    echo '  6 blocks in use, 4 free, 0 bad or worn; 1 left over and erased'
    echo '  20 of 20 clusters found'
    echo '  0 of them had been released, or had lost their entry'
    both | sed 's/, 0 blocks erased$/, 1 blocks erased/'
)

# `refuses STATUS TEXT FILE`: the program says so, and leaves the file as it was.
refuses() { cp "$3" "$room/before" && complains "$1" "$2" control "$3" && cmp "$room/before" "$3"; }

check "no file is named" complains 1 "use: control IMAGE" control
check "two files are named" complains 1 "use: control IMAGE" control "$room/board" "$room/board"
check "a folder that is missing" complains 2 "$room/none/board: cannot be written: No such file or directory" control "$room/none/board"
if [ -c /dev/full ]; then
    ln -s /dev/full "$room/full.new"
    check "a disk that is full" complains 2 "$room/full: cannot be written whole" control "$room/full"
    check "nothing is left there" [ -z "$(ls "$room" | grep '^full')" ]
fi
fault() {
    case $1 in
    access) check "$2" complains 2 "$2: $3" control "$2" ;;
    board) check "$2" refuses 3 "$2: $3" "$2" ;;
    size) check "$2" refuses 4 "$2: $3" "$2" ;;
    esac
}
each_fault fault
check "the place in a page is wrong" broken "$room/place" $((chip + spare + 4)) '\001'
check "a board that is not orderly, nor to be started" refuses 5 "start was refused with reply 7: the board is not orderly" "$room/place"
# s=16, alpha=1, beta=1, d=2, mu=1, gamma=1, c=1, n=2, e=1000000: 128 bytes of chip and 52 of tables
one_region() {
    printf 'CNFTLIMG\5\0\0\0\20\0\0\0\1\0\0\0\1\0\0\0\2\0\0\0\1\0\0\0\1\0\0\0\1\0\0\0\2\0\0\0\100\102\17\0' && head -c 180 /dev/zero
}
one_region >"$room/one"
check "a board with one region" refuses 7 "$room/one: the board has one region, for 2 ledgers" "$room/one"

helps() { (cd "$room" && run ./control --help) >"$room/out" 2>"$room/err" && grep -q -x -e 'use: control IMAGE' "$room/out" && [ ! -s "$room/err" ]; }
check "help" helps
check "no board of that name is made" [ ! -e "$room/--help" ]
counted
