#!/usr/bin/env bash
# Builds examples/cnftl-why.c, and runs it as a person would: on images that examples/control.c has made, on such images with one entry of a
# table broken, with a sector past the end, and on files that are no image. The answers and the statuses are compared with what they should be.
set -u
cd "$(dirname "$0")/.."
. tests/c/common.sh
. tests/c/images.sh

# Enters serials in the image until control has run this many times on it.
runs=0
control() {
    while [ "$runs" -lt "$1" ]; do
        run "$room/control" "$room/board" >"$room/out" || return 1
        runs=$((runs + 1))
    done
}

# `tells STATUS IMAGE LBA` runs the tool; its standard output should be what this function is given on its own standard input, and it should
# leave the image as it was. Nothing comes on standard error.
tells() {
    local status
    cat >"$room/expected"
    cp "$2" "$room/before" || return 1
    run "$room/cnftl-why" "$2" "$3" >"$room/out" 2>"$room/err"
    status=$?
    diff "$room/expected" "$room/out" && [ "$status" -eq "$1" ] && [ ! -s "$room/err" ] && cmp "$room/before" "$2"
}

check "control builds" build control
check "cnftl-why builds" build cnftl-why

check "a new board" control 1
check "the first sector, in the open block" tells 0 "$room/board" 0 <<'END'
Sector 0 is at place 0 of cluster 0, in region 0.
It reads from frame 1 of physical block 0,
  which is virtual block 0 of region 0; segment 0 there:
    segment     0  SV
                    ^
A read or a write of it looks at 1 spare area: that of frame 1.
A write continues the open block: it takes frame 3 of virtual block 0,
  physical block 0, and programs 2 pages:
    segment     0  SV
    segment     1  VE
                    ^
V valid, S stale, B begun, E erased, one letter a frame; ^ the frame meant
END
check "an erased frame is not looked at" tells 0 "$room/board" 6 <<'END'
Sector 6 is at place 0 of cluster 3, in region 1.
It reads from frame 2 of physical block 1,
  which is virtual block 0 of region 1; segment 1 there:
    segment     1  VE
                   ^
A read or a write of it looks at 1 spare area: that of frame 2.
A write continues the open block: it takes frame 3 of virtual block 0,
  physical block 1, and programs 2 pages:
    segment     0  SV
    segment     1  VE
                    ^
V valid, S stale, B begun, E erased, one letter a frame; ^ the frame meant
END

# Frame 0, which is stale, loses its second page: as if power had gone when its first page was programmed.
begun() { broken "$1" $((chip + page)) "$(printf '\\377%.0s' $(seq "$page"))"; }
check "a frame that was only begun" begun "$room/begun"
check "the board with it" tells 0 "$room/begun" 0 <<'END'
Sector 0 is at place 0 of cluster 0, in region 0.
It reads from frame 1 of physical block 0,
  which is virtual block 0 of region 0; segment 0 there:
    segment     0  BV
                    ^
A read or a write of it looks at 1 spare area: that of frame 1.
A write continues the open block: it takes frame 3 of virtual block 0,
  physical block 0, and programs 2 pages:
    segment     0  BV
    segment     1  VE
                    ^
V valid, S stale, B begun, E erased, one letter a frame; ^ the frame meant
END

# Frame 1 holds cluster 4 in place of cluster 0, so that the two clusters share segment 0.
shared() {
    broken "$1" $((chip + 2 * page + spare)) '\004' && put "$1" $((chip + 3 * page + spare)) '\004' &&
        put "$1" $((ct + 2 * 4)) '\000\000' && put "$1" "$marks" '\007'
}
check "two clusters in one segment" shared "$room/shared"
check "the frame below the last one" tells 0 "$room/shared" 0 <<'END'
Sector 0 is at place 0 of cluster 0, in region 0.
It reads from frame 0 of physical block 0,
  which is virtual block 0 of region 0; segment 0 there:
    segment     0  VV
                   ^
A read or a write of it looks at 2 spare areas: those of frames 1 and 0.
A write continues the open block: it takes frame 3 of virtual block 0,
  physical block 0, and programs 2 pages:
    segment     0  VV
    segment     1  VE
                    ^
V valid, S stale, B begun, E erased, one letter a frame; ^ the frame meant
END
check "the last one needs one look" grep -q '^A read or a write of it looks at 1 spare area: that of frame 1.$' \
    <(run "$room/cnftl-why" "$room/shared" 9)

# Frame 3 holds what frame 2 does, as after one more write of cluster 2; the block is full.
full() {
    cp "$room/board" "$1" && put "$1" "$marks" '\012' &&
        dd if="$room/board" of="$1" bs=1 skip=$((chip + 4 * page)) seek=$((chip + 6 * page)) count=$((2 * page)) conv=notrunc 2>"$room/err"
}
check "a full block" full "$room/full"
check "a sector that was not written, and the write opens a block" tells 0 "$room/full" 37 <<'END'
Sector 37 is at place 1 of cluster 18, in region 0.
It reads as 255 throughout: no frame holds its cluster.
A read or a write of it looks at no spare area.
A write opens virtual block 1: it takes frame 0 of a free block,
  and programs 2 pages:
    segment     2  EE
                   ^
    segment     3  EE
V valid, S stale, B begun, E erased, one letter a frame; ^ the frame meant
END

check "the first block full, the second begun" control 2
# `breaks IMAGE RULE TEXT`: the rule that is told of sector 5, and then what a start would make of it, on standard input.
breaks() {
    tells 3 "$1" 5 < <(
        echo 'Sector 5 is at place 1 of cluster 2, in region 0.'
        echo 'The board is not orderly: no read, write or release is accepted (reply 7).'
        printf 'Rule %s is the first one broken:\n  %s.\n' "$2" "$3"
        cat
    )
}
# Where nothing is wrong with the chip, and where its blocks are wrong themselves.
found() {
    cat <<'END'
A start from the chip alone erases 0 blocks; after it:
It reads from frame 3 of physical block 0,
  which is virtual block 0 of region 0; segment 1 there:
    segment     1  SV
                    ^
A read or a write of it looks at 1 spare area: that of frame 3.
A write continues the open block: it takes frame 2 of virtual block 1,
  physical block 2, and programs 2 pages:
    segment     2  SV
    segment     3  EE
                   ^
V valid, S stale, B begun, E erased, one letter a frame; ^ the frame meant
END
}
refused() {
    echo 'A start from the chip alone is refused with reply 7:'
    echo '  its blocks are not those that a power loss leaves.'
}
check "a BST entry becomes 3" broken "$room/bst" "$bst" '\003'
check "rule 1" breaks "$room/bst" 1 "a BST entry is not 0, 1 or 2" < <(found)
check "an FST entry becomes none" broken "$room/fst" "$fst" '\377\377'
check "rule 8" breaks "$room/fst" 8 "FST does not name the open block's last segment, or two blocks are not full" < <(found)
check "an image without its tables" bare "$room/bare"
check "what a start makes of it" tells 3 "$room/bare" 5 < <(
    echo 'Sector 5 is at place 1 of cluster 2, in region 0.'
    echo 'The image ends with its chip: its tables are missing.'
    found
)

check "frame 0, which is stale, gets a mark beside frames 1 and 3" broken "$room/marked" "$marks" '\013'
check "rule 10" breaks "$room/marked" 10 "a mark is 1 where no frame is valid, or 0 where one is" < <(found)
check "the mark of frame 1 is lost" broken "$room/unmarked" "$marks" '\010'
check "rule 10 for that too" grep -q '^Rule 10 is the first one broken' <(run "$room/cnftl-why" "$room/unmarked" 5)
check "the marks are those of frames 1 and 3" broken "$room/same" "$marks" '\012'
check "nothing was changed by that" cmp "$room/board" "$room/same"

check "the first page names virtual block 1" broken "$room/virtual" $((chip + spare + 11)) '\001'
check "rule 7" breaks "$room/virtual" 7 "a used block does not begin with frames of its virtual block and go on erased" < <(refused)
check "the second page gets another stamp than the first" broken "$room/mixed" $((chip + page + spare + 7)) '\000'
check "rule 7 for that too" grep -q '^Rule 7 is the first one broken' <(run "$room/cnftl-why" "$room/mixed" 5)
check "region 0 has taken 5 stamps, and its sixth write the sixth" broken "$room/stamped" "$stamps" '\005'
check "rule 11" breaks "$room/stamped" 11 "a page has a larger stamp than the last one of its region" < <(found)
check "it has taken 6" broken "$room/same" "$stamps" '\006'
check "nothing was changed by that either" cmp "$room/board" "$room/same"

check "all blocks full" control 4
check "a sector in the third block, and the write reclaims the first" tells 0 "$room/board" 22 <<'END'
Sector 22 is at place 0 of cluster 11, in region 1.
It reads from frame 3 of physical block 5,
  which is virtual block 2 of region 1; segment 5 there:
    segment     5  SV
                    ^
A read or a write of it looks at 1 spare area: that of frame 3.
A write reclaims virtual block 0: it copies 2 valid frames to a free block,
  takes frame 2 there, programs 6 pages, and erases physical block 1:
    segment     0  SV
    segment     1  SV
V valid, S stale, B begun, E erased, one letter a frame; ^ the frame meant
END

check "region 1 has no stamp left" broken "$room/stampless" $((stamps + 4)) '\377\377\377\377'
check "a sector that is held there, and the write is refused" tells 0 "$room/stampless" 22 <<'END'
Sector 22 is at place 0 of cluster 11, in region 1.
It reads from frame 3 of physical block 5,
  which is virtual block 2 of region 1; segment 5 there:
    segment     5  SV
                    ^
A read of it looks at 1 spare area: that of frame 3.
A write is refused with reply 9: region 1 has no stamp left.
  It takes no more writes until the board is formatted.
V valid, S stale, B begun, E erased, one letter a frame; ^ the frame meant
END
check "one that is not held" tells 0 "$room/stampless" 39 <<'END'
Sector 39 is at place 1 of cluster 19, in region 1.
It reads as 255 throughout: no frame holds its cluster.
A read of it looks at no spare area.
A write is refused with reply 9: region 1 has no stamp left.
  It takes no more writes until the board is formatted.
END
check "all free blocks, 6 to 9, are worn" broken "$room/worn" $((bst + 6)) '\002\002\002\002'
check "a sector that is held, and no block is left for the write" tells 0 "$room/worn" 22 <<'END'
Sector 22 is at place 0 of cluster 11, in region 1.
It reads from frame 3 of physical block 5,
  which is virtual block 2 of region 1; segment 5 there:
    segment     5  SV
                    ^
A read of it looks at 1 spare area: that of frame 3.
A write is refused with reply 10: it needs a free block and there is none.
  Of 10 blocks 6 are used and 4 bad or worn.  What is written still reads.
V valid, S stale, B begun, E erased, one letter a frame; ^ the frame meant
END
check "its region has no stamp left either" put "$room/worn" $((stamps + 4)) '\377\377\377\377'
check "9 comes before 10" grep -q '^A write is refused with reply 9' <(run "$room/cnftl-why" "$room/worn" 22)
check "region 0 still has some" grep -q '^A write reclaims virtual block 0' <(run "$room/cnftl-why" "$room/stampless" 0)

check "a sector past the end" complains 1 "sector 40 is refused with reply 4: the board ends with sector 39" cnftl-why "$room/board" 40
check "a sector far past the end" complains 1 "sector 4294967295 is refused with reply 4: the board ends with sector 39" \
    cnftl-why "$room/board" 4294967295
check "a missing file" complains 2 "$room/nothing: no such file" cnftl-why "$room/nothing" 0
fault() { check "$2" complains 2 "$2: $3" cnftl-why "$2" 0; }
each_fault fault
check "no sector" complains 2 "use: cnftl-why IMAGE LBA" cnftl-why "$room/board"
check "a sector that is no number" complains 2 "-1: not a sector number" cnftl-why "$room/board" -1
check "a sector of more than 32 bits" complains 2 "4294967296: no sector number of 32 bits" cnftl-why "$room/board" 4294967296

helps() {
    run "$room/cnftl-why" --help >"$room/out" 2>"$room/err" && grep -q -x -e 'use: cnftl-why IMAGE LBA' "$room/out" &&
        grep -q -e '3 the board is not orderly' "$room/out" && [ ! -s "$room/err" ]
}
check "help" helps
counted
