/*
 * mutants.h - the wrong readings of documents 01 and 02 that the model can take
 * on.
 *
 * Mutant 0 is the right model.  Each of the others is switched on by its
 * number, counted from 1 in the order of these lists, to show that a comparison
 * with the model notices it.
 */
#ifndef MUTANTS_H
#define MUTANTS_H

#define MODEL_MUTANT_LIST(X)                                                   \
    /* parameters, lengths and the order of the replies */                     \
    X(GAMMA_F, "parameters: gamma*F clusters of a region allowed")             \
    X(P_UNBOUNDED, "parameters: P above 256 allowed")                          \
    X(PER_REGION_DOWN, "parameters: C/mu rounded down")                        \
    X(C_UNBOUNDED, "parameters: C above 1,048,576 allowed")                    \
    X(E_ZERO, "parameters: E = 0 allowed")                                     \
    X(E_PAST, "parameters: E = 1,000,001 allowed")                             \
    X(LENGTHS_FIRST, "replies: 2 checked before 1")                            \
    X(LENGTH_AT_LEAST, "replies: a table too long is accepted")                \
    X(WEAR_LENGTH, "replies: the length of wear is not checked")               \
    X(MARKS_LENGTH, "replies: the length of the marks is not checked")         \
    X(STAMPS_LENGTH, "replies: the length of the stamps is not checked")       \
    X(COUNT_AFTER_ADDRESS, "replies: 4 checked before 3")                      \
    X(DATA_BEFORE_ADDRESS, "replies: 5 checked before 4")                      \
    X(ORDER_BEFORE_DATA, "replies: 7 checked before 5")                        \
    X(COUNT_32_BITS, "replies: LBA mod alpha + count taken in 32 bits")        \
    X(COUNT_0, "replies: count 0 accepted")                                    \
    X(LAST_SECTOR, "replies: the last sector of the board refused")            \
    X(DATA_AT_LEAST, "replies: data too long accepted")                        \
    X(REFUSED_READ_CLEARS, "replies: a read refused with 7 clears its data")   \
    X(STAMP_BEFORE_ORDER, "replies: 9 checked before 7")                       \
    X(STAMP_EARLY, "replies: 9 where one stamp is left")                       \
    X(READ_GIVES_9, "replies: 9 given to a read")                              \
    X(RELEASE_GIVES_9, "replies: 9 given to a release")                        \
    X(TEN_BEFORE_NINE, "replies: 10 checked before 9")                         \
    X(TEN_ALWAYS, "replies: 10 where the open block has room, too")            \
    X(TEN_EARLY, "replies: 10 where one block is free")                        \
    X(TEN_NEVER, "replies: no 10, a block that is not free is taken")          \
    X(TEN_IS_SIX, "replies: 6 in place of 10")                                 \
    X(TEN_AT_RECLAIM_ONLY, "replies: no 10 where a virtual block is opened")   \
    X(TEN_AT_OPENING_ONLY, "replies: no 10 where a block is reclaimed")        \
    X(READ_GIVES_10, "replies: 10 given to a read")                            \
    X(RELEASE_GIVES_10, "replies: 10 given to a release")                      \
    /* when a state is orderly */                                              \
    X(BST_VALUE, "orderly: a BST entry above 2 accepted")                      \
    X(NAMED_TWICE, "orderly: a block named twice accepted")                    \
    X(NAMED_NOT_USED, "orderly: a named block that is not used accepted")      \
    X(USED_NOT_NAMED, "orderly: a used block that is not named accepted")      \
    X(BLOCKS_ASKED, "orderly: mu*gamma+1 blocks not reserved asked for")       \
    X(BLOCK_ASKED, "orderly: a block that is not reserved asked for")          \
    X(FREE_NOT_ERASED, "orderly: a free block not erased accepted")            \
    X(RESERVED_ERASED, "orderly: a reserved block must be erased")             \
    X(EMPTY_USED, "orderly: a used block with no frame accepted")              \
    X(REST_NOT_ERASED, "orderly: pages after the last frame not checked")      \
    X(FIRST_PAGE_ONLY, "orderly: only the first page of a frame checked")      \
    X(BEGUN_REFUSED, "orderly: a frame that is only begun refused")            \
    X(PLACE_BYTE, "orderly: spare byte 4 not checked")                         \
    X(MARK_BYTE, "orderly: spare byte 5 not checked")                          \
    X(VIRTUAL_BYTE, "orderly: spare byte 11 not checked")                      \
    X(MIXED_STAMPS, "orderly: pages of a frame with other stamps accepted")    \
    X(TAIL_BYTES, "orderly: spare bytes 12 to 15 not checked")                 \
    X(OTHER_REGION, "orderly: a cluster of another region accepted")           \
    X(FST_NONE, "orderly: FST none in a region with blocks accepted")          \
    X(FST_OFF_BY_ONE, "orderly: FST one segment off accepted")                 \
    X(TWO_OPEN, "orderly: a second block that is not full accepted")           \
    X(CT_ELSEWHERE, "orderly: CT naming a segment without it accepted")        \
    X(CT_NONE_REFUSED, "orderly: CT none refused where a frame is left")       \
    X(MARKS_UNCHECKED, "orderly: a wrong mark accepted")                       \
    X(MARKS_FROM_F, "orderly: a mark from F up accepted")                      \
    X(MARKS_UNASSIGNED, "orderly: a mark without a physical block accepted")   \
    X(STAMPS_UNCHECKED, "orderly: a stamp above the region's last accepted")   \
    X(LAST_STAMP, "orderly: a page with the region's last stamp refused")      \
    X(BEGUN_STAMPS, "orderly: stamps of frames only begun not looked at")      \
    /* format */                                                               \
    X(FORMAT_NO_ERASES, "format: its erases are not counted")                  \
    X(FORMAT_COUNTS_BAD, "format: an erase counted for bad blocks too")        \
    X(FORMAT_CLEARS_WEAR, "format: wear starts again from 0")                  \
    X(FORMAT_NO_WEAR, "format: wear stays as it was")                          \
    X(FORMAT_ERASES_BAD, "format: bad blocks are erased too")                  \
    X(BAD_WHEN_ZERO, "format: bad only if the byte is 0")                      \
    X(BAD_IN_LAST_PAGE, "format: the bad mark looked up in the last page")     \
    X(BAD_IN_FIRST_ONLY, "format: the second page's bad mark not looked at")   \
    X(BAD_IN_SECOND_ONLY, "format: the first page's bad mark not looked at")   \
    X(BAD_IN_BOTH, "format: bad only if both pages are marked")                \
    X(BAD_BEYOND_THE_BLOCK, "format: with P 1, the next block's mark counts")  \
    X(FORMAT_BLOCKS_EXACT, "format: mu*gamma good blocks are enough")          \
    X(FORMAT_KEEPS_FST, "format: FST stays as it was")                         \
    X(FORMAT_6_BY_BAD, "format: 6 by the blocks that are not bad alone")       \
    X(FORMAT_6_BY_WEAR, "format: 6 by the wear before its erases")             \
    X(FORMAT_6_LATE, "format: 6 given after its erases")                       \
    X(FORMAT_COUNTS_KEPT, "format: no erase counted for those it wears out")   \
    /* worn blocks */                                                          \
    X(WORN_LATE, "worn: at E + 1 erases")                                      \
    X(WORN_EXACTLY, "worn: at E erases and not above")                         \
    X(WORN_UNMARKED, "worn: no mark")                                          \
    X(WORN_MARK_FIRST, "worn: the mark comes before the erase")                \
    X(WORN_SECOND_PAGE, "worn: the mark on the second page")                   \
    X(WORN_BYTE_6, "worn: the mark in spare byte 6")                           \
    X(WORN_REPORTED, "worn: the mark reported as a program")                   \
    X(WORN_FREE_AT_FORMAT, "worn: the block left free at a format")            \
    X(WORN_FREE_AT_RECLAIM, "worn: the block left free at a reclaim")          \
    X(WORN_FREE_AT_START, "worn: the block left free at a start")              \
    /* read and write */                                                       \
    X(FIRST_FRAME, "read: the first frame of the cluster, not the last")       \
    X(BEGUN_VALID, "valid: a frame that is only begun may be")                 \
    X(BEGUN_HIDES, "valid: a frame that is only begun hides an earlier one")   \
    X(READ_PLACE_0, "read: from place 0 of the cluster")                       \
    X(NO_MERGE, "write: sectors not given become 255")                         \
    X(VIRTUAL_HIGHEST, "write: the highest virtual block without a block")     \
    X(ONE_OPEN, "write: one open block for all regions")                       \
    X(CT_FRAME, "write: CT names the frame in place of the segment")           \
    X(SPARE_PLACE_0, "write: spare byte 4 always 0")                           \
    X(CLUSTER_8_BITS, "write: spare bytes 1 to 3 always 0")                    \
    X(CLUSTER_16_BITS, "write: spare bytes 2 and 3 always 0")                  \
    X(PROGRAMS_ALPHA, "write: copied pages are not counted")                   \
    X(ERASE_UNCOUNTED, "write: the erase is not counted")                      \
    /* reclaim */                                                              \
    X(VICTIM_TIE, "reclaim: the highest victim on a tie")                      \
    X(VICTIM_MOST, "reclaim: the victim has most valid frames")                \
    X(VICTIM_COUNTS_STALE, "reclaim: stale frames count for the victim")       \
    X(VICTIM_ZERO, "reclaim: the victim is always virtual block 0")            \
    X(FREE_BY_NUMBER, "reclaim: the free block by number only")                \
    X(FREE_TIE, "reclaim: the highest free block on a tie")                    \
    X(OLD_AFTER_ERASE, "reclaim: the old cluster is read after the erase")     \
    X(OLD_NOT_COPIED, "reclaim: the old frame of the cluster is left out")     \
    X(STALE_COPIED, "reclaim: stale frames of a segment are copied")           \
    X(ALL_FRAMES_COPIED, "reclaim: every frame is copied while there is room") \
    X(ERASE_FIRST, "reclaim: the victim is erased before its copies stand")    \
    X(COPIES_FROM_1, "reclaim: copies from frame 1, the write in frame 0")     \
    X(COPIES_BACKWARDS, "reclaim: copies in falling order of frames")          \
    X(CT_NOT_FOLLOWING, "reclaim: CT does not follow a copy")                  \
    X(VICTIM_NOT_ERASED, "reclaim: the victim's pages stay")                   \
    X(VICTIM_NOT_FREED, "reclaim: the victim stays used")                      \
    X(WEAR_WRAPS, "wear: goes back to 0 after 4,294,967,295")                  \
    X(RECLAIM_NO_WEAR, "wear: a reclaim's erase is not counted")               \
    /* release */                                                              \
    X(RELEASE_NOTHING, "release: the CT entry stays")                          \
    X(RELEASE_NEXT, "release: the CT entry of the next cluster")               \
    X(RELEASE_REGION, "release: the CT entries of the whole region")           \
    X(RELEASE_LAST, "release: the last cluster is refused")                    \
    X(RELEASE_ORDER_FIRST, "release: 7 tested before 4")                       \
    X(RELEASE_COUNTS, "release: an erase counted")                             \
    /* marks */                                                                \
    X(MARK_BIT, "marks: the mark of frame f at bit f / 64")                    \
    X(MARKS_LAYOUT, "marks: virtual block first, then region")                 \
    X(OLD_MARK_KEPT, "marks: the old frame's mark stays after an overwrite")   \
    X(NEW_MARK_CLEAR, "marks: the new frame's mark is not set")                \
    X(THREE_WORDS, "marks: valid frames counted over three words")             \
    X(VICTIM_MARKS_KEPT, "marks: those of a reclaimed block not cleared")      \
    X(FORMAT_KEEPS_MARKS, "marks: a format leaves them")                       \
    X(RELEASE_KEEPS_MARK, "marks: a release leaves its cluster's")             \
    /* stamps */                                                               \
    X(ONE_STAMP, "stamps: one last stamp for all regions")                     \
    X(STAMP_REFUSED, "stamps: a write refused with 5 or 7 takes one")          \
    X(RELEASE_TAKES_STAMP, "stamps: a release takes one")                      \
    X(FORMAT_KEEPS_STAMPS, "stamps: a format leaves them")                     \
    X(STAMP_HIGH_FIRST, "stamps: the high byte first on a page")               \
    X(STAMP_255, "stamps: not written, 255 throughout on a page")              \
    X(STAMP_BEFORE, "stamps: a write's pages get the one before")              \
    X(OLD_STAMP, "stamps: that of the cluster's old frame kept by a write")    \
    X(OLD_VIRTUAL, "stamps: spare byte 11 of the old virtual block kept")      \
    X(COPY_STAMP, "stamps: a copy gets that of the write")                     \
    /* why */                                                                  \
    X(WHY_RULE_ORDER, "why: free but not erased told before used if named")    \
    X(WHY_RULE_NUMBERS, "why: the rules after the fifth numbered one less")    \
    X(WHY_MARKS_FIRST, "why: a wrong mark told before a wrong CT entry")       \
    X(WHY_STAMPS_FIRST, "why: a wrong stamp told before a wrong mark")         \
    X(WHY_STALE, "why: the first frame of the cluster, not the last")          \
    X(WHY_VICTIM_TIE, "why: the highest victim on a tie")                      \
    X(WHY_OPENS, "why: opens told where the open block has room")              \
    X(WHY_FILLS_4, "why: the list is filled with reply 4 too")                 \
    X(WHY_PAST_STAMPS, "why: the forecast goes on where no stamp is left")     \
    X(WHY_9_BARE, "why: no frame told where no stamp is left")                 \
    X(WHY_PAST_BLOCKS, "why: the forecast goes on where no block is left")     \
    X(WHY_10_BARE, "why: no frame told where no block is left")                \
    /* queue */                                                                \
    X(QUEUE_STOPS, "queue: a refused item stops it")                           \
    X(QUEUE_OLD_STATE, "queue: each item with the FST from before it")         \
    X(QUEUE_LATE, "queue: an answer one place late")                           \
    X(QUEUE_8_FIRST, "queue: 8 tested before 2")                               \
    X(QUEUE_FULL_LIST, "queue: as many answers as requests refused")           \
    X(QUEUE_THREES, "queue: a request cut short is left out")                  \
    X(QUEUE_FILLS_PAST, "queue: an answer past the last item")                 \
    X(QUEUE_REFUSAL_FILLS, "queue: a refusal fills an answer")                 \
    X(QUEUE_REPLIES_7, "queue: 7 for the whole call")                          \
    X(QUEUE_DATA_FIRST, "queue: 5 tested before 3 and 4")                      \
    X(QUEUE_SUM_WRAPS, "queue: first + count x s in 32 bits")                  \
    X(QUEUE_ONE_PAST, "queue: a byte past the data part")                      \
    X(QUEUE_FIRST_ZERO, "queue: the bytes from the start of the data")         \
    X(QUEUE_PAST_STAMPS, "queue: an item accepted where no stamp is left")     \
    /* spare areas looked at */                                                \
    X(LOOKS_UPWARD, "looks: counted from the segment's first frame up")        \
    X(LOOKS_SHORT, "looks: the valid frame is not counted")                    \
    X(LOOKS_ERASED, "looks: erased frames of the segment counted too")         \
    X(LOOKS_NONE, "looks: one counted where CT has none")                      \
    X(LOOKS_AFTER_RECLAIM, "looks: counted in the state after the reclaim")    \
    X(LOOKS_COPIES, "looks: one counted for each copy too")                    \
    X(LOOKS_WHOLE, "looks: none counted for a write of a whole cluster")       \
    /* start */                                                                \
    X(START_GIVES_6, "start: 6 where fewer than mu*gamma+1 are not bad")       \
    X(START_GAMMA, "start: a virtual block from gamma up taken for one")       \
    X(START_ANY_BLOCK, "start: a block that is not orderly erased, not 7")     \
    X(START_THREE, "start: three blocks of a virtual block accepted")          \
    X(START_TWO_FULL, "start: two full blocks of a virtual block accepted")    \
    X(START_PAIR_REFUSED, "start: a full block and another refused")           \
    X(START_TWO_OPEN, "start: two blocks not full of a region accepted")       \
    X(START_OPEN_COUNTED, "start: a block left over counted as not full")      \
    X(START_SAME_STAMPS, "start: whole frames with one stamp accepted")        \
    X(START_STAMPS_ALL, "start: stamps of a block left over compared too")     \
    X(START_BEGUN_STAMPS, "start: stamps of frames only begun compared")       \
    X(START_FULL_ERASED, "start: the full block of two erased")                \
    X(START_NOT_ERASED, "start: a block left over freed and not erased")       \
    X(START_NO_WEAR, "start: the wear of a block left over not counted")       \
    X(START_NO_COUNT, "start: its erases not reported")                        \
    X(START_SMALLEST, "start: CT by the smallest stamp")                       \
    X(START_LAST_FRAME, "start: CT by the last frame, not by the stamp")       \
    X(START_BEGUN_CT, "start: a frame only begun counted for CT")              \
    X(START_KEEPS_CT, "start: a CT entry without a frame left as lent")        \
    X(START_FST_HIGHEST, "start: FST of the highest block where all are full") \
    X(START_FST_FULL, "start: FST of the lowest block, one not full or not")   \
    X(START_FST_FIRST, "start: FST by the first segment of the block")         \
    X(START_WHOLE_LAST, "start: last stamp by whole frames alone")             \
    X(START_LAST_CT, "start: last stamp by the frames that CT names")          \
    X(START_KEEPS_STAMPS, "start: last stamp of an empty region left as lent") \
    X(START_KEEPS_MARKS, "start: the marks left as lent")                      \
    X(START_ERASED_USED, "start: BST of an erased block left as lent")         \
    /* cuts */                                                                 \
    X(CUT_LATE, "cut: one operation later")                                    \
    X(CUT_EARLY, "cut: one operation earlier")                                 \
    X(CUT_LAST, "cut: not at the very last operation")                         \
    X(CUT_ZERO, "cut: budget 0 cuts nothing")                                  \
    X(CUT_IDLE, "cut: budget 0 cuts no call that makes no operation")          \
    X(CUT_32_BITS, "cut: the budget in 32 bits")                               \
    X(CUT_COPIES_FREE, "cut: copied pages not counted")                        \
    X(CUT_PROGRAMS_FREE, "cut: only erases counted")                           \
    X(CUT_ERASES_FREE, "cut: erases not counted")                              \
    X(CUT_MARKS_FREE, "cut: the marks of worn blocks not counted")             \
    X(CUT_BEFORE_REFUSALS, "cut: budget 0 cuts a call that is to be refused")  \
    X(CUT_REFUSED, "cut: a refused call loses its tables")                     \
    X(CUT_KEEPS_CT, "cut: CT kept")                                            \
    X(CUT_KEEPS_BT, "cut: BT kept")                                            \
    X(CUT_KEEPS_FST, "cut: FST kept")                                          \
    X(CUT_KEEPS_BST, "cut: BST kept")                                          \
    X(CUT_KEEPS_MARKS, "cut: the marks kept")                                  \
    X(CUT_KEEPS_STAMPS, "cut: the stamps kept")                                \
    X(CUT_ZEROES, "cut: the tables all zeroes")                                \
    X(CUT_STAMPS_16_BITS, "cut: the stamps 65,535")                            \
    X(CUT_WEAR_ONES, "cut: wear all ones too")                                 \
    X(CUT_WEAR_BEFORE, "cut: wear as before the call")                         \
    X(CUT_WEAR_LATE, "cut: the wear of the erase that spends it not counted")  \
    X(CUT_COUNTS, "cut: the counts so far reported")                           \
    X(CUT_REPLIES_7, "cut: reply 7")                                           \
    X(CUT_PAGE_ORDER, "cut: the last page of a frame comes first")             \
    X(CUT_COPY_ORDER, "cut: the last copy comes first")                        \
    X(CUT_ERASE_FIRST, "cut: the victim's erase comes before the copies")      \
    X(CUT_FRAME_FIRST, "cut: the new frame comes before the victim's erase")   \
    X(CUT_FORMAT_ORDER, "cut: a format erases the last block first")           \
    X(CUT_START_ORDER, "cut: a start erases the last block first")             \
    X(CUT_LAST_ITEM, "cut: the item is answered whose last page spends it")    \
    X(CUT_ANSWERS_BEHIND, "cut: the items behind are answered")                \
    X(CUT_ANSWERS_LOST, "cut: the answers before it all ones")                 \
    X(CUT_QUEUE_ANEW, "cut: the budget anew for each item")                    \
    X(CUT_REFUSED_ITEM, "cut: a refused item counts as an operation")          \
    X(CUT_DISORDERED, "cut: a queue on a disordered board by no budget")       \
    X(CUT_DISORDERED_ANY, "cut: a queue on a disordered board by any budget")  \
    /* writes per erase */                                                     \
    X(FIGURE_DOWN, "figure: spare frames / gamma rounded down")                \
    X(FIGURE_MORE, "figure: one more where gamma divides the spare frames")    \
    X(FIGURE_FEWEST, "figure: C/mu rounded down for every region")             \
    X(FIGURE_MOST, "figure: C/mu rounded up for every region")                 \
    X(FIGURE_BLOCK, "figure: spare frames divided by F")

/* Those that only the third counts of a queue's items show.  C does not get
   them, so the test of crate queue_test alone notices these. */
#define MODEL_ITEM_MUTANT_LIST(X)                                              \
    X(LOOKS_REFUSED, "looks: counted for a write refused with 5 too")          \
    X(LOOKS_QUEUE_ENTRY, "looks: an item's in the state before the queue")

#endif
