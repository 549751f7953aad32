/*
 * cnftl.h - C interface of the Bishtarev CNFTL flash translation layer.
 *
 * The layer makes a raw NAND chip look like numbered sectors.  It keeps
 * nothing of its own: a board is a chip image and seven tables (CT, BT, FST,
 * BST, wear, marks and stamps) in memory that the caller owns and lends for the
 * length of one call.  To keep a board, keep these eight arrays and its
 * parameters.
 *
 * There are seven calls: cnftl_format, cnftl_read, cnftl_write, cnftl_queue,
 * cnftl_release, cnftl_why and cnftl_start.  Four of them also come as a call
 * that loses power on the way, for tests: cnftl_format_cut, cnftl_write_cut,
 * cnftl_queue_cut and cnftl_start_cut.  Each one returns for every request and
 * for every content of the lent memory.  What cannot be done is refused by
 * number, and a refusal changes no lent byte, but for two lists: that of a
 * cnftl_why is filled with reply 7 too, and a queue writes the answer of a
 * refused item.
 *
 * Which sectors belong to a region: sector lba is in cluster lba / alpha, and
 * cluster k is in region k mod mu.  So the sectors of a region, which are those
 * of one ledger, are not contiguous unless mu is 1: they come in runs of alpha,
 * and the runs begin mu*alpha sectors apart.  With alpha 2 and mu 2, region 0
 * has sectors 0, 1, 4, 5, 8, 9 and so on, and region 1 has 2, 3, 6, 7, 10, 11
 * and so on.  cnftl_region_of, cnftl_region_sectors and cnftl_region_lba work
 * it out.
 *
 * A slice passes as a pointer and then a length in ELEMENTS (bytes for chip,
 * bst and data; 16-bit entries for ct, bt and fst; 32-bit entries for wear,
 * stamps, list and requests; 64-bit entries for marks and answers).
 *
 * What the tables say (regions, virtual blocks and frames count from 0; so do
 * segments, within their region: segment g is in virtual block g / d, and its
 * beta frames begin there with frame (g mod d)*beta):
 *   - ct: for each cluster its segment.  bt: for each region and virtual block,
 *     region first, its physical block.  fst: for each region the segment last
 *     written.  CNFTL_NONE is none in all three.
 *   - bst: for each physical block a cnftl_block_state.  wear: for each
 *     physical block the number of its erases, which stays at 4,294,967,295
 *     once there.  A block whose erases come to e or more is worn, see below.
 *   - marks: one bit for each frame, 1 exactly if the frame is valid: all its
 *     pages are programmed, the CT entry of its cluster names its segment, and
 *     no later such frame of that segment holds the same cluster.  A frame with
 *     only its first pages programmed, as a power loss may leave one, is never
 *     valid and hides no earlier frame.  Each region and virtual
 *     block has CNFTL_MARK_WORDS words, region first: frame f of virtual block
 *     v of region r is bit f % 64, UINT64_C(1) << f % 64, of entry
 *     CNFTL_MARK_WORDS*(r*gamma + v) + f/64.  All other bits are 0.
 *   - stamps: for each region the stamp that was taken last, 0 after a format.
 *     An accepted write, single or of a queue, takes the next one of its region
 *     for its pages; a start sets it to the largest one on the region's pages.
 *     A region whose entry is 4,294,967,295 has no stamp left: its writes are
 *     refused with 9 until the next format.
 *
 * Worn blocks: e is the number of erases that a block is rated for.  When an
 * erase, of a format, of a write's reclaim or of a start, brings the wear of a
 * block to e or more, spare byte 5 of its first page becomes 0, with the rest
 * of the block still erased, and the block becomes reserved.  To every later
 * format and start it is a bad block.  The programs of these marks are in no
 * count.  The board goes on with the blocks that are left.  While at least
 * mu*gamma+1 blocks are not reserved, a right write always has a free block;
 * with fewer, one that needs a free block and finds none is refused with 10.
 * Reads go on, and so do writes that find a frame in the open block of their
 * region.  A format does not help: it is refused with 6 where it would leave
 * fewer than mu*gamma+1 blocks.
 * How long a board lasts: let g blocks be not bad, and none of them erased
 * before the format.  Each then has e - 1 erases left, so at least
 * (g - mu*gamma)*(e - 1) erases come before the first reply 10, and those of
 * a region's writes are at least cnftl_writes_per_erase accepted writes apart.
 *
 * What the caller answers for:
 *   - Every pointer is non-null and aligned for its element type, even when
 *     its length is 0; that of an empty list of requests too.
 *   - Each slice is really as long as its length says.
 *   - No two slices of one call overlap: not two tables, not a table and the
 *     chip, and not the data, the list, the requests or the answers and any
 *     other of them.
 *   - During a call nobody else writes the lent memory, and during a format,
 *     a write, a queue, a release or a start nobody else reads it.  Calls on
 *     different boards may run at the same time.
 *   - A board is used with the same parameters in every call, and with its own
 *     wear: with one that counts less, a block serves longer than it is rated.
 *
 * Example (C99; include stdio.h and string.h, and link with libcnftl.a):
 *
 *   static uint8_t  chip[640];           // cnftl_chip_bytes
 *   static uint16_t ct[6], bt[4], fst[2];
 *   static uint8_t  bst[5];
 *   static uint32_t wear[5];             // 0: no block was erased yet
 *   static uint64_t marks[16];           // cnftl_marks_entries
 *   static uint32_t stamps[2];
 *   static const struct cnftl_board board = {
 *       .params = { .s = 16, .alpha = 2, .beta = 1, .d = 2,
 *                   .mu = 2, .gamma = 2, .c = 6, .n = 5, .e = 1000000 },
 *       .chip = chip, .ct = ct, .bt = bt, .fst = fst,
 *       .bst = bst, .wear = wear, .marks = marks, .stamps = stamps
 *   };
 *   uint8_t  sector[16];
 *   uint64_t a;
 *
 *   memset(chip, 255, sizeof chip);      // a new chip is all ones
 *   a = cnftl_board_format(&board);      // once, before the first write
 *   if (cnftl_reply_of(a) != CNFTL_ACCEPTED)
 *       return 1;
 *   memset(sector, 17, sizeof sector);
 *   a = cnftl_board_write(&board, 3, 1, sector, sizeof sector);
 *   if (cnftl_reply_of(a) == CNFTL_ACCEPTED)
 *       a = cnftl_board_read(&board, 3, 1, sector, sizeof sector);
 *   printf("%s\n", cnftl_reply_text(cnftl_reply_of(a)));
 */
#ifndef CNFTL_H
#define CNFTL_H

#include <stddef.h>
#include <stdint.h>

#ifdef __cplusplus
extern "C" {
#endif

/*
 * The number of this interface.  It goes up where a call or a table changes,
 * and it is in the name of a function of the archive: an object that was
 * compiled with a header of another number does not link.  Where only the types
 * and sizes of this header are wanted, without the archive, define
 * CNFTL_UNLINKED before it is included.
 */
#define CNFTL_API 3
uint32_t cnftl_api_3(void);
#if defined(__GNUC__) && !defined(CNFTL_UNLINKED)
__attribute__((used)) static uint32_t (*const cnftl_needs_api)(void)
    = cnftl_api_3;
#endif

/*
 * Spare bytes that follow the s data bytes of each page.  On a programmed page
 * 0 to 3 are the cluster's number, low byte first, 4 is the sector's place in
 * its cluster, 5 is 255, 6 is 0, 7 to 10 are the stamp, low byte first, 11 is
 * the virtual block, counted within its region, and 12 to 15 are 255.  All
 * pages of a frame have one stamp, which is the one that the write took for
 * them; the copies of a reclaim keep it.  An erased page is 255 throughout, and
 * so is the first page of a worn block but for a 0 in spare byte 5.
 */
#define CNFTL_SPARE_BYTES 16u

/* "None" in CT, BT and FST. */
#define CNFTL_NONE 65535u

/* Words of 64 marks for each region and virtual block. */
#define CNFTL_MARK_WORDS 4u

/*
 * The nine parameters of a board.  With F = beta*d frames in a block and
 * P = alpha*F pages in a block, P is at most 256 and c/mu rounded up is at
 * most gamma*F - 1.  The alpha pages of a frame hold one cluster in order.
 */
struct cnftl_params {
    uint32_t s;     /* bytes of a sector,             16 to 512       */
    uint32_t alpha; /* sectors in a cluster,           1 to 16        */
    uint32_t beta;  /* frames in a segment,            1 to 16        */
    uint32_t d;     /* segments in a block,            1 to 16        */
    uint32_t mu;    /* regions,                        1 to 1,024     */
    uint32_t gamma; /* virtual blocks in a region,     1 to 16        */
    uint32_t c;     /* clusters,                       1 to 1,048,576 */
    uint32_t n;     /* physical blocks,                1 to 65,535    */
    uint32_t e;     /* rated erases of a block,        1 to 1,000,000 */
};

/*
 * The replies, checked in the order of their numbers; 8, which a queue alone
 * has, comes right after 2.  Only CNFTL_ACCEPTED changes the board.  Later
 * issues may add numbers.
 */
enum cnftl_reply {
    CNFTL_ACCEPTED = 0,       /* done                                       */
    CNFTL_BAD_PARAMETER = 1,  /* a parameter breaks the rules above         */
    CNFTL_WRONG_LENGTH = 2,   /* chip, table or list of the wrong length    */
    CNFTL_BAD_COUNT = 3,      /* count 0, or past the end of the cluster    */
    CNFTL_BAD_ADDRESS = 4,    /* lba is c*alpha or more, a cluster c or more*/
    CNFTL_WRONG_DATA = 5,     /* data length is not count*s; of an item of a
                                 queue: its count*s bytes, from first on, do
                                 not lie in data                            */
    CNFTL_TOO_FEW_BLOCKS = 6, /* fewer than mu*gamma+1 blocks are not bad and
                                 not worn by the erases of this format      */
    CNFTL_NOT_ORDERLY = 7,    /* chip and tables break a cnftl_rule; of a
                                 start: the chip is none to start from      */
    CNFTL_TOO_FEW_ANSWERS = 8, /* fewer places for answers than requests    */
    CNFTL_NO_STAMP_LEFT = 9,  /* a write's region has no stamp left         */
    CNFTL_NO_BLOCK_LEFT = 10  /* a write needs a free block, to open a virtual
                                 block or to reclaim one, and none is free  */
};

/* The values of a BST entry. */
enum cnftl_block_state {
    CNFTL_BLOCK_FREE = 0,
    CNFTL_BLOCK_USED = 1,
    CNFTL_BLOCK_RESERVED = 2 /* bad from the maker, or worn */
};

/* The entries of the list that a cnftl_why fills, and their number. */
enum cnftl_why_entry {
    CNFTL_WHY_REPLY = 0,    /* the reply, 0 or 7                            */
    CNFTL_WHY_RULE = 1,     /* with reply 7 the first rule broken, else 0   */
    CNFTL_WHY_HELD = 2,     /* 1 if a valid frame has the cluster, else 0   */
    CNFTL_WHY_REGION = 3,   /* where it is held: region,                    */
    CNFTL_WHY_SEGMENT = 4,  /*   segment, counted within the region,        */
    CNFTL_WHY_VIRTUAL = 5,  /*   virtual block,                             */
    CNFTL_WHY_PHYSICAL = 6, /*   physical block,                            */
    CNFTL_WHY_FRAME = 7,    /*   frame in the block; 0 unless held          */
    CNFTL_WHY_WRITE = 8,    /* what a write would do: a cnftl_why_write, or
                               CNFTL_NO_STAMP_LEFT or CNFTL_NO_BLOCK_LEFT
                               where it is refused so                       */
    CNFTL_WHY_TARGET = 9,   /*   the virtual block it would do it with      */
    CNFTL_WHY_TAKES = 10,   /*   the frame that the write would take        */
    CNFTL_WHY_COPIES = 11,  /*   valid frames that it would copy first; all
                                 three are 0 where it is refused            */
    CNFTL_WHY_LOOKS = 12,   /* spare areas that a read or a write looks at
                               to find the frame; 0 unless held             */
    CNFTL_WHY_ENTRIES = 13
};

/*
 * The rules of an orderly state, in the order in which they are looked at.
 * Each of them relies on those before it.  The blocks of a region are those
 * that BT names for it, and a block is full if all its F frames are programmed.
 * A frame is programmed if its first page is, and whole if all its pages are.
 */
enum cnftl_rule {
    CNFTL_RULE_NONE = 0,       /* no rule is broken                         */
    CNFTL_RULE_BST = 1,        /* BST holds 0, 1 or 2                       */
    CNFTL_RULE_BT = 2,         /* BT entries are none or below n            */
    CNFTL_RULE_TWICE = 3,      /* no block is named twice                   */
    CNFTL_RULE_USED = 4,       /* a block is used exactly if BT names it    */
    CNFTL_RULE_ENOUGH = 5,     /* never told: a state need not have
                                  mu*gamma+1 blocks that are not reserved   */
    CNFTL_RULE_FREE = 6,       /* free blocks are erased throughout         */
    CNFTL_RULE_USED_BLOCK = 7, /* in a used block of a region the first k
                                  frames, k from 1 to F, are programmed with
                                  clusters below c of that region and with
                                  their spare bytes, one stamp in a frame and
                                  the virtual block that BT names the block
                                  for, each in all or only its first pages;
                                  the rest is erased                        */
    CNFTL_RULE_FST = 8,        /* FST is none exactly if the region has no
                                  block; else it is the segment of the last
                                  programmed frame of one of its blocks, the
                                  open block, and every other block of the
                                  region is full                            */
    CNFTL_RULE_CT = 9,         /* a CT entry is none or names a segment of its
                                  region that holds a whole frame of the
                                  cluster                                   */
    CNFTL_RULE_MARKS = 10,     /* a frame's mark is 1 exactly if the frame is
                                  valid, and all other bits are 0           */
    CNFTL_RULE_STAMPS = 11     /* no programmed page of a region's blocks has
                                  a larger stamp than the region's entry    */
};

/* What a write would do for its frame. */
enum cnftl_why_write {
    CNFTL_WRITE_CONTINUES = 1, /* takes the next frame of the open block    */
    CNFTL_WRITE_OPENS = 2,     /* opens a virtual block that has none       */
    CNFTL_WRITE_RECLAIMS = 3   /* reclaims a virtual block                  */
};

/*
 * Format.  A block is bad if spare byte 5 of its first page, or of its second
 * page where a block has two, is not 255: it becomes reserved and is not
 * touched.  All others are erased and become free, or reserved where that wears
 * them out, and the wear of each goes up by one unless it is 4,294,967,295.
 * CT, BT and FST become none, and all marks and stamps 0.  The wear lent must
 * be the board's wear so far (0 for a new chip).
 * Replies 1, 2, 6, 0.  6 is given before anything is erased, when fewer than
 * mu*gamma+1 blocks are not bad and have a wear of e - 2 or less; so with e = 1
 * it always is.  Counts: 0 programs, one erase for each block not bad, also for
 * those that it wears out.
 */
uint64_t cnftl_format(uint32_t s, uint32_t alpha, uint32_t beta, uint32_t d,
                      uint32_t mu, uint32_t gamma, uint32_t c, uint32_t n,
                      uint32_t e,
                      uint8_t *chip, size_t chip_len,
                      uint16_t *ct, size_t ct_len,
                      uint16_t *bt, size_t bt_len,
                      uint16_t *fst, size_t fst_len,
                      uint8_t *bst, size_t bst_len,
                      uint32_t *wear, size_t wear_len,
                      uint64_t *marks, size_t marks_len,
                      uint32_t *stamps, size_t stamps_len);

/*
 * Start a board from its chip alone, where its tables are gone.  Any wear of
 * the right length serves, and it tells only whether a block that is erased is
 * worn by that; what the other tables hold makes no difference.
 * Bad blocks, told as a format tells them, become reserved, erased ones free.
 * Any other block must be one that a board of these parameters can have: the
 * first k frames programmed, k from 1 to F, whole or only begun, all of one
 * region and one virtual block below gamma, the rest erased; it becomes the
 * used block of that virtual block.  If two blocks name one virtual block, the
 * one that is full stays and the other is erased, its wear going up by one; it
 * becomes free, or reserved where that wears it out.
 * For each cluster CT names the segment of its whole frame with the largest
 * stamp, so that a released cluster with whole frames left comes back with the
 * latest.  FST names the last segment of the region's block that is not full,
 * or where all are full that of its lowest virtual block.  Each region's last
 * stamp is the largest on its pages, else 0, and the marks are worked out.
 * Replies 1, 2, 7, 0.  7 is given exactly when a good block is neither
 * erased nor such a block; when three blocks name one virtual block, or two of
 * which not exactly one is full; when a region otherwise has two blocks that
 * are not full; or when two whole frames of one cluster, in blocks that stay,
 * share a stamp.  Counts: 0 programs, one erase for each block erased.
 */
uint64_t cnftl_start(uint32_t s, uint32_t alpha, uint32_t beta, uint32_t d,
                     uint32_t mu, uint32_t gamma, uint32_t c, uint32_t n,
                     uint32_t e,
                     uint8_t *chip, size_t chip_len,
                     uint16_t *ct, size_t ct_len,
                     uint16_t *bt, size_t bt_len,
                     uint16_t *fst, size_t fst_len,
                     uint8_t *bst, size_t bst_len,
                     uint32_t *wear, size_t wear_len,
                     uint64_t *marks, size_t marks_len,
                     uint32_t *stamps, size_t stamps_len);

/*
 * Read count sectors from sector lba on into data.  They must lie in one
 * cluster (lba mod alpha + count is at most alpha) and data_len must be
 * count*s.  A sector that was not written since the format, or since the last
 * release of its cluster, reads as 255 throughout.
 * Replies 1, 2, 3, 4, 5, 7, 0.  Counts: 0 and 0.  Writes data only, and that
 * only with reply 0.
 */
uint64_t cnftl_read(uint32_t s, uint32_t alpha, uint32_t beta, uint32_t d,
                    uint32_t mu, uint32_t gamma, uint32_t c, uint32_t n,
                    uint32_t e,
                    const uint8_t *chip, size_t chip_len,
                    const uint16_t *ct, size_t ct_len,
                    const uint16_t *bt, size_t bt_len,
                    const uint16_t *fst, size_t fst_len,
                    const uint8_t *bst, size_t bst_len,
                    const uint32_t *wear, size_t wear_len,
                    const uint64_t *marks, size_t marks_len,
                    const uint32_t *stamps, size_t stamps_len,
                    uint32_t lba, uint32_t count,
                    uint8_t *data, size_t data_len);

/*
 * Write count sectors from sector lba on, taken from data, under the same
 * rules for lba, count and data_len as a read.
 * Replies 1, 2, 3, 4, 5, 7, 9 (the region of the sectors has no stamp left), 10
 * (it needs a free block and there is none), 0.
 * Counts: the pages programmed (at most P), and 1 erase if a block was
 * reclaimed, else 0.  The mark of a block that the erase wears out is not
 * counted.
 */
uint64_t cnftl_write(uint32_t s, uint32_t alpha, uint32_t beta, uint32_t d,
                     uint32_t mu, uint32_t gamma, uint32_t c, uint32_t n,
                     uint32_t e,
                     uint8_t *chip, size_t chip_len,
                     uint16_t *ct, size_t ct_len,
                     uint16_t *bt, size_t bt_len,
                     uint16_t *fst, size_t fst_len,
                     uint8_t *bst, size_t bst_len,
                     uint32_t *wear, size_t wear_len,
                     uint64_t *marks, size_t marks_len,
                     uint32_t *stamps, size_t stamps_len,
                     uint32_t lba, uint32_t count,
                     const uint8_t *data, size_t data_len);

/* A write of a queue: its LBA, its count of sectors, and where its first byte
   stands in the data part that the whole queue shares. */
struct cnftl_request {
    uint32_t lba;
    uint32_t count;
    uint32_t first;
};

/*
 * Write a list of requests, in its order, for the price of one look at the
 * state.  The requests are a flat list, three numbers to a request in the
 * order of a cnftl_request, and requests_len counts the numbers.  Each answer
 * goes into the place of its request, and it is the one that a cnftl_write of
 * the request's count*s bytes of data, from its first on, would give at its
 * turn; chip and tables become what those writes would make of them.  A
 * request that is refused (3, 4, 5, 7, 9 or 10) gets its answer too, changes
 * nothing else, and the next goes on.  5 is for bytes that do not lie in data,
 * which may be longer than the requests need.  Answers past the last request
 * stay as they are.
 * Replies of the call itself: 1, 2 (also where requests_len is no multiple of
 * three), 8 (answers_len is less than the number of requests), which leave the
 * answers as they are, and else 0.  Its own counts: 0 and 0.  On a board that
 * is not orderly the call itself answers 0 too, and each request 3, 4, 5 or
 * else 7.
 */
uint64_t cnftl_queue(uint32_t s, uint32_t alpha, uint32_t beta, uint32_t d,
                     uint32_t mu, uint32_t gamma, uint32_t c, uint32_t n,
                     uint32_t e,
                     uint8_t *chip, size_t chip_len,
                     uint16_t *ct, size_t ct_len,
                     uint16_t *bt, size_t bt_len,
                     uint16_t *fst, size_t fst_len,
                     uint8_t *bst, size_t bst_len,
                     uint32_t *wear, size_t wear_len,
                     uint64_t *marks, size_t marks_len,
                     uint32_t *stamps, size_t stamps_len,
                     const uint32_t *requests, size_t requests_len,
                     const uint8_t *data, size_t data_len,
                     uint64_t *answers, size_t answers_len);

/*
 * Release one cluster: its CT entry becomes none, so that its sectors read as
 * 255 throughout until they are written again, and no reclaim copies it.
 * Where it is none already nothing changes.
 * Replies 1, 2, 4 (cluster is c or more), 7, 0.  Counts: 0 and 0.  Writes ct
 * and marks only.
 */
uint64_t cnftl_release(uint32_t s, uint32_t alpha, uint32_t beta, uint32_t d,
                       uint32_t mu, uint32_t gamma, uint32_t c, uint32_t n,
                       uint32_t e,
                       const uint8_t *chip, size_t chip_len,
                       uint16_t *ct, size_t ct_len,
                       const uint16_t *bt, size_t bt_len,
                       const uint16_t *fst, size_t fst_len,
                       const uint8_t *bst, size_t bst_len,
                       const uint32_t *wear, size_t wear_len,
                       uint64_t *marks, size_t marks_len,
                       uint32_t *stamps, size_t stamps_len,
                       uint32_t cluster);

/*
 * Why sector lba reads as it does, and what a write of it would do.  The list
 * must have CNFTL_WHY_ENTRIES entries; another list_len is reply 2, after 1.
 * With reply 0 and 7 all entries are filled, with the others the list stays as
 * it was.  With reply 7 entry CNFTL_WHY_RULE is the first rule of an orderly
 * state that is broken, and those after it are 0.  With reply 0 the entries say
 * where the sector's cluster is held, and give the forecast of a write: a
 * cnftl_write of sectors of this cluster that is accepted as the next call
 * takes frame CNFTL_WHY_TAKES of virtual block CNFTL_WHY_TARGET, programs
 * alpha*(CNFTL_WHY_COPIES + 1) pages, and erases 1 block exactly if
 * CNFTL_WHY_WRITE is CNFTL_WRITE_RECLAIMS.  CNFTL_WHY_LOOKS is the number of
 * spare areas that such a write, or a cnftl_read of this cluster as the next
 * call, looks at to find the frame that holds it: those of the programmed
 * frames of segment CNFTL_WHY_SEGMENT from the last one down to that frame, it
 * included.  Copies are not counted, and it is 0 where no frame is held.  Where
 * the region has no stamp left, a write of the cluster is refused with 9, and
 * where it needs a free block and there is none, with 10: CNFTL_WHY_WRITE is
 * then that number and the three entries after it are 0; the others are as
 * always.
 * Replies 1, 2, 4, 7, 0.  Counts: 0 and 0.  Writes list only, and that only
 * with reply 0 and 7.
 */
uint64_t cnftl_why(uint32_t s, uint32_t alpha, uint32_t beta, uint32_t d,
                   uint32_t mu, uint32_t gamma, uint32_t c, uint32_t n,
                   uint32_t e,
                   const uint8_t *chip, size_t chip_len,
                   const uint16_t *ct, size_t ct_len,
                   const uint16_t *bt, size_t bt_len,
                   const uint16_t *fst, size_t fst_len,
                   const uint8_t *bst, size_t bst_len,
                   const uint32_t *wear, size_t wear_len,
                   const uint64_t *marks, size_t marks_len,
                   const uint32_t *stamps, size_t stamps_len,
                   uint32_t lba,
                   uint32_t *list, size_t list_len);

/*
 * Four calls with a budget: they leave what the plain call would leave if the
 * power went while it works.  They are for tests of how a firmware, and a board
 * with it, comes back from a power loss; in service none of them is needed.
 *
 * A budget is a number of page programs and block erases, and the mark of a
 * worn block is one such program.  Once past its refusals, such a call stops as
 * soon as it has made that many, each of them whole: it is cut.  It is cut
 * after its very last one too, so it finishes exactly if it makes fewer than
 * budget.  With budget 0 it stops before the first, and so does then a call
 * that would make none: a start with nothing to erase, and a queue whose
 * requests are all refused or whose board is not orderly.  A write programs its
 * copies first, frame by frame and page by page, then erases the block that it
 * reclaims and marks it if it is worn, and then programs the pages of its own
 * frame; a queue does so request by request; a format and a start erase in
 * rising order of the blocks, each mark right after its erase.  A cut between
 * an erase and its mark leaves the block erased, and the next start finds it
 * free.
 *
 * A call that finishes is the plain call: same answer, same bytes.  A call that
 * is refused gives the plain call's refusal with every budget, and changes
 * nothing.  A call that is cut returns 0, reply and counts.  It leaves the chip
 * as it then stands, the wear as counted so far, and in the other tables, which
 * a power loss takes away, all ones: 65,535 in ct, bt and fst, 255 in bst,
 * UINT64_MAX in marks and 4,294,967,295 in stamps.  A cut queue leaves the
 * answers of those requests by whose end fewer than budget were made; the
 * answer of the request that was cut short, and all after it, stay as they
 * were.  Fill the answers with UINT64_MAX before, which no request gets.
 *
 * To tell a cut call from a finished one, look at bst[0] after reply 0: it is
 * 255 exactly if the call was cut (cnftl_board_is_cut).  Only a queue on a
 * board that was not orderly before may finish and leave a 255 that it found.
 * To try every cut of a call, make it on copies of the board with budgets 0, 1,
 * 2 and so on, until it is not cut.
 *
 * What to call next: cnftl_start; after a cut format cnftl_format, which may be
 * refused with 6 since the erases of the cut one count.  Until then the board
 * is not orderly.  Where only calls and cuts have changed it since
 * its last finished format, that start is accepted and erases at most one
 * block.  Every accepted write then reads back, also each request that a cut
 * queue has answered with reply 0; the sectors of the write that was cut short
 * read all old or all new; and a released cluster with whole frames left comes
 * back with the latest.  A start that is cut is made again.
 */
uint64_t cnftl_format_cut(uint32_t s, uint32_t alpha, uint32_t beta,
                          uint32_t d, uint32_t mu, uint32_t gamma,
                          uint32_t c, uint32_t n, uint32_t e,
                          uint8_t *chip, size_t chip_len,
                          uint16_t *ct, size_t ct_len,
                          uint16_t *bt, size_t bt_len,
                          uint16_t *fst, size_t fst_len,
                          uint8_t *bst, size_t bst_len,
                          uint32_t *wear, size_t wear_len,
                          uint64_t *marks, size_t marks_len,
                          uint32_t *stamps, size_t stamps_len,
                          uint64_t budget);

uint64_t cnftl_write_cut(uint32_t s, uint32_t alpha, uint32_t beta,
                         uint32_t d, uint32_t mu, uint32_t gamma,
                         uint32_t c, uint32_t n, uint32_t e,
                         uint8_t *chip, size_t chip_len,
                         uint16_t *ct, size_t ct_len,
                         uint16_t *bt, size_t bt_len,
                         uint16_t *fst, size_t fst_len,
                         uint8_t *bst, size_t bst_len,
                         uint32_t *wear, size_t wear_len,
                         uint64_t *marks, size_t marks_len,
                         uint32_t *stamps, size_t stamps_len,
                         uint32_t lba, uint32_t count,
                         const uint8_t *data, size_t data_len,
                         uint64_t budget);

uint64_t cnftl_queue_cut(uint32_t s, uint32_t alpha, uint32_t beta,
                         uint32_t d, uint32_t mu, uint32_t gamma,
                         uint32_t c, uint32_t n, uint32_t e,
                         uint8_t *chip, size_t chip_len,
                         uint16_t *ct, size_t ct_len,
                         uint16_t *bt, size_t bt_len,
                         uint16_t *fst, size_t fst_len,
                         uint8_t *bst, size_t bst_len,
                         uint32_t *wear, size_t wear_len,
                         uint64_t *marks, size_t marks_len,
                         uint32_t *stamps, size_t stamps_len,
                         const uint32_t *requests, size_t requests_len,
                         const uint8_t *data, size_t data_len,
                         uint64_t *answers, size_t answers_len,
                         uint64_t budget);

uint64_t cnftl_start_cut(uint32_t s, uint32_t alpha, uint32_t beta,
                         uint32_t d, uint32_t mu, uint32_t gamma,
                         uint32_t c, uint32_t n, uint32_t e,
                         uint8_t *chip, size_t chip_len,
                         uint16_t *ct, size_t ct_len,
                         uint16_t *bt, size_t bt_len,
                         uint16_t *fst, size_t fst_len,
                         uint8_t *bst, size_t bst_len,
                         uint32_t *wear, size_t wear_len,
                         uint64_t *marks, size_t marks_len,
                         uint32_t *stamps, size_t stamps_len,
                         uint64_t budget);

/*
 * An answer is reply + 65,536 * programs + 4,294,967,296 * erases.
 * These take it apart.  The third count of a read and a write, the spare areas
 * looked at (document 02, T-08), is not in it: a cnftl_why tells it beforehand,
 * in entry CNFTL_WHY_LOOKS.
 */
static inline uint32_t cnftl_reply_of(uint64_t answer)
{
    return (uint32_t)(answer & 65535u);
}

static inline uint32_t cnftl_programs_of(uint64_t answer)
{
    return (uint32_t)((answer >> 16) & 65535u);
}

static inline uint32_t cnftl_erases_of(uint64_t answer)
{
    return (uint32_t)(answer >> 32);
}

/* A reply in words. */
static inline const char *cnftl_reply_text(uint32_t reply)
{
    switch (reply) {
    case CNFTL_ACCEPTED:        return "accepted";
    case CNFTL_BAD_PARAMETER:   return "a parameter is not allowed";
    case CNFTL_WRONG_LENGTH:    return "chip, table or list of wrong length";
    case CNFTL_BAD_COUNT:       return "the count is 0 or leaves the cluster";
    case CNFTL_BAD_ADDRESS:     return "the address is past the end";
    case CNFTL_WRONG_DATA:      return "the data does not fit the count";
    case CNFTL_TOO_FEW_BLOCKS:  return "too few good blocks";
    case CNFTL_NOT_ORDERLY:     return "the board is not orderly";
    case CNFTL_TOO_FEW_ANSWERS: return "fewer places for answers than requests";
    case CNFTL_NO_STAMP_LEFT:   return "the region has no stamp left";
    case CNFTL_NO_BLOCK_LEFT:   return "no free block is left for the write";
    default:                    return "unknown reply";
    }
}

/* A broken rule of an orderly state in words: what is wrong. */
static inline const char *cnftl_rule_text(uint32_t rule)
{
    switch (rule) {
    case CNFTL_RULE_NONE:
        return "no rule is broken";
    case CNFTL_RULE_BST:
        return "a BST entry is not 0, 1 or 2";
    case CNFTL_RULE_BT:
        return "a BT entry is neither none nor a block of the chip";
    case CNFTL_RULE_TWICE:
        return "BT names a block twice";
    case CNFTL_RULE_USED:
        return "a block is used and not named by BT, or named and not used";
    case CNFTL_RULE_ENOUGH:
        return "too few blocks are not reserved";
    case CNFTL_RULE_FREE:
        return "a free block is not erased throughout";
    case CNFTL_RULE_USED_BLOCK:
        return "a used block does not begin with frames of its virtual "
               "block and go on erased";
    case CNFTL_RULE_FST:
        return "FST does not name the open block's last segment, or two "
               "blocks are not full";
    case CNFTL_RULE_CT:
        return "a CT entry names a segment that does not hold its cluster";
    case CNFTL_RULE_MARKS:
        return "a mark is 1 where no frame is valid, or 0 where one is";
    case CNFTL_RULE_STAMPS:
        return "a page has a larger stamp than the last one of its region";
    default:
        return "unknown rule";
    }
}

/*
 * 1 if the parameters are allowed, else 0: the calls answer reply 1 exactly
 * when this is 0.
 */
static inline int cnftl_params_allowed(const struct cnftl_params *p)
{
    return p->s >= 16 && p->s <= 512
        && p->alpha >= 1 && p->alpha <= 16
        && p->beta >= 1 && p->beta <= 16
        && p->d >= 1 && p->d <= 16
        && p->mu >= 1 && p->mu <= 1024
        && p->gamma >= 1 && p->gamma <= 16
        && p->c >= 1 && p->c <= 1048576
        && p->n >= 1 && p->n <= 65535
        && p->e >= 1 && p->e <= 1000000
        && p->alpha * p->beta * p->d <= 256
        && (p->c + p->mu - 1) / p->mu <= p->gamma * p->beta * p->d - 1;
}

/*
 * Sizes of a board, for allowed parameters: P, the bytes of a page and of the
 * chip, the entries of each table, the bytes of all seven tables together, and
 * the sectors that the board offers.
 * The largest chip has over 8 GiB, more than a 32-bit size_t can say.
 */
static inline size_t cnftl_pages_per_block(const struct cnftl_params *p)
{
    return (size_t)p->alpha * p->beta * p->d;
}

static inline size_t cnftl_page_bytes(const struct cnftl_params *p)
{
    return (size_t)p->s + CNFTL_SPARE_BYTES;
}

static inline size_t cnftl_chip_bytes(const struct cnftl_params *p)
{
    return p->n * cnftl_pages_per_block(p) * cnftl_page_bytes(p);
}

static inline size_t cnftl_ct_entries(const struct cnftl_params *p)
{
    return p->c;
}

static inline size_t cnftl_bt_entries(const struct cnftl_params *p)
{
    return (size_t)p->mu * p->gamma;
}

static inline size_t cnftl_fst_entries(const struct cnftl_params *p)
{
    return p->mu;
}

static inline size_t cnftl_bst_entries(const struct cnftl_params *p)
{
    return p->n;
}

static inline size_t cnftl_wear_entries(const struct cnftl_params *p)
{
    return p->n;
}

static inline size_t cnftl_marks_entries(const struct cnftl_params *p)
{
    return (size_t)CNFTL_MARK_WORDS * p->mu * p->gamma;
}

static inline size_t cnftl_stamps_entries(const struct cnftl_params *p)
{
    return p->mu;
}

static inline size_t cnftl_table_bytes(const struct cnftl_params *p)
{
    return sizeof(uint16_t) * (cnftl_ct_entries(p) + cnftl_bt_entries(p)
                               + cnftl_fst_entries(p))
         + sizeof(uint8_t) * cnftl_bst_entries(p)
         + sizeof(uint32_t) * cnftl_wear_entries(p)
         + sizeof(uint64_t) * cnftl_marks_entries(p)
         + sizeof(uint32_t) * cnftl_stamps_entries(p);
}

static inline uint32_t cnftl_sectors(const struct cnftl_params *p)
{
    return p->c * p->alpha;
}

/*
 * The sectors of a region, for allowed parameters, an lba below cnftl_sectors
 * and a region below mu: the region of a sector, how many clusters and how many
 * sectors a region has (none from region c on, where c is less than mu), and
 * its i-th sector, from 0 on and in rising order, for i below
 * cnftl_region_sectors.
 */
static inline uint32_t cnftl_region_of(const struct cnftl_params *p,
                                       uint32_t lba)
{
    return lba / p->alpha % p->mu;
}

static inline uint32_t cnftl_region_clusters(const struct cnftl_params *p,
                                             uint32_t region)
{
    return p->c / p->mu + (region < p->c % p->mu);
}

static inline uint32_t cnftl_region_sectors(const struct cnftl_params *p,
                                            uint32_t region)
{
    return cnftl_region_clusters(p, region) * p->alpha;
}

static inline uint32_t cnftl_region_lba(const struct cnftl_params *p,
                                        uint32_t region, uint32_t i)
{
    return (i / p->alpha * p->mu + region) * p->alpha + i % p->alpha;
}

/*
 * Data sheet figure of a region below mu, for allowed parameters: G, the
 * region's spare frames, which are gamma*F less its clusters, divided by gamma
 * and rounded up (document 02, T-10).  An accepted write to the region that
 * erases a block is followed by at least G - 1 accepted writes to it that do
 * not, so any k accepted writes to it in a row bring at most k/G erases,
 * rounded up.  That holds from an accepted format on, over single writes and
 * the items of queues alike, and whatever goes to other regions in between.
 * 1 is the worst: a full region may erase at every write.
 */
static inline uint32_t cnftl_writes_per_erase(const struct cnftl_params *p,
                                              uint32_t region)
{
    uint32_t frames = p->gamma * p->beta * p->d;
    uint32_t spare = frames - cnftl_region_clusters(p, region);

    return (spare + p->gamma - 1) / p->gamma;
}

/*
 * A board for the shorter calls below, which pass the parameters and
 * the right lengths.  The arrays must have the sizes given above.
 */
struct cnftl_board {
    struct cnftl_params params;
    uint8_t *chip;
    uint16_t *ct;
    uint16_t *bt;
    uint16_t *fst;
    uint8_t *bst;
    uint32_t *wear;
    uint64_t *marks;
    uint32_t *stamps;
};

/* The parameters and the slices of a board, as each call takes them first. */
#define CNFTL_BOARD(b)                                                         \
    (b)->params.s, (b)->params.alpha, (b)->params.beta, (b)->params.d,         \
    (b)->params.mu, (b)->params.gamma, (b)->params.c, (b)->params.n,           \
    (b)->params.e,                                                             \
    (b)->chip, cnftl_chip_bytes(&(b)->params),                                 \
    (b)->ct, cnftl_ct_entries(&(b)->params),                                   \
    (b)->bt, cnftl_bt_entries(&(b)->params),                                   \
    (b)->fst, cnftl_fst_entries(&(b)->params),                                 \
    (b)->bst, cnftl_bst_entries(&(b)->params),                                 \
    (b)->wear, cnftl_wear_entries(&(b)->params),                               \
    (b)->marks, cnftl_marks_entries(&(b)->params),                             \
    (b)->stamps, cnftl_stamps_entries(&(b)->params)

static inline uint64_t cnftl_board_format(const struct cnftl_board *b)
{
    return cnftl_format(CNFTL_BOARD(b));
}

static inline uint64_t cnftl_board_start(const struct cnftl_board *b)
{
    return cnftl_start(CNFTL_BOARD(b));
}

static inline uint64_t cnftl_board_read(const struct cnftl_board *b,
                                        uint32_t lba, uint32_t count,
                                        uint8_t *data, size_t data_len)
{
    return cnftl_read(CNFTL_BOARD(b), lba, count, data, data_len);
}

static inline uint64_t cnftl_board_write(const struct cnftl_board *b,
                                         uint32_t lba, uint32_t count,
                                         const uint8_t *data, size_t data_len)
{
    return cnftl_write(CNFTL_BOARD(b), lba, count, data, data_len);
}

/*
 * The requests as structs; there is an answer for each of them.  With 0
 * requests nothing is read or written through requests, data and answers, but
 * none of them may be null: pass the address of any cnftl_request, uint8_t and
 * uint64_t, and data_len 0.
 */
static inline uint64_t cnftl_board_queue(const struct cnftl_board *b,
                                         const struct cnftl_request *requests,
                                         size_t requests_count,
                                         const uint8_t *data, size_t data_len,
                                         uint64_t *answers)
{
    return cnftl_queue(CNFTL_BOARD(b), &requests->lba, 3 * requests_count,
                       data, data_len, answers, requests_count);
}

static inline uint64_t cnftl_board_release(const struct cnftl_board *b,
                                           uint32_t cluster)
{
    return cnftl_release(CNFTL_BOARD(b), cluster);
}

static inline uint64_t cnftl_board_why(const struct cnftl_board *b,
                                       uint32_t lba, uint32_t *list)
{
    return cnftl_why(CNFTL_BOARD(b), lba, list, CNFTL_WHY_ENTRIES);
}

/* The calls with a budget, and whether the last of them was cut. */
static inline uint64_t cnftl_board_format_cut(const struct cnftl_board *b,
                                              uint64_t budget)
{
    return cnftl_format_cut(CNFTL_BOARD(b), budget);
}

static inline uint64_t cnftl_board_write_cut(const struct cnftl_board *b,
                                             uint32_t lba, uint32_t count,
                                             const uint8_t *data,
                                             size_t data_len, uint64_t budget)
{
    return cnftl_write_cut(CNFTL_BOARD(b), lba, count, data, data_len, budget);
}

static inline uint64_t
cnftl_board_queue_cut(const struct cnftl_board *b,
                      const struct cnftl_request *requests,
                      size_t requests_count, const uint8_t *data,
                      size_t data_len, uint64_t *answers, uint64_t budget)
{
    return cnftl_queue_cut(CNFTL_BOARD(b), &requests->lba, 3 * requests_count,
                           data, data_len, answers, requests_count, budget);
}

static inline uint64_t cnftl_board_start_cut(const struct cnftl_board *b,
                                             uint64_t budget)
{
    return cnftl_start_cut(CNFTL_BOARD(b), budget);
}

static inline int cnftl_board_is_cut(const struct cnftl_board *b)
{
    return b->bst[0] == 255;
}

#ifdef __cplusplus
}
#endif

#endif
