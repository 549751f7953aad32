/*
 * model.c - document 01, with the requests of 02 that have landed, in C, in its
 * own order and with its own sentences.
 *
 * Quoted comments are sentences of the document, with Greek letters spelt out.
 * The lines that ask for a MUTANT are wrong on purpose and sleep while
 * model_mutant is 0.
 */
#include "model.h"

#include <assert.h>
#include <setjmp.h>
#include <stdbool.h>
#include <stdlib.h>
#include <string.h>

int model_mutant = MODEL_RIGHT;
uint32_t model_looks, model_item_looks[MODEL_ITEMS];

#define MODEL_MUTANT_NAME(id, name) name,
const char *const MODEL_MUTANTS[MODEL_MUTANT_COUNT] = {
    "the right model",
    MODEL_MUTANT_LIST(MODEL_MUTANT_NAME)
    MODEL_ITEM_MUTANT_LIST(MODEL_MUTANT_NAME)
};

#define MUTANT(id) (model_mutant == MODEL_##id)

/* ==== Parameters ======================================================= */

enum { SPARE = 16, NONE = 65535, ERASED = 255 };
enum { FREE = 0, USED = 1, RESERVED = 2 };
enum { MOST_REGIONS = 1024 };

/* The nine parameters, with F and P worked out. */
struct params {
    uint32_t s, alpha, beta, d, mu, gamma, c, n, e;
    uint32_t f, p;
};

/* "F = beta*d frames make a block, P = alpha*F pages" */
static struct params make_params(uint32_t s, uint32_t alpha, uint32_t beta,
                                 uint32_t d, uint32_t mu, uint32_t gamma,
                                 uint32_t c, uint32_t n, uint32_t e)
{
    struct params p = { s, alpha, beta, d, mu, gamma, c, n, e, 0, 0 };

    p.f = beta * d;
    p.p = alpha * p.f;
    return p;
}

/* Whether a parameter lies in the range that the table allows it. */
static bool within(uint32_t value, uint32_t low, uint32_t high)
{
    return low <= value && value <= high;
}

/* "P at most 256. C/mu rounded up is at most gamma*F - 1." and the table.
   T-12: "Add a ninth parameter E, 1 to 1,000,000". */
static bool parameters_allowed(const struct params *p)
{
    uint32_t most;

    if (!within(p->s, 16, 512) || !within(p->alpha, 1, 16)
        || !within(p->beta, 1, 16) || !within(p->d, 1, 16)
        || !within(p->mu, 1, 1024) || !within(p->gamma, 1, 16)
        || !within(p->c, 1, MUTANT(C_UNBOUNDED) ? 2097152 : 1048576)
        || !within(p->n, 1, 65535)
        || !within(p->e, MUTANT(E_ZERO) ? 0 : 1,
                   MUTANT(E_PAST) ? 1000001 : 1000000))
        return false;
    if (p->p > 256 && !MUTANT(P_UNBOUNDED))
        return false;
    most = MUTANT(GAMMA_F) ? p->gamma * p->f : p->gamma * p->f - 1;
    if (MUTANT(PER_REGION_DOWN))
        return p->c / p->mu <= most;
    return (p->c + p->mu - 1) / p->mu <= most;
}

/* ==== Numbers and tables =============================================== */

/* The lent state as every step reads it. */
struct view {
    struct params p;
    const uint8_t *chip;
    const uint16_t *ct, *bt, *fst;
    const uint8_t *bst;
    const uint32_t *wear;
    const uint64_t *marks;
    const uint32_t *stamps;
};

/* The same state as format and write change it. */
struct lent {
    struct view v;
    uint8_t *chip;
    uint16_t *ct, *bt, *fst;
    uint8_t *bst;
    uint32_t *wear;
    uint64_t *marks;
    uint32_t *stamps;
};

/* The lengths of the eight lent slices in elements. */
struct lengths {
    size_t chip, ct, bt, fst, bst, wear, marks, stamps;
};

/* Whether one slice has the length that it should have. */
static bool length_right(size_t given, uint64_t right)
{
    return MUTANT(LENGTH_AT_LEAST) ? given >= right : given == right;
}

/* "the chip is N*P*(s+16) bytes"; CT per cluster; BT per region and virtual
   block; FST per region; BST and wear per block.  T-06: "four 64-bit words for
   each region and virtual block".  T-07: "A new lent table holds each region's
   last stamp". */
static bool lengths_right(const struct params *p, const struct lengths *l)
{
    uint64_t page = (uint64_t)p->s + SPARE;

    return length_right(l->chip, (uint64_t)p->n * p->p * page)
        && length_right(l->ct, p->c)
        && length_right(l->bt, (uint64_t)p->mu * p->gamma)
        && length_right(l->fst, p->mu)
        && length_right(l->bst, p->n)
        && (MUTANT(WEAR_LENGTH) || length_right(l->wear, p->n))
        && (MUTANT(MARKS_LENGTH)
            || length_right(l->marks, (uint64_t)4 * p->mu * p->gamma))
        && (MUTANT(STAMPS_LENGTH) || length_right(l->stamps, p->mu));
}

/* "Cluster = LBA / alpha rounded down." */
static uint32_t cluster_of(const struct params *p, uint32_t lba)
{
    return lba / p->alpha;
}

/* "Region = cluster mod mu." */
static uint32_t region_of(const struct params *p, uint32_t cluster)
{
    return cluster % p->mu;
}

/* "its virtual block is segment / d rounded down" */
static uint32_t virtual_of(const struct params *p, uint32_t segment)
{
    return segment / p->d;
}

/* "segment mod d is its place in that block": its first frame there. */
static uint32_t first_frame_of(const struct params *p, uint32_t segment)
{
    return segment % p->d * p->beta;
}

/* The segment, counted within the region, of a frame of a virtual block. */
static uint32_t segment_of(const struct params *p, uint32_t virtual_block,
                           uint32_t frame)
{
    return virtual_block * p->d + frame / p->beta;
}

/* "BT: a 16-bit physical block per region and virtual block, region first." */
static size_t bt_index(const struct params *p, uint32_t region,
                       uint32_t virtual_block)
{
    return (size_t)region * p->gamma + virtual_block;
}

/* The physical block that BT names for a region's virtual block, or NONE. */
static uint32_t block_of(const struct view *v, uint32_t region,
                         uint32_t virtual_block)
{
    return v->bt[bt_index(&v->p, region, virtual_block)];
}

/* "A page is s data bytes and then 16 spare bytes, ... pages in block order" */
static size_t page_bytes(const struct params *p)
{
    return (size_t)p->s + SPARE;
}

/* Where in the chip a page begins: block, frame in it, place in the frame. */
static size_t page_at(const struct params *p, uint32_t block, uint32_t frame,
                      uint32_t place)
{
    size_t page = (size_t)block * p->p + (size_t)frame * p->alpha + place;

    return page * page_bytes(p);
}

/* The spare bytes of a page. */
static const uint8_t *spare_at(const struct view *v, uint32_t block,
                               uint32_t frame, uint32_t place)
{
    return v->chip + page_at(&v->p, block, frame, place) + v->p.s;
}

/* "Spare bytes of a programmed page: 0 to 3 cluster number, low byte first" */
static uint32_t cluster_in(const uint8_t *spare)
{
    return spare[0] | (uint32_t)spare[1] << 8 | (uint32_t)spare[2] << 16
         | (uint32_t)spare[3] << 24;
}

/* T-07: "Spare bytes 7 to 10 take a stamp, .. low byte first" */
static uint32_t stamp_in(const uint8_t *spare)
{
    uint32_t stamp = 0;

    for (int i = 0; i < 4; i++)
        stamp |= (uint32_t)spare[7 + i]
            << 8 * (MUTANT(STAMP_HIGH_FIRST) ? 3 - i : i);
    return stamp;
}

/* What the spare bytes of all pages of a frame say alike. */
struct label {
    uint32_t cluster, stamp, virtual_block;
};

/* "4 the sector's place in its cluster; 5 always 255; 6 zero"; T-07: "7 to 10
   take a stamp, .. and byte 11 the virtual block"; 12 to 15 stay 255. */
static bool spare_right(const uint8_t *spare, const struct label *label,
                        uint32_t place)
{
    if (cluster_in(spare) != label->cluster)
        return false;
    if (spare[4] != place && !MUTANT(PLACE_BYTE))
        return false;
    if (spare[5] != 255 && !MUTANT(MARK_BYTE))
        return false;
    if (spare[6] != 0)
        return false;
    if (stamp_in(spare) != label->stamp && !MUTANT(MIXED_STAMPS))
        return false;
    if (spare[11] != label->virtual_block && !MUTANT(VIRTUAL_BYTE))
        return false;
    for (int i = 12; i < SPARE && !MUTANT(TAIL_BYTES); i++)
        if (spare[i] != 255)
            return false;
    return true;
}

/* "An erased page is 255 throughout." */
static bool page_erased(const struct view *v, uint32_t block, uint32_t frame,
                        uint32_t place)
{
    const uint8_t *page = v->chip + page_at(&v->p, block, frame, place);

    for (size_t i = 0; i < page_bytes(&v->p); i++)
        if (page[i] != ERASED)
            return false;
    return true;
}

/* Whether every page of a frame is erased. */
static bool frame_erased(const struct view *v, uint32_t block, uint32_t frame)
{
    for (uint32_t place = 0; place < v->p.alpha; place++)
        if (!page_erased(v, block, frame, place))
            return false;
    return true;
}

/* "The alpha pages of a frame hold one cluster in order."  T-07: they have "a
   stamp, one for all pages of a frame", and the virtual block; "A frame with
   only its first pages programmed counts as programmed"; its others are
   erased. */
static bool frame_programmed(const struct view *v, uint32_t virtual_block,
                             uint32_t block, uint32_t frame)
{
    const uint8_t *first = spare_at(v, block, frame, 0);
    struct label label = {
        cluster_in(first), stamp_in(first), virtual_block
    };
    uint32_t place = 0;

    while (place < v->p.alpha
           && spare_right(spare_at(v, block, frame, place), &label, place))
        place++;
    if (place == 0)
        return false;
    if (MUTANT(FIRST_PAGE_ONLY))
        return true;
    if (place < v->p.alpha && MUTANT(BEGUN_REFUSED))
        return false;
    for (; place < v->p.alpha; place++)
        if (!page_erased(v, block, frame, place))
            return false;
    return true;
}

/* Whether a frame is programmed, or begun, in a block where each frame is that
   or erased (spare byte 6 of its first page parts the two). */
static bool frame_taken(const struct view *v, uint32_t block, uint32_t frame)
{
    return spare_at(v, block, frame, 0)[6] == 0;
}

/* Whether all pages of such a frame are programmed, which its last one tells.
   T-07: a frame of which only the first are "is never valid and hides no
   earlier frame". */
static bool frame_whole(const struct view *v, uint32_t block, uint32_t frame)
{
    return spare_at(v, block, frame, v->p.alpha - 1)[6] == 0;
}

/* Whether a frame of such a block is whole and holds this cluster. */
static bool frame_holds(const struct view *v, uint32_t block, uint32_t frame,
                        uint32_t cluster)
{
    uint32_t place = MUTANT(BEGUN_HIDES) ? 0 : v->p.alpha - 1;

    return spare_at(v, block, frame, place)[6] == 0
        && cluster_in(spare_at(v, block, frame, place)) == cluster;
}

/* "A frame is valid if its cluster's CT entry names its segment and no later
   frame of that segment holds the same cluster." */
static bool frame_valid(const struct view *v, uint32_t region,
                        uint32_t virtual_block, uint32_t frame)
{
    uint32_t block = block_of(v, region, virtual_block);
    uint32_t cluster = cluster_in(spare_at(v, block, frame, 0));
    uint32_t segment = segment_of(&v->p, virtual_block, frame);
    uint32_t first = first_frame_of(&v->p, segment);

    if (!(MUTANT(BEGUN_VALID) ? frame_taken(v, block, frame)
                              : frame_whole(v, block, frame))
        || cluster >= v->p.c || v->ct[cluster] != segment)
        return false;
    if (MUTANT(FIRST_FRAME)) {
        for (uint32_t g = first; g < frame; g++)
            if (frame_holds(v, block, g, cluster))
                return false;
        return true;
    }
    for (uint32_t later = frame + 1; later < first + v->p.beta; later++)
        if (frame_holds(v, block, later, cluster))
            return false;
    return true;
}

/* Where a word of the marks stands: "four 64-bit words for each region and
   virtual block". */
static size_t marks_index(const struct params *p, uint32_t region,
                          uint32_t virtual_block, uint32_t word)
{
    if (MUTANT(MARKS_LAYOUT))
        return 4 * ((size_t)virtual_block * p->mu + region) + word;
    return 4 * bt_index(p, region, virtual_block) + word;
}

/* What the mark of a frame should be: "each mark equals the validity rule",
   "Marks from F up are zero, and so are those of a virtual block without a
   physical block." */
static bool right_mark(const struct view *v, uint32_t region,
                       uint32_t virtual_block, uint32_t frame)
{
    return frame < v->p.f && block_of(v, region, virtual_block) != NONE
        && frame_valid(v, region, virtual_block, frame);
}

/* What a word should be: "the mark of frame f stands at bit f mod 64 of word
   f / 64". */
static uint64_t right_word(const struct view *v, uint32_t region,
                           uint32_t virtual_block, uint32_t word)
{
    uint64_t bits = 0;

    for (uint32_t frame = 0; frame < 256; frame++)
        if (frame / 64 == word && right_mark(v, region, virtual_block, frame))
            bits |= UINT64_C(1) << (MUTANT(MARK_BIT) ? frame / 64
                                                     : frame % 64);
    return bits;
}

/* ==== When a state is orderly ========================================== */

/* "BST holds 0, 1 or 2." */
static bool bst_entries_orderly(const struct view *v)
{
    for (uint32_t b = 0; b < v->p.n; b++)
        if (v->bst[b] > RESERVED && !MUTANT(BST_VALUE))
            return false;
    return true;
}

/* "BT entries are none or below N" */
static bool bt_entries_orderly(const struct view *v)
{
    for (size_t i = 0; i < (size_t)v->p.mu * v->p.gamma; i++)
        if (v->bt[i] != NONE && v->bt[i] >= v->p.n)
            return false;
    return true;
}

/* "no block is named twice" */
static bool no_block_named_twice(const struct view *v)
{
    size_t entries = (size_t)v->p.mu * v->p.gamma;

    for (size_t i = 0; i < entries; i++)
        for (size_t j = i + 1; j < entries && v->bt[i] != NONE; j++)
            if (v->bt[i] == v->bt[j] && !MUTANT(NAMED_TWICE))
                return false;
    return true;
}

/* Whether some BT entry names the block. */
static bool block_named(const struct view *v, uint32_t block)
{
    for (size_t i = 0; i < (size_t)v->p.mu * v->p.gamma; i++)
        if (v->bt[i] == block)
            return true;
    return false;
}

/* "a block is used exactly if BT names it" */
static bool used_exactly_if_named(const struct view *v)
{
    for (size_t i = 0; i < (size_t)v->p.mu * v->p.gamma; i++)
        if (v->bt[i] != NONE && v->bst[v->bt[i]] != USED
            && !MUTANT(NAMED_NOT_USED))
            return false;
    for (uint32_t b = 0; b < v->p.n; b++)
        if (v->bst[b] == USED && !block_named(v, b) && !MUTANT(USED_NOT_NAMED))
            return false;
    return true;
}

/* "At least mu*gamma+1 blocks are not reserved."  T-12: "An orderly state no
   longer asks for" that; the rule keeps its place, and none breaks it. */
static bool enough_blocks(const struct view *v)
{
    uint32_t kept = 0;

    if (!MUTANT(BLOCKS_ASKED) && !MUTANT(BLOCK_ASKED))
        return true;
    for (uint32_t b = 0; b < v->p.n; b++)
        if (v->bst[b] != RESERVED)
            kept++;
    return kept >= (MUTANT(BLOCK_ASKED) ? 1 : v->p.mu * v->p.gamma + 1);
}

/* Whether every page of a block from a frame on is erased. */
static bool erased_from(const struct view *v, uint32_t block, uint32_t frame)
{
    for (; frame < v->p.f; frame++)
        if (!frame_erased(v, block, frame))
            return false;
    return true;
}

/* "Free blocks are erased throughout. Reserved blocks may hold anything." */
static bool free_blocks_erased(const struct view *v)
{
    for (uint32_t b = 0; b < v->p.n; b++) {
        if (v->bst[b] == FREE && !erased_from(v, b, 0)
            && !MUTANT(FREE_NOT_ERASED))
            return false;
        if (v->bst[b] == RESERVED && MUTANT(RESERVED_ERASED)
            && !erased_from(v, b, 0))
            return false;
    }
    return true;
}

/* A frame "with spare bytes as above and clusters below C of that region" */
static bool frame_orderly(const struct view *v, uint32_t region,
                          uint32_t virtual_block, uint32_t frame)
{
    uint32_t block = block_of(v, region, virtual_block);
    uint32_t cluster = cluster_in(spare_at(v, block, frame, 0));

    if (!frame_programmed(v, virtual_block, block, frame)
        || cluster >= v->p.c)
        return false;
    if (MUTANT(CT_NONE_REFUSED) && v->ct[cluster] == NONE)
        return false;
    return region_of(&v->p, cluster) == region || MUTANT(OTHER_REGION);
}

/* "In a used block the first k frames are programmed, k from 1 to F, ... The
   rest is erased." */
static bool used_block_orderly(const struct view *v, uint32_t region,
                               uint32_t virtual_block)
{
    uint32_t block = block_of(v, region, virtual_block), k = 0;

    while (k < v->p.f && frame_orderly(v, region, virtual_block, k))
        k++;
    if (k == 0 && !MUTANT(EMPTY_USED))
        return false;
    if (MUTANT(REST_NOT_ERASED))
        return k == v->p.f || !frame_taken(v, block, k);
    return erased_from(v, block, k);
}

/* The same of every block that BT names. */
static bool used_blocks_orderly(const struct view *v)
{
    for (uint32_t r = 0; r < v->p.mu; r++)
        for (uint32_t i = 0; i < v->p.gamma; i++)
            if (block_of(v, r, i) != NONE && !used_block_orderly(v, r, i))
                return false;
    return true;
}

/* How many frames of an orderly used block are programmed. */
static uint32_t frames_taken(const struct view *v, uint32_t block)
{
    uint32_t k = 0;

    while (k < v->p.f && frame_taken(v, block, k))
        k++;
    return k;
}

/* Whether the segment is that of the last of k frames of a virtual block. */
static bool names_last(const struct view *v, uint32_t segment,
                       uint32_t virtual_block, uint32_t k)
{
    if (MUTANT(FST_OFF_BY_ONE) || (MUTANT(EMPTY_USED) && k == 0))
        return virtual_of(&v->p, segment) == virtual_block;
    return segment == segment_of(&v->p, virtual_block, k - 1);
}

/* "FST is none exactly if the region has no block. Otherwise it names the
   segment of the last programmed frame of one of the region's blocks, the
   open block, and every other block of the region is full." */
static bool fst_entry_orderly(const struct view *v, uint32_t region)
{
    uint32_t blocks = 0, full = 0;
    uint32_t k[16];

    for (uint32_t i = 0; i < v->p.gamma; i++) {
        uint32_t block = block_of(v, region, i);

        k[i] = block == NONE ? 0 : frames_taken(v, block);
        blocks += block != NONE;
        full += block != NONE && k[i] == v->p.f;
    }
    if (blocks == 0 || v->fst[region] == NONE)
        return (blocks == 0 || MUTANT(FST_NONE)) && v->fst[region] == NONE;
    for (uint32_t i = 0; i < v->p.gamma; i++)
        if (block_of(v, region, i) != NONE
            && names_last(v, v->fst[region], i, k[i])
            && (full - (k[i] == v->p.f) == blocks - 1 || MUTANT(TWO_OPEN)))
            return true;
    return false;
}

/* The same of every region. */
static bool fst_entries_orderly(const struct view *v)
{
    for (uint32_t r = 0; r < v->p.mu; r++)
        if (!fst_entry_orderly(v, r))
            return false;
    return true;
}

/* Whether a segment of a region holds a whole frame of a cluster. */
static bool segment_holds(const struct view *v, uint32_t region,
                          uint32_t segment, uint32_t cluster)
{
    uint32_t block, first = first_frame_of(&v->p, segment);

    if (virtual_of(&v->p, segment) >= v->p.gamma)
        return false;
    block = block_of(v, region, virtual_of(&v->p, segment));
    if (block == NONE)
        return false;
    for (uint32_t frame = first; frame < first + v->p.beta; frame++)
        if (frame_holds(v, block, frame, cluster))
            return true;
    return MUTANT(CT_ELSEWHERE);
}

/* "A CT entry is none or names a segment, in its own region, that holds a
   programmed frame of that cluster"; T-07: one that is only begun does not
   count there. */
static bool ct_entries_orderly(const struct view *v)
{
    for (uint32_t x = 0; x < v->p.c; x++)
        if (v->ct[x] != NONE
            && !segment_holds(v, region_of(&v->p, x), v->ct[x], x))
            return false;
    return true;
}

/* The bits of a word that a mutant does not look at. */
static uint64_t unseen_bits(const struct view *v, uint32_t region,
                            uint32_t virtual_block, uint32_t word)
{
    uint64_t from_f = 0;

    for (uint32_t frame = 64 * word; frame < 64 * word + 64; frame++)
        if (frame >= v->p.f)
            from_f |= UINT64_C(1) << frame % 64;
    if (MUTANT(MARKS_UNCHECKED) || (MUTANT(MARKS_UNASSIGNED)
                && block_of(v, region, virtual_block) == NONE))
        return UINT64_MAX;
    return MUTANT(MARKS_FROM_F) ? from_f : 0;
}

/* T-06: "An orderly state now also says that each mark equals the validity
   rule." */
static bool marks_orderly(const struct view *v)
{
    for (uint32_t r = 0; r < v->p.mu; r++)
        for (uint32_t i = 0; i < v->p.gamma; i++)
            for (uint32_t w = 0; w < 4; w++)
                if ((v->marks[marks_index(&v->p, r, i, w)]
                     ^ right_word(v, r, i, w)) & ~unseen_bits(v, r, i, w))
                    return false;
    return true;
}

/* Whether no page of a block has a stamp above the region's last. */
static bool block_stamps_orderly(const struct view *v, uint32_t region,
                                 uint32_t block)
{
    for (uint32_t page = 0; page < v->p.p; page++) {
        uint32_t frame = page / v->p.alpha;
        const uint8_t *spare = spare_at(v, block, frame, page % v->p.alpha);

        if (spare[6] != 0
            || (MUTANT(BEGUN_STAMPS) && !frame_whole(v, block, frame)))
            continue;
        if (stamp_in(spare) > v->stamps[region]
            || (MUTANT(LAST_STAMP) && stamp_in(spare) == v->stamps[region]))
            return false;
    }
    return true;
}

/* T-07: "no page of an orderly region has a larger one" than the region's last
   stamp. */
static bool stamps_orderly(const struct view *v)
{
    for (uint32_t r = 0; r < v->p.mu && !MUTANT(STAMPS_UNCHECKED); r++)
        for (uint32_t i = 0; i < v->p.gamma; i++)
            if (block_of(v, r, i) != NONE
                && !block_stamps_orderly(v, r, block_of(v, r, i)))
                return false;
    return true;
}

/* The rules in the document's order, with T-06's and T-07's last; each relies
   on those before it. */
static bool (*const rules[])(const struct view *) = {
    bst_entries_orderly,
    bt_entries_orderly,
    no_block_named_twice,
    used_exactly_if_named,
    enough_blocks,
    free_blocks_erased,
    used_blocks_orderly,
    fst_entries_orderly,
    ct_entries_orderly,
    marks_orderly,
    stamps_orderly
};

enum { RULES = sizeof rules / sizeof *rules };

/* The number of the first rule that is broken, counted from 1, or 0. */
static uint32_t broken_rule(const struct view *v)
{
    for (uint32_t i = 0; i < RULES; i++)
        if (!rules[i](v))
            return i + 1;
    return 0;
}

/* Whether no rule is broken. */
static bool orderly(const struct view *v)
{
    return broken_rule(v) == 0;
}

/* ==== Budgets ========================================================== */

/* What a budget counts.  T-12: "These mark programs count in T-07's budget". */
enum operation { HOST_PAGE, COPIED_PAGE, BLOCK_ERASE, WORN_MARK, OPERATIONS };

/* T-07: "Power may go after any page program or block erase, each of them
   whole."  The power that the call being made has left, where it has a budget,
   what it has made so far, and where it goes when the power does. */
static struct {
    bool limited;
    uint64_t budget, left;
    uint32_t made[OPERATIONS];
    bool queue;      /* whether the call is a queue, */
    size_t answered; /* and how many items it has answered */
    jmp_buf gone;
} power;

/* Whether a mutant leaves an operation out of the budget. */
static bool costs_nothing(enum operation kind)
{
    return (MUTANT(CUT_COPIES_FREE) && kind == COPIED_PAGE)
        || (MUTANT(CUT_PROGRAMS_FREE) && kind != BLOCK_ERASE)
        || (MUTANT(CUT_ERASES_FREE) && kind == BLOCK_ERASE)
        || (MUTANT(CUT_MARKS_FREE) && kind == WORN_MARK);
}

/* The call goes no further if its budget is spent. */
static void stop_if_spent(void)
{
    if (power.limited && power.left == 0)
        longjmp(power.gone, 1);
}

/* "Once past its refusals": budget 0 is spent there. */
static void past_refusals(void)
{
    if (!MUTANT(CUT_IDLE))
        stop_if_spent();
}

/* An operation is about to be made; only mutants stop here. */
static void begin_operation(void)
{
    if (MUTANT(CUT_IDLE) || MUTANT(CUT_LAST) || MUTANT(CUT_LAST_ITEM))
        stop_if_spent();
}

/* An operation was made, "such a call stops when that many are made". */
static void end_operation(enum operation kind)
{
    power.made[kind]++;
    if (!power.limited || costs_nothing(kind))
        return;
    power.left--;
    if (!MUTANT(CUT_LAST) && !(MUTANT(CUT_LAST_ITEM) && power.queue))
        stop_if_spent();
}

/* ==== Steps ============================================================ */

/* A frame on the chip: its virtual block, its physical block, its number. */
struct spot {
    bool found;
    uint32_t virtual_block, block, frame;
};

/* Puts a stamp into spare bytes, "low byte first". */
static void put_stamp(uint8_t *spare, uint32_t stamp)
{
    for (int i = 0; i < 4; i++)
        spare[7 + i] =
            (uint8_t)(stamp >> 8 * (MUTANT(STAMP_HIGH_FIRST) ? 3 - i : i));
}

/* A page to be programmed: "Each page that the steps program is 255 throughout
   just before". */
static uint8_t *page_to_program(struct lent *l, const struct spot *at,
                                uint32_t place)
{
    begin_operation();
    assert(model_mutant != MODEL_RIGHT
           || page_erased(&l->v, at->block, at->frame, place));
    return l->chip + page_at(&l->v.p, at->block, at->frame, place);
}

/* Programs one page. */
static void program_page(struct lent *l, const struct spot *at, uint32_t place,
                         const struct label *label, const uint8_t *bytes)
{
    uint8_t *page = page_to_program(l, at, place);
    uint8_t *spare = page + l->v.p.s;
    uint32_t cluster = label->cluster;

    memcpy(page, bytes, l->v.p.s);
    spare[0] = (uint8_t)cluster;
    spare[1] = (uint8_t)(MUTANT(CLUSTER_8_BITS) ? 0 : cluster >> 8);
    spare[2] = (uint8_t)(MUTANT(CLUSTER_8_BITS) || MUTANT(CLUSTER_16_BITS)
                         ? 0 : cluster >> 16);
    spare[3] = (uint8_t)(MUTANT(CLUSTER_8_BITS) || MUTANT(CLUSTER_16_BITS)
                         ? 0 : cluster >> 24);
    spare[4] = (uint8_t)(MUTANT(SPARE_PLACE_0) ? 0 : place);
    spare[5] = 255;
    spare[6] = 0;
    put_stamp(spare, label->stamp);
    spare[11] = (uint8_t)label->virtual_block;
    memset(spare + 12, 255, SPARE - 12);
    end_operation(HOST_PAGE);
}

/* The i-th place of a frame that is programmed: they are "in order". */
static uint32_t place_in_turn(const struct params *p, uint32_t i)
{
    return MUTANT(CUT_PAGE_ORDER) ? p->alpha - 1 - i : i;
}

/* Programs the alpha pages of a frame with one cluster in order. */
static void program_frame(struct lent *l, const struct spot *at,
                          const struct label *label, const uint8_t *bytes)
{
    for (uint32_t i = 0; i < l->v.p.alpha; i++) {
        uint32_t place = place_in_turn(&l->v.p, i);

        program_page(l, at, place, label, bytes + place * l->v.p.s);
    }
}

/* Gathers the data bytes of a frame. */
static void load_frame(const struct view *v, const struct spot *at,
                       uint8_t *bytes)
{
    for (uint32_t place = 0; place < v->p.alpha; place++)
        memcpy(bytes + place * v->p.s,
               v->chip + page_at(&v->p, at->block, at->frame, place), v->p.s);
}

/* Erases a block: every byte becomes 255. */
static void erase_pages(struct lent *l, uint32_t block)
{
    memset(l->chip + page_at(&l->v.p, block, 0, 0), ERASED,
           l->v.p.p * page_bytes(&l->v.p));
}

/* "Wear: a 32-bit erase count per block, which stays at 4,294,967,295 once
   there." */
static void count_erase(struct lent *l, uint32_t block)
{
    if (MUTANT(CUT_WEAR_LATE) && power.limited && power.left == 1)
        return;
    if (l->wear[block] != UINT32_MAX || MUTANT(WEAR_WRAPS))
        l->wear[block]++;
}

/* "byte 5 of the spare area is not 255" in this page of a block. */
static bool mark_bad(const struct view *v, uint32_t block, uint32_t page)
{
    uint8_t mark = spare_at(v, block, page / v->p.alpha,
                            page % v->p.alpha)[5];

    return MUTANT(BAD_WHEN_ZERO) ? mark == 0 : mark != 255;
}

/* T-02: "A block is bad if byte 5 of the spare area is not 255 in page 0, or
   in page 1 where P is at least 2." */
static bool block_bad(const struct view *v, uint32_t block)
{
    bool first = mark_bad(v, block, MUTANT(BAD_IN_LAST_PAGE) ? v->p.p - 1 : 0);
    bool second = v->p.p >= 2 && mark_bad(v, block, 1);

    if (MUTANT(BAD_BEYOND_THE_BLOCK) && v->p.p == 1 && block + 1 < v->p.n)
        second = mark_bad(v, block + 1, 0);
    if (MUTANT(BAD_IN_BOTH))
        return v->p.p >= 2 ? first && second : first;
    if (MUTANT(BAD_IN_FIRST_ONLY))
        return first;
    return MUTANT(BAD_IN_SECOND_ONLY) ? second : first || second;
}

/* How many blocks are not bad. */
static uint32_t good_blocks(const struct view *v)
{
    uint32_t good = 0;

    for (uint32_t b = 0; b < v->p.n; b++)
        good += !block_bad(v, b);
    return good;
}

/* T-12: "When an erase .. brings a block's wear to E or more": whether a block
   with this wear after its erase is worn. */
static bool worn_at(const struct params *p, uint64_t wear)
{
    if (MUTANT(WORN_LATE))
        return wear > p->e;
    return MUTANT(WORN_EXACTLY) ? wear == p->e : wear >= p->e;
}

/* The same before the erase, which counts one more. */
static bool erase_wears_out(const struct view *v, uint32_t block)
{
    return worn_at(&v->p, (uint64_t)v->wear[block]
                          + !MUTANT(FORMAT_6_BY_WEAR));
}

/* T-12: "Format's 6 counts blocks still good after its erases". */
static uint32_t blocks_after_format(const struct view *v)
{
    uint32_t kept = 0;

    for (uint32_t b = 0; b < v->p.n; b++)
        kept += !block_bad(v, b)
             && (MUTANT(FORMAT_6_BY_BAD) || !erase_wears_out(v, b));
    return kept;
}

/* The marks of worn blocks that were programmed in all, for a mutant. */
static uint32_t marks_made;

/* "its first page gets a zero in spare byte 5" */
static void put_worn_mark(struct lent *l, uint32_t block)
{
    uint32_t page = MUTANT(WORN_SECOND_PAGE) && l->v.p.p >= 2;
    uint8_t *first = l->chip + page_at(&l->v.p, block, 0, 0);

    first[page * page_bytes(&l->v.p) + l->v.p.s
          + (MUTANT(WORN_BYTE_6) ? 6 : 5)] = 0;
}

/* Programs that mark: one operation. */
static void program_worn_mark(struct lent *l, uint32_t block)
{
    begin_operation();
    assert(model_mutant != MODEL_RIGHT || page_erased(&l->v, block, 0, 0));
    put_worn_mark(l, block);
    marks_made++;
    end_operation(WORN_MARK);
}

/* A block is about to be erased; a mutant marks it before that. */
static void begin_erase(struct lent *l, uint32_t block)
{
    if (MUTANT(WORN_MARK_FIRST) && erase_wears_out(&l->v, block))
        program_worn_mark(l, block);
    begin_operation();
}

/* A block was erased and its wear counted: it "becomes reserved" if that has
   worn it out, right after its mark, and else free. */
static void end_erase(struct lent *l, uint32_t block, bool left_free)
{
    bool worn = worn_at(&l->v.p, l->wear[block]);

    if (MUTANT(WORN_MARK_FIRST) && worn)
        put_worn_mark(l, block);
    end_operation(BLOCK_ERASE);
    l->bst[block] = worn && !left_free ? RESERVED : FREE;
    if (worn && !MUTANT(WORN_UNMARKED) && !MUTANT(WORN_MARK_FIRST))
        program_worn_mark(l, block);
}

/* What a call that has programmed so many marks before it reports for its own:
   they "are not reported". */
static uint32_t reported_marks(uint32_t before)
{
    return MUTANT(WORN_REPORTED) ? marks_made - before : 0;
}

/* "Bad blocks become reserved and are not touched. All others are erased (one
   erase each) and become free." */
static void format_block(struct lent *l, uint32_t block)
{
    if (block_bad(&l->v, block)) {
        l->bst[block] = RESERVED;
        if (MUTANT(FORMAT_ERASES_BAD))
            erase_pages(l, block);
        return;
    }
    begin_erase(l, block);
    erase_pages(l, block);
    if (MUTANT(FORMAT_CLEARS_WEAR))
        l->wear[block] = 0;
    if (!MUTANT(FORMAT_NO_WEAR))
        count_erase(l, block);
    end_erase(l, block, MUTANT(WORN_FREE_AT_FORMAT));
}

/* Works every mark out from the rule, as the chip and the tables now stand. */
static void work_out_marks(const struct view *v, uint64_t *marks)
{
    for (uint32_t r = 0; r < v->p.mu; r++)
        for (uint32_t i = 0; i < v->p.gamma; i++)
            for (uint32_t w = 0; w < 4; w++)
                marks[marks_index(&v->p, r, i, w)] = right_word(v, r, i, w);
}

/* Format, and then "CT, BT and FST become none."  T-07: "each region's last
   stamp, 32 bits, 0 at format". */
static void format_steps(struct lent *l)
{
    const struct params *p = &l->v.p;

    for (uint32_t b = 0; b < p->n; b++)
        format_block(l, MUTANT(CUT_FORMAT_ORDER) ? p->n - 1 - b : b);
    for (uint32_t x = 0; x < p->c; x++)
        l->ct[x] = NONE;
    for (size_t i = 0; i < (size_t)p->mu * p->gamma; i++)
        l->bt[i] = NONE;
    for (uint32_t r = 0; r < p->mu && !MUTANT(FORMAT_KEEPS_FST); r++)
        l->fst[r] = NONE;
    if (!MUTANT(FORMAT_KEEPS_MARKS))
        work_out_marks(&l->v, l->marks);
    for (uint32_t r = 0; r < p->mu && !MUTANT(FORMAT_KEEPS_STAMPS); r++)
        l->stamps[r] = 0;
}

/* The cluster's valid frame, which is not found if CT has none. */
static struct spot valid_frame(const struct view *v, uint32_t cluster)
{
    struct spot at = { false, 0, 0, 0 };
    uint32_t region = region_of(&v->p, cluster);
    uint32_t segment = v->ct[cluster], first;

    if (segment == NONE)
        return at;
    at.virtual_block = virtual_of(&v->p, segment);
    at.block = block_of(v, region, at.virtual_block);
    first = first_frame_of(&v->p, segment);
    for (uint32_t frame = first; frame < first + v->p.beta; frame++)
        if (frame_holds(v, at.block, frame, cluster)
            && frame_valid(v, region, at.virtual_block, frame)) {
            at.found = true;
            at.frame = frame;
        }
    return at;
}

/* The last programmed frame of a segment that has one, in its block. */
static uint32_t last_taken(const struct view *v, uint32_t block,
                           uint32_t segment)
{
    uint32_t frame = first_frame_of(&v->p, segment) + v->p.beta - 1;

    while (!frame_taken(v, block, frame) && !MUTANT(LOOKS_ERASED))
        frame--;
    return frame;
}

/* T-08: "The search for a valid frame in a segment goes from the last
   programmed frame of that segment down and looks at one spare area a frame."
   How many it looks at for this cluster; "0 where CT has none". */
static uint32_t looks_for(const struct view *v, uint32_t cluster)
{
    struct spot at = valid_frame(v, cluster);
    uint32_t segment = v->ct[cluster];

    if (!at.found)
        return MUTANT(LOOKS_NONE);
    if (MUTANT(LOOKS_UPWARD))
        return at.frame - first_frame_of(&v->p, segment) + 1;
    return last_taken(v, at.block, segment) - at.frame + !MUTANT(LOOKS_SHORT);
}

/* Read. "For each sector, the bytes at its place in the cluster's valid frame;
   255 if CT has none." */
static void read_steps(const struct view *v, uint32_t lba, uint32_t count,
                       uint8_t *data)
{
    struct spot at = valid_frame(v, cluster_of(&v->p, lba));
    uint32_t from = MUTANT(READ_PLACE_0) ? 0 : lba % v->p.alpha;

    for (uint32_t i = 0; i < count; i++) {
        uint8_t *sector = data + (size_t)i * v->p.s;

        if (at.found)
            memcpy(sector,
                   v->chip + page_at(&v->p, at.block, at.frame, from + i),
                   v->p.s);
        else
            memset(sector, 255, v->p.s);
    }
}

/* "The new cluster is the old one (all 255 if CT has none)": its old bytes. */
static void load_old(const struct view *v, const struct spot *old,
                     uint8_t *bytes)
{
    if (old->found && !MUTANT(NO_MERGE))
        load_frame(v, old, bytes);
    else
        memset(bytes, 255, (size_t)v->p.alpha * v->p.s);
}

/* Whether as many blocks as this are free. */
static bool blocks_free(const struct view *v, uint32_t wanted)
{
    uint32_t all = 0;

    for (uint32_t b = 0; b < v->p.n; b++)
        all += v->bst[b] == FREE;
    return all >= wanted;
}

/* "Free block. The one with the lowest wear, the lowest number on a tie."
   A write that needs one has one; block 0 stands in where a mutant has none. */
static uint32_t free_block(const struct view *v)
{
    bool found = false;
    uint32_t best = 0;

    for (uint32_t b = 0; b < v->p.n; b++) {
        if (v->bst[b] != FREE)
            continue;
        if (!found || (v->wear[b] < v->wear[best] && !MUTANT(FREE_BY_NUMBER))
            || (v->wear[b] == v->wear[best] && MUTANT(FREE_TIE)))
            best = b;
        found = true;
    }
    return best;
}

/* A free block is taken and BT names it for the virtual block. */
static void assign(struct lent *l, uint32_t region, uint32_t virtual_block,
                   uint32_t block)
{
    l->bst[block] = USED;
    l->bt[bt_index(&l->v.p, region, virtual_block)] = (uint16_t)block;
}

/* How many frames of a virtual block are valid. */
static uint32_t valid_frames(const struct view *v, uint32_t region,
                             uint32_t virtual_block)
{
    uint32_t block = block_of(v, region, virtual_block);
    uint32_t valid = 0;

    for (uint32_t frame = 0; frame < v->p.f; frame++) {
        uint32_t cluster = cluster_in(spare_at(v, block, frame, 0));

        if (MUTANT(THREE_WORDS) && frame / 64 == 3)
            continue;

        if (MUTANT(VICTIM_COUNTS_STALE))
            valid += frame_taken(v, block, frame)
                && v->ct[cluster] == segment_of(&v->p, virtual_block, frame);
        else
            valid += frame_valid(v, region, virtual_block, frame);
    }
    return valid;
}

/* "The victim is the virtual block with fewest valid frames, the lowest on a
   tie." */
static uint32_t victim_of(const struct view *v, uint32_t region)
{
    uint32_t victim = 0, fewest = valid_frames(v, region, 0);

    for (uint32_t i = 1; i < v->p.gamma && !MUTANT(VICTIM_ZERO); i++) {
        uint32_t valid = valid_frames(v, region, i);

        if (MUTANT(VICTIM_MOST) ? valid > fewest
            : MUTANT(VICTIM_TIE) ? valid <= fewest : valid < fewest) {
            victim = i;
            fewest = valid;
        }
    }
    return victim;
}

/* Whether a reclaim copies a frame of the victim: "The victim's valid frames,
   the old frame of the cluster being written included, are copied". */
static bool frame_copied(const struct view *v, uint32_t region,
                         uint32_t victim, uint32_t frame, uint32_t written)
{
    uint32_t block = block_of(v, region, victim);
    uint32_t cluster = cluster_in(spare_at(v, block, frame, 0));

    if (MUTANT(STALE_COPIED))
        return frame_taken(v, block, frame)
            && v->ct[cluster] == segment_of(&v->p, victim, frame);
    if (MUTANT(ALL_FRAMES_COPIED))
        return frame_taken(v, block, frame);
    if (MUTANT(OLD_NOT_COPIED) && cluster == written)
        return false;
    return frame_valid(v, region, victim, frame);
}

/* Where the last stamp of a cluster's region stands. */
static uint32_t stamp_index(const struct params *p, uint32_t cluster)
{
    return MUTANT(ONE_STAMP) ? 0 : region_of(p, cluster);
}

/* Whether the region of a cluster has no stamp left: a stamp has 32 bits. */
static bool no_stamp_left(const struct view *v, uint32_t cluster)
{
    return v->stamps[stamp_index(&v->p, cluster)]
        >= UINT32_MAX - MUTANT(STAMP_EARLY);
}

/* The stamp that a write of a cluster takes: one more than the last one of its
   region. */
static uint32_t next_stamp(const struct view *v, uint32_t cluster)
{
    return v->stamps[stamp_index(&v->p, cluster)] + 1;
}

/* "A host write takes the next" */
static void take_stamp(const struct lent *l, uint32_t cluster)
{
    l->stamps[stamp_index(&l->v.p, cluster)] = next_stamp(&l->v, cluster);
}

/* Copies one page of the victim as it is; T-07: "copies keep theirs", their
   stamps, and the virtual block is the same. */
static void copy_page(struct lent *l, uint32_t cluster,
                      const struct spot *from, const struct spot *to,
                      uint32_t place)
{
    const struct params *p = &l->v.p;
    uint8_t *page = page_to_program(l, to, place);

    memmove(page, l->chip + page_at(p, from->block, from->frame, place),
            page_bytes(p));
    if (MUTANT(COPY_STAMP))
        put_stamp(page + p->s, next_stamp(&l->v, cluster));
    end_operation(COPIED_PAGE);
}

/* Copies one frame of the victim and "CT follows each". */
static void copy_frame(struct lent *l, uint32_t cluster,
                       const struct spot *from, const struct spot *to)
{
    for (uint32_t i = 0; i < l->v.p.alpha; i++)
        copy_page(l, cluster, from, to, place_in_turn(&l->v.p, i));
    if (!MUTANT(CT_NOT_FOLLOWING))
        l->ct[cluster] =
            (uint16_t)segment_of(&l->v.p, to->virtual_block, to->frame);
}

/* Copies the victim's valid frames "to it in order from frame 0"; returns how
   many.  At most F - 1 are valid, so the write always has a frame left; only a
   mutant comes to the break. */
static uint32_t copy_frames(struct lent *l, uint32_t region, uint32_t victim,
                            uint32_t taken, uint32_t written)
{
    uint32_t f = l->v.p.f, copied = 0, order[256], clusters[256];
    uint32_t block = block_of(&l->v, region, victim);

    for (uint32_t i = 0; i < f; i++) {
        uint32_t frame = MUTANT(COPIES_BACKWARDS) ? f - 1 - i : i;

        if (!frame_copied(&l->v, region, victim, frame, written))
            continue;
        if (copied == f - 1)
            break;
        order[copied] = frame;
        clusters[copied++] = cluster_in(spare_at(&l->v, block, frame, 0));
    }
    if (MUTANT(ERASE_FIRST))
        erase_pages(l, block);
    for (uint32_t turn = 0; turn < copied; turn++) {
        uint32_t i = MUTANT(CUT_COPY_ORDER) ? copied - 1 - turn : turn;
        struct spot from = { true, victim, block, order[i] };
        struct spot to = { true, victim, taken, i + MUTANT(COPIES_FROM_1) };

        copy_frame(l, clusters[i], &from, &to);
    }
    return copied;
}

/* "The victim is erased and becomes free": its pages and its wear; or it is
   worn out. */
static void erase_victim(struct lent *l, uint32_t block)
{
    begin_erase(l, block);
    if (!MUTANT(VICTIM_NOT_ERASED))
        erase_pages(l, block);
    if (!MUTANT(RECLAIM_NO_WEAR))
        count_erase(l, block);
    end_erase(l, block, MUTANT(WORN_FREE_AT_RECLAIM));
    if (MUTANT(VICTIM_NOT_FREED))
        l->bst[block] = USED;
}

/* The same before the copies, which then come from memory, as a mutant does
   it. */
static uint32_t copy_after_erase(struct lent *l, uint32_t region,
                                 uint32_t victim, uint32_t taken,
                                 uint32_t written)
{
    static uint8_t before[256 * (512 + SPARE)];
    uint32_t old = block_of(&l->v, region, victim), copied = 0, f = l->v.p.f;
    size_t frame_bytes = l->v.p.alpha * page_bytes(&l->v.p);
    bool copy[256];

    memcpy(before, l->chip + page_at(&l->v.p, old, 0, 0), f * frame_bytes);
    for (uint32_t i = 0; i < f; i++)
        copy[i] = frame_copied(&l->v, region, victim, i, written);
    erase_victim(l, old);
    for (uint32_t i = 0; i < f; i++) {
        struct spot to = { true, victim, taken, copied };

        if (!copy[i])
            continue;
        for (uint32_t place = 0; place < l->v.p.alpha; place++) {
            memcpy(page_to_program(l, &to, place),
                   before + i * frame_bytes + place * page_bytes(&l->v.p),
                   page_bytes(&l->v.p));
            end_operation(COPIED_PAGE);
        }
        l->ct[cluster_in(before + i * frame_bytes + l->v.p.s)] =
            (uint16_t)segment_of(&l->v.p, victim, copied++);
    }
    return copied;
}

/* Reclaim. "A free block is taken. ... The victim is erased and becomes free;
   BT names the new block. The write takes the next frame." */
static struct spot reclaim(struct lent *l, uint32_t region, uint32_t written,
                           uint32_t *copied)
{
    uint32_t victim = victim_of(&l->v, region);
    uint32_t old = block_of(&l->v, region, victim);
    uint32_t taken = free_block(&l->v);
    struct spot at = { true, victim, taken, 0 };

    if (MUTANT(CUT_ERASE_FIRST)) {
        *copied = copy_after_erase(l, region, victim, taken, written);
    } else {
        *copied = copy_frames(l, region, victim, taken, written);
        if (!MUTANT(CUT_FRAME_FIRST))
            erase_victim(l, old);
    }
    assign(l, region, victim, taken);
    at.frame = MUTANT(COPIES_FROM_1) ? 0 : *copied;
    return at;
}

/* "It goes to the lowest erased frame of the open block." */
static struct spot open_frame(const struct view *v, uint32_t region)
{
    struct spot at = { false, 0, 0, 0 };

    if (v->fst[region] == NONE)
        return at;
    at.virtual_block = virtual_of(&v->p, v->fst[region]);
    at.block = block_of(v, region, at.virtual_block);
    at.frame = frames_taken(v, at.block);
    at.found = at.frame < v->p.f;
    return at;
}

/* "the lowest virtual block without a physical block takes a free block,
   frame 0" */
static struct spot new_frame(struct lent *l, uint32_t region)
{
    struct spot at = { false, 0, 0, 0 };

    for (uint32_t i = 0; i < l->v.p.gamma; i++)
        if (block_of(&l->v, region, i) == NONE
            && (!at.found || MUTANT(VIRTUAL_HIGHEST))) {
            at.found = true;
            at.virtual_block = i;
        }
    if (at.found) {
        at.block = free_block(&l->v);
        assign(l, region, at.virtual_block, at.block);
    }
    return at;
}

/* What a write has done: the frames it copied, the blocks it erased, the
   spare areas it looked at, and the block that it reclaimed. */
struct work {
    uint32_t copied, erases, looks, victim;
};

/* "If there is no open block or it is full: the lowest virtual block without a
   physical block ... If all are assigned, reclaim first." */
static struct spot take_frame(struct lent *l, uint32_t cluster,
                              struct work *work)
{
    uint32_t region = region_of(&l->v.p, cluster);
    struct spot at = open_frame(&l->v, region);

    if (!at.found)
        at = new_frame(l, region);
    if (!at.found) {
        work->victim = block_of(&l->v, region, victim_of(&l->v, region));
        at = reclaim(l, region, cluster, &work->copied);
        work->erases = 1;
    }
    return at;
}

/* The marks after a write from an old frame, if any, to a new one, spoilt as
   the mutants of T-06 would spoil them. */
static void marks_after_write(struct lent *l, uint32_t region,
                              const struct spot *old, const struct spot *at,
                              const struct work *work)
{
    const struct params *p = &l->v.p;
    uint64_t *word = l->marks + marks_index(p, region, at->virtual_block, 0);
    uint64_t before[4];

    memcpy(before, word, sizeof before);
    work_out_marks(&l->v, l->marks);
    if (MUTANT(OLD_MARK_KEPT) && old->found && work->erases == 0)
        l->marks[marks_index(p, region, old->virtual_block, old->frame / 64)]
            |= UINT64_C(1) << old->frame % 64;
    if (MUTANT(NEW_MARK_CLEAR))
        word[at->frame / 64] &= ~(UINT64_C(1) << at->frame % 64);
    for (int w = 0; w < 4 && MUTANT(VICTIM_MARKS_KEPT) && work->erases; w++)
        word[w] |= before[w];
}

/* The looks of a write, from those in the state at entry, spoilt as the
   mutants of T-08 would spoil them once the write has its frame. */
static uint32_t looks_of_write(const struct view *v, uint32_t cluster,
                               uint32_t count, const struct work *work)
{
    if (MUTANT(LOOKS_AFTER_RECLAIM))
        return looks_for(v, cluster);
    if (MUTANT(LOOKS_WHOLE) && count == v->p.alpha)
        return 0;
    return work->looks + (MUTANT(LOOKS_COPIES) ? work->copied : 0);
}

/* What a write puts into the spare bytes of its frame, but for the virtual
   block: that is the one that it writes to, once it has its frame. */
static struct label label_of_write(const struct view *v, uint32_t cluster,
                                   const struct spot *old)
{
    struct label label = { cluster, next_stamp(v, cluster), NONE };

    if (MUTANT(STAMP_BEFORE))
        label.stamp--;
    if (MUTANT(STAMP_255))
        label.stamp = UINT32_MAX;
    if (MUTANT(OLD_STAMP) && old->found)
        label.stamp = stamp_in(spare_at(v, old->block, old->frame, 0));
    if (MUTANT(OLD_VIRTUAL) && old->found)
        label.virtual_block = old->virtual_block;
    return label;
}

/* Write. "The new cluster is the old one ... with the given sectors replaced.
   ... Then CT and FST name the segment just written."  T-08 counts the looks
   "for the host's own cluster in the state at entry, not for copies". */
static struct work write_steps(struct lent *l, uint32_t lba, uint32_t count,
                               const uint8_t *data)
{
    const struct params *p = &l->v.p;
    uint32_t cluster = cluster_of(p, lba);
    struct spot old = valid_frame(&l->v, cluster), at;
    struct work work = { 0, 0, looks_for(&l->v, cluster), NONE };
    struct label label = label_of_write(&l->v, cluster, &old);
    uint8_t bytes[16 * 512];
    uint32_t segment;

    load_old(&l->v, &old, bytes);
    at = take_frame(l, cluster, &work);
    work.looks = looks_of_write(&l->v, cluster, count, &work);
    if (MUTANT(OLD_AFTER_ERASE))
        load_old(&l->v, &old, bytes);
    memcpy(bytes + lba % p->alpha * p->s, data, (size_t)count * p->s);
    if (label.virtual_block == NONE)
        label.virtual_block = at.virtual_block;
    program_frame(l, &at, &label, bytes);
    if (MUTANT(CUT_FRAME_FIRST) && work.erases)
        erase_victim(l, work.victim);
    segment = MUTANT(CT_FRAME) ? at.virtual_block * p->f + at.frame
                               : segment_of(p, at.virtual_block, at.frame);
    l->ct[cluster] = (uint16_t)segment;
    l->fst[MUTANT(ONE_OPEN) ? 0 : region_of(p, cluster)] = (uint16_t)segment;
    marks_after_write(l, region_of(p, cluster), &old, &at, &work);
    take_stamp(l, cluster);
    return work;
}

/* ==== Erases per region ================================================ */

/* "Let L be the number of clusters that belong to a region": each cluster
   counts one in its own. */
static void count_clusters(const struct params *p, uint32_t *clusters)
{
    uint32_t end = MUTANT(FIGURE_FEWEST) ? p->c / p->mu * p->mu
                 : MUTANT(FIGURE_MOST) ? (p->c + p->mu - 1) / p->mu * p->mu
                 : p->c;

    memset(clusters, 0, p->mu * sizeof *clusters);
    for (uint32_t cluster = 0; cluster < end; cluster++)
        clusters[region_of(p, cluster)]++;
}

/* "let G be the gamma*F - L spare frames divided by gamma, rounded up" */
static uint32_t writes_per_erase(const struct params *p, uint32_t clusters)
{
    uint32_t spare = p->gamma * p->f - clusters;
    uint32_t by = MUTANT(FIGURE_BLOCK) ? p->f : p->gamma;
    uint32_t whole = spare / by;

    if (MUTANT(FIGURE_MORE))
        return whole + 1;
    return spare % by == 0 || MUTANT(FIGURE_DOWN) ? whole : whole + 1;
}

void model_writes_per_erase(const struct cnftl_params *given,
                            uint32_t *figures)
{
    struct params p = make_params(given->s, given->alpha, given->beta,
                                  given->d, given->mu, given->gamma, given->c,
                                  given->n, given->e);

    count_clusters(&p, figures);
    for (uint32_t region = 0; region < p.mu; region++)
        figures[region] = writes_per_erase(&p, figures[region]);
}

/* ==== Reply numbers ==================================================== */

enum {
    ACCEPTED, BAD_PARAMETER, WRONG_LENGTH, BAD_COUNT, BAD_ADDRESS, WRONG_DATA,
    TOO_FEW_BLOCKS, NOT_ORDERLY, TOO_FEW_ANSWERS, NO_STAMP_LEFT, NO_BLOCK_LEFT
};

/* The entries of the list of T-05. */
enum {
    WHY_REPLY, WHY_RULE, WHY_HELD, WHY_REGION, WHY_SEGMENT, WHY_VIRTUAL,
    WHY_PHYSICAL, WHY_FRAME, WHY_WRITE, WHY_TARGET, WHY_TAKES, WHY_COPIES,
    WHY_LOOKS, WHY_ENTRIES
};

/* "reply + 65,536 * programs + 4,294,967,296 * erases .. Counts added later are
   not in it": T-08's goes beside it. */
static uint64_t answer(uint32_t reply, uint32_t programs, uint32_t erases,
                       uint32_t looks)
{
    model_looks = looks;
    return reply + 65536 * (uint64_t)programs + 4294967296 * (uint64_t)erases;
}

/* 1: "a parameter outside the table above, P above 256, or C/mu rounded up
   above gamma*F - 1"; 2: "chip (in bytes) or a table (in entries) has the
   wrong length". */
static uint32_t refuse_board(const struct params *p, const struct lengths *l)
{
    if (MUTANT(LENGTHS_FIRST) && !lengths_right(p, l))
        return WRONG_LENGTH;
    if (!parameters_allowed(p))
        return BAD_PARAMETER;
    return lengths_right(p, l) ? ACCEPTED : WRONG_LENGTH;
}

/* 3: "count is 0, or LBA mod alpha + count exceeds alpha" */
static bool count_bad(const struct params *p, uint32_t lba, uint32_t count)
{
    if (MUTANT(COUNT_32_BITS))
        return count == 0 || (uint32_t)(lba % p->alpha + count) > p->alpha;
    if (MUTANT(COUNT_0) && count == 0)
        return false;
    return count == 0 || (uint64_t)(lba % p->alpha) + count > p->alpha;
}

/* 4: "LBA is C*alpha or more" */
static bool address_bad(const struct params *p, uint32_t lba)
{
    return lba >= p->c * p->alpha - MUTANT(LAST_SECTOR);
}

/* 5: "data length is not count x s" */
static bool data_wrong(const struct params *p, uint32_t count, size_t data_len)
{
    uint64_t right = (uint64_t)count * p->s;

    return MUTANT(DATA_AT_LEAST) ? data_len < right : data_len != right;
}

/* The refusals of a request: 3, 4, 5 and then 7 "state not orderly", in this
   order. */
static uint32_t refuse_request(const struct view *v, uint32_t lba,
                               uint32_t count, size_t data_len)
{
    bool bad_count = count_bad(&v->p, lba, count);
    bool bad_address = address_bad(&v->p, lba);
    bool wrong_data = data_wrong(&v->p, count, data_len);

    if (bad_address && MUTANT(COUNT_AFTER_ADDRESS))
        return BAD_ADDRESS;
    if (bad_count)
        return BAD_COUNT;
    if (wrong_data && MUTANT(DATA_BEFORE_ADDRESS))
        return WRONG_DATA;
    if (bad_address)
        return BAD_ADDRESS;
    if (MUTANT(ORDER_BEFORE_DATA) && !orderly(v))
        return NOT_ORDERLY;
    if (wrong_data)
        return WRONG_DATA;
    return orderly(v) ? ACCEPTED : NOT_ORDERLY;
}

/* T-12: "a write needs a free block": where the open block of its region has no
   frame left, or there is none, it opens a virtual block or reclaims one. */
static bool needs_block(const struct view *v, uint32_t cluster)
{
    uint32_t region = region_of(&v->p, cluster), assigned = 0;

    for (uint32_t i = 0; i < v->p.gamma; i++)
        assigned += block_of(v, region, i) != NONE;
    if ((MUTANT(TEN_AT_RECLAIM_ONLY) && assigned < v->p.gamma)
        || (MUTANT(TEN_AT_OPENING_ONLY) && assigned == v->p.gamma))
        return false;
    return MUTANT(TEN_ALWAYS) || !open_frame(v, region).found;
}

/* T-12: "10 .. exactly when a write needs a free block and there is none". */
static bool no_block_left(const struct view *v, uint32_t cluster)
{
    return !MUTANT(TEN_NEVER) && needs_block(v, cluster)
        && !blocks_free(v, MUTANT(TEN_EARLY) ? 2 : 1);
}

/* T-07: "9, after 7, when a write's region has no stamp left."  T-12: "10,
   after 9". */
static uint32_t refuse_write(const struct view *v, uint32_t lba,
                             uint32_t count, size_t data_len)
{
    uint32_t reply = refuse_request(v, lba, count, data_len);
    uint32_t cluster = cluster_of(&v->p, lba);
    bool blockless = reply == ACCEPTED && no_block_left(v, cluster);

    if (reply != ACCEPTED
        && !(reply == NOT_ORDERLY && MUTANT(STAMP_BEFORE_ORDER)))
        return reply;
    if (blockless && MUTANT(TEN_BEFORE_NINE))
        return NO_BLOCK_LEFT;
    if (no_stamp_left(v, cluster))
        return NO_STAMP_LEFT;
    if (blockless)
        return MUTANT(TEN_IS_SIX) ? TOO_FEW_BLOCKS : NO_BLOCK_LEFT;
    return reply;
}

/* What a format reports: "0 programs and one erase for each block not bad", of
   which there were so many; also for those that it has worn out. */
static uint64_t formatted(const struct view *v, uint32_t good, uint32_t marked)
{
    if (MUTANT(FORMAT_NO_ERASES))
        good = 0;
    if (MUTANT(FORMAT_COUNTS_BAD))
        good = v->p.n;
    if (MUTANT(FORMAT_COUNTS_KEPT))
        good = good_blocks(v);
    return answer(ACCEPTED, reported_marks(marked), good, 0);
}

/* 6: "fewer than mu*gamma+1 blocks are not bad", by T-12's count, "and is given
   before anything is erased". */
uint64_t model_format(uint32_t s, uint32_t alpha, uint32_t beta, uint32_t d,
                      uint32_t mu, uint32_t gamma, uint32_t c, uint32_t n,
                      uint32_t e,
                      uint8_t *chip, size_t chip_len,
                      uint16_t *ct, size_t ct_len,
                      uint16_t *bt, size_t bt_len,
                      uint16_t *fst, size_t fst_len,
                      uint8_t *bst, size_t bst_len,
                      uint32_t *wear, size_t wear_len,
                      uint64_t *marks, size_t marks_len,
                      uint32_t *stamps, size_t stamps_len)
{
    struct params p = make_params(s, alpha, beta, d, mu, gamma, c, n, e);
    struct lengths len = {
        chip_len, ct_len, bt_len, fst_len, bst_len, wear_len, marks_len,
        stamps_len
    };
    struct lent l = {
        { p, chip, ct, bt, fst, bst, wear, marks, stamps },
        chip, ct, bt, fst, bst, wear, marks, stamps
    };
    uint32_t reply = refuse_board(&p, &len), good, marked = marks_made;

    if (reply != ACCEPTED)
        return answer(reply, 0, 0, 0);
    good = good_blocks(&l.v);
    if (blocks_after_format(&l.v) < mu * gamma + !MUTANT(FORMAT_BLOCKS_EXACT))
        reply = TOO_FEW_BLOCKS;
    if (reply != ACCEPTED && !MUTANT(FORMAT_6_LATE))
        return answer(reply, 0, 0, 0);
    past_refusals();
    format_steps(&l);
    if (reply != ACCEPTED)
        return answer(reply, 0, 0, 0);
    return formatted(&l.v, good, marked);
}

/* "A read reports 0 and 0 and writes only its data buffer".  T-08's looks come
   as the third count. */
uint64_t model_read(uint32_t s, uint32_t alpha, uint32_t beta, uint32_t d,
                    uint32_t mu, uint32_t gamma, uint32_t c, uint32_t n,
                    uint32_t e,
                    const uint8_t *chip, size_t chip_len,
                    const uint16_t *ct, size_t ct_len,
                    const uint16_t *bt, size_t bt_len,
                    const uint16_t *fst, size_t fst_len,
                    const uint8_t *bst, size_t bst_len,
                    const uint32_t *wear, size_t wear_len,
                    const uint64_t *marks, size_t marks_len,
                    const uint32_t *stamps, size_t stamps_len,
                    uint32_t lba, uint32_t count,
                    uint8_t *data, size_t data_len)
{
    struct params p = make_params(s, alpha, beta, d, mu, gamma, c, n, e);
    struct lengths len = {
        chip_len, ct_len, bt_len, fst_len, bst_len, wear_len, marks_len,
        stamps_len
    };
    struct view v = { p, chip, ct, bt, fst, bst, wear, marks, stamps };
    uint32_t reply = refuse_board(&p, &len);

    if (reply == ACCEPTED)
        reply = refuse_request(&v, lba, count, data_len);
    if (reply == ACCEPTED && MUTANT(READ_GIVES_9)
        && no_stamp_left(&v, cluster_of(&p, lba)))
        reply = NO_STAMP_LEFT;
    if (reply == ACCEPTED && MUTANT(READ_GIVES_10)
        && no_block_left(&v, cluster_of(&p, lba)))
        reply = NO_BLOCK_LEFT;
    if (reply == NOT_ORDERLY && MUTANT(REFUSED_READ_CLEARS))
        memset(data, 255, data_len);
    if (reply != ACCEPTED)
        return answer(reply, 0, 0, 0);
    read_steps(&v, lba, count, data);
    return answer(ACCEPTED, 0, 0, looks_for(&v, cluster_of(&p, lba)));
}

/* The looks for a sector in any state, as mutants count them: none where it is
   past the end or the state is not orderly. */
static uint32_t looks_at(const struct view *v, uint32_t lba)
{
    if (address_bad(&v->p, lba) || !orderly(v))
        return 0;
    return looks_for(v, cluster_of(&v->p, lba));
}

/* The answer of a write that is refused, which changes nothing. */
static uint64_t refused_write(const struct lent *l, uint32_t reply,
                              uint32_t lba)
{
    if (MUTANT(STAMP_REFUSED) && (reply == WRONG_DATA || reply == NOT_ORDERLY))
        take_stamp(l, cluster_of(&l->v.p, lba));
    if (MUTANT(LOOKS_REFUSED) && reply == WRONG_DATA)
        return answer(reply, 0, 0, looks_at(&l->v, lba));
    return answer(reply, 0, 0, 0);
}

/* "A write reports alpha x (frames copied + 1) pages programmed, and 1 erase
   if it reclaimed, else 0."  T-08's looks come as the third count. */
static uint64_t accepted_write(struct lent *l, uint32_t lba, uint32_t count,
                               const uint8_t *data)
{
    uint32_t marked = marks_made;
    struct work work = write_steps(l, lba, count, data);

    if (MUTANT(PROGRAMS_ALPHA))
        work.copied = 0;
    if (MUTANT(ERASE_UNCOUNTED))
        work.erases = 0;
    return answer(ACCEPTED, l->v.p.alpha * (work.copied + 1)
                            + reported_marks(marked), work.erases, work.looks);
}

/* Refuses or makes the steps of a write. */
uint64_t model_write(uint32_t s, uint32_t alpha, uint32_t beta, uint32_t d,
                     uint32_t mu, uint32_t gamma, uint32_t c, uint32_t n,
                     uint32_t e,
                     uint8_t *chip, size_t chip_len,
                     uint16_t *ct, size_t ct_len,
                     uint16_t *bt, size_t bt_len,
                     uint16_t *fst, size_t fst_len,
                     uint8_t *bst, size_t bst_len,
                     uint32_t *wear, size_t wear_len,
                     uint64_t *marks, size_t marks_len,
                     uint32_t *stamps, size_t stamps_len,
                     uint32_t lba, uint32_t count,
                     const uint8_t *data, size_t data_len)
{
    struct params p = make_params(s, alpha, beta, d, mu, gamma, c, n, e);
    struct lengths len = {
        chip_len, ct_len, bt_len, fst_len, bst_len, wear_len, marks_len,
        stamps_len
    };
    struct lent l = {
        { p, chip, ct, bt, fst, bst, wear, marks, stamps },
        chip, ct, bt, fst, bst, wear, marks, stamps
    };
    uint32_t reply = refuse_board(&p, &len);

    if (reply == ACCEPTED)
        reply = refuse_write(&l.v, lba, count, data_len);
    if (reply != ACCEPTED)
        return refused_write(&l, reply, lba);
    past_refusals();
    return accepted_write(&l, lba, count, data);
}

/* T-01: "8, after 2, when the answer list is shorter than the request list".
   A request list that is not three numbers to a request counts as one more
   wrong length. */
static uint32_t refuse_queue(size_t requests_len, size_t answers_len)
{
    if (requests_len % 3 != 0 && !MUTANT(QUEUE_THREES))
        return WRONG_LENGTH;
    if (answers_len < requests_len / 3 + MUTANT(QUEUE_FULL_LIST))
        return TOO_FEW_ANSWERS;
    return ACCEPTED;
}

/* Whether an item's count x s bytes lie in the data part. */
static bool item_lies(const struct params *p, const uint32_t *item,
                      size_t data_len)
{
    uint64_t end = (uint64_t)item[1] * p->s + item[2];

    if (MUTANT(QUEUE_SUM_WRAPS))
        end = (uint32_t)end;
    return end <= data_len + MUTANT(QUEUE_ONE_PAST);
}

/* One item as a single write of these bytes, with its own check of the
   state. */
static uint64_t write_single(const struct lent *l, const struct lengths *len,
                             const uint32_t *item, const uint8_t *data,
                             size_t data_len)
{
    const struct params *p = &l->v.p;

    return model_write(p->s, p->alpha, p->beta, p->d, p->mu, p->gamma, p->c,
                       p->n, p->e, l->chip, len->chip, l->ct, len->ct,
                       l->bt, len->bt, l->fst, len->fst, l->bst, len->bst,
                       l->wear, len->wear, l->marks, len->marks,
                       l->stamps, len->stamps,
                       item[0], item[1], data, data_len);
}

/* "An item whose count x s bytes do not lie there gets reply 5, in its turn":
   it has no data. */
static uint64_t write_item(const struct lent *l, const struct lengths *len,
                           const uint32_t *item, const uint8_t *data,
                           size_t data_len)
{
    const struct params *p = &l->v.p;
    bool lies = item_lies(p, item, data_len);
    size_t first = lies && item[2] < data_len && !MUTANT(QUEUE_FIRST_ZERO)
                 ? item[2] : 0;
    size_t given = lies ? (size_t)item[1] * p->s : 0;
    uint64_t answered;

    if (MUTANT(QUEUE_DATA_FIRST) && !lies)
        return answer(WRONG_DATA, 0, 0, 0);
    answered = write_single(l, len, item, data + first, given);
    if (MUTANT(QUEUE_PAST_STAMPS) && answered == NO_STAMP_LEFT) {
        take_stamp(l, cluster_of(p, item[0]));
        answered = write_single(l, len, item, data + first, given);
    }
    return answered;
}

/* Keeps the third count of an item that was just written. */
static void keep_looks(size_t item, uint64_t answered, uint32_t at_entry)
{
    if (MUTANT(LOOKS_QUEUE_ENTRY) && answered % 65536 == ACCEPTED)
        model_looks = at_entry;
    if (item < MODEL_ITEMS)
        model_item_looks[item] = model_looks;
}

/* "The chip, tables and answers equal those of single writes in list order; a
   refused item changes nothing and the next goes on." */
static void write_items(const struct lent *l, const struct lengths *len,
                        const uint32_t *requests, size_t items,
                        const uint8_t *data, size_t data_len,
                        uint64_t *answers, size_t answers_len)
{
    uint16_t before[MOST_REGIONS];
    uint32_t at_entry[MODEL_ITEMS] = { 0 };

    memcpy(before, l->fst, len->fst * sizeof *before);
    for (size_t i = 0; i < items && i < MODEL_ITEMS; i++)
        if (MUTANT(LOOKS_QUEUE_ENTRY))
            at_entry[i] = looks_at(&l->v, requests[3 * i]);
    for (size_t i = 0; i < items; i++) {
        size_t at = MUTANT(QUEUE_LATE) && i + 1 < answers_len ? i + 1 : i;

        if (MUTANT(QUEUE_OLD_STATE))
            memcpy(l->fst, before, len->fst * sizeof *before);
        if (MUTANT(CUT_QUEUE_ANEW))
            power.left = power.budget;
        answers[at] = write_item(l, len, requests + 3 * i, data, data_len);
        power.answered = i + 1;
        if (MUTANT(CUT_REFUSED_ITEM) && answers[at] % 65536 != ACCEPTED)
            end_operation(HOST_PAGE);
        if (MUTANT(CUT_LAST_ITEM))
            stop_if_spent();
        keep_looks(i, answers[at], at_entry[i % MODEL_ITEMS]);
        if (MUTANT(QUEUE_STOPS) && answers[at] % 65536 != ACCEPTED)
            break;
    }
}

/* "Once past its refusals", which are 1, 2 and 8: the 7 of a state that is not
   orderly is that of the items. */
static void queue_past_refusals(const struct view *v)
{
    if (MUTANT(CUT_DISORDERED) && !orderly(v))
        power.limited = false;
    if (MUTANT(CUT_DISORDERED_ANY) && power.limited && !orderly(v))
        power.left = 0;
    past_refusals();
}

/* T-01: "1, 2 and 8 are for the whole call and leave the answer list as lent;
   else the call itself answers 0 with counts 0." */
uint64_t model_queue(uint32_t s, uint32_t alpha, uint32_t beta, uint32_t d,
                     uint32_t mu, uint32_t gamma, uint32_t c, uint32_t n,
                     uint32_t e,
                     uint8_t *chip, size_t chip_len,
                     uint16_t *ct, size_t ct_len,
                     uint16_t *bt, size_t bt_len,
                     uint16_t *fst, size_t fst_len,
                     uint8_t *bst, size_t bst_len,
                     uint32_t *wear, size_t wear_len,
                     uint64_t *marks, size_t marks_len,
                     uint32_t *stamps, size_t stamps_len,
                     const uint32_t *requests, size_t requests_len,
                     const uint8_t *data, size_t data_len,
                     uint64_t *answers, size_t answers_len)
{
    struct params p = make_params(s, alpha, beta, d, mu, gamma, c, n, e);
    struct lengths len = {
        chip_len, ct_len, bt_len, fst_len, bst_len, wear_len, marks_len,
        stamps_len
    };
    struct lent l = {
        { p, chip, ct, bt, fst, bst, wear, marks, stamps },
        chip, ct, bt, fst, bst, wear, marks, stamps
    };
    uint32_t reply = refuse_board(&p, &len);
    uint32_t by_lists = refuse_queue(requests_len, answers_len);

    memset(model_item_looks, 0, sizeof model_item_looks);
    if (reply == ACCEPTED
        || (reply == WRONG_LENGTH && by_lists == TOO_FEW_ANSWERS
            && MUTANT(QUEUE_8_FIRST)))
        reply = by_lists;
    if (reply != ACCEPTED && MUTANT(QUEUE_REFUSAL_FILLS) && answers_len > 0)
        answers[0] = answer(reply, 0, 0, 0);
    if (reply != ACCEPTED)
        return answer(reply, 0, 0, 0);
    queue_past_refusals(&l.v);
    write_items(&l, &len, requests, requests_len / 3, data, data_len, answers,
                answers_len);
    if (MUTANT(QUEUE_FILLS_PAST) && answers_len > requests_len / 3)
        answers[requests_len / 3] = 0;
    if (MUTANT(QUEUE_REPLIES_7) && !orderly(&l.v))
        return answer(NOT_ORDERLY, 0, 0, 0);
    return answer(ACCEPTED, 0, 0, 0);
}

/* T-03: "Refusals: 1, 2, then 4 for a cluster not below C, then 7." */
static uint32_t refuse_release(const struct view *v, uint32_t cluster)
{
    bool bad_cluster = cluster >= v->p.c - MUTANT(RELEASE_LAST);

    if (MUTANT(RELEASE_ORDER_FIRST) && !orderly(v))
        return NOT_ORDERLY;
    if (bad_cluster)
        return BAD_ADDRESS;
    if (!orderly(v))
        return NOT_ORDERLY;
    if (MUTANT(RELEASE_GIVES_9) && no_stamp_left(v, cluster))
        return NO_STAMP_LEFT;
    if (MUTANT(RELEASE_GIVES_10) && no_block_left(v, cluster))
        return NO_BLOCK_LEFT;
    return ACCEPTED;
}

/* T-03: "its CT entry becomes none .. It reports 0 and 0." */
uint64_t model_release(uint32_t s, uint32_t alpha, uint32_t beta, uint32_t d,
                       uint32_t mu, uint32_t gamma, uint32_t c, uint32_t n,
                       uint32_t e,
                       const uint8_t *chip, size_t chip_len,
                       uint16_t *ct, size_t ct_len,
                       const uint16_t *bt, size_t bt_len,
                       const uint16_t *fst, size_t fst_len,
                       const uint8_t *bst, size_t bst_len,
                       const uint32_t *wear, size_t wear_len,
                       uint64_t *marks, size_t marks_len,
                       uint32_t *stamps, size_t stamps_len,
                       uint32_t cluster)
{
    struct params p = make_params(s, alpha, beta, d, mu, gamma, c, n, e);
    struct lengths len = {
        chip_len, ct_len, bt_len, fst_len, bst_len, wear_len, marks_len,
        stamps_len
    };
    struct view v = { p, chip, ct, bt, fst, bst, wear, marks, stamps };
    uint32_t reply = refuse_board(&p, &len);

    if (reply == ACCEPTED)
        reply = refuse_release(&v, cluster);
    if (reply != ACCEPTED)
        return answer(reply, 0, 0, 0);
    if (MUTANT(RELEASE_NEXT))
        cluster = (cluster + 1) % c;
    if (MUTANT(RELEASE_REGION))
        for (uint32_t x = cluster % mu; x < c; x += mu)
            ct[x] = NONE;
    if (!MUTANT(RELEASE_NOTHING))
        ct[cluster] = NONE;
    if (!MUTANT(RELEASE_KEEPS_MARK))
        work_out_marks(&v, marks);
    if (MUTANT(RELEASE_TAKES_STAMP))
        stamps[region_of(&p, cluster)]++;
    return answer(ACCEPTED, 0, MUTANT(RELEASE_COUNTS), 0);
}

/* T-05: "Refusals: 1, 2, 4, 7."  The list counts as one more length. */
static uint32_t refuse_why(const struct view *v, uint32_t lba,
                           size_t list_len)
{
    if (!length_right(list_len, WHY_ENTRIES))
        return WRONG_LENGTH;
    if (address_bad(&v->p, lba))
        return BAD_ADDRESS;
    return orderly(v) ? ACCEPTED : NOT_ORDERLY;
}

/* "with 7 the first orderly rule broken, in 01's order", T-06's and T-07's
   after them */
static uint32_t told_rule(const struct view *v)
{
    uint32_t rule = broken_rule(v);

    if (MUTANT(WHY_RULE_ORDER) && rule == 4 && !free_blocks_erased(v))
        return 6;
    if (MUTANT(WHY_RULE_NUMBERS) && rule > 5)
        return rule - 1;
    if (MUTANT(WHY_MARKS_FIRST) && rule == 9 && !marks_orderly(v))
        return 10;
    if (MUTANT(WHY_STAMPS_FIRST) && rule == 10 && !stamps_orderly(v))
        return 11;
    return rule;
}

/* "or that no frame is held; or the region, segment, virtual block, physical
   block and frame that hold it" */
static void tell_frame(const struct view *v, uint32_t cluster, uint32_t *list)
{
    struct spot at = valid_frame(v, cluster);
    uint32_t first;

    if (!at.found)
        return;
    first = first_frame_of(&v->p, v->ct[cluster]);
    if (MUTANT(WHY_STALE))
        for (at.frame = first; !frame_holds(v, at.block, at.frame, cluster);)
            at.frame++;
    list[WHY_HELD] = 1;
    list[WHY_REGION] = region_of(&v->p, cluster);
    list[WHY_SEGMENT] = v->ct[cluster];
    list[WHY_VIRTUAL] = at.virtual_block;
    list[WHY_PHYSICAL] = at.block;
    list[WHY_FRAME] = at.frame;
}

/* "reclaims a named one with how many valid frames": the virtual block with
   fewest of them, the lowest on a tie, all being assigned. */
static void tell_victim(const struct view *v, uint32_t region, uint32_t *list)
{
    uint32_t fewest = v->p.f + 1;

    for (uint32_t i = 0; i < v->p.gamma; i++) {
        uint32_t valid = valid_frames(v, region, i);

        if (valid < fewest || (valid == fewest && MUTANT(WHY_VICTIM_TIE))) {
            fewest = valid;
            list[WHY_TARGET] = i;
        }
    }
    list[WHY_WRITE] = 3;
    list[WHY_TAKES] = list[WHY_COPIES] = fewest;
}

/* "For a write it says whether the frame lies in the open block, opens a named
   virtual block, or reclaims a named one"; T-12: "T-05's forecast gives 9 and
   10 too", with nothing after it. */
static void tell_write(const struct view *v, uint32_t cluster, uint32_t *list)
{
    uint32_t region = region_of(&v->p, cluster), i = 0;
    struct spot open = open_frame(v, region);

    if (no_stamp_left(v, cluster) && !MUTANT(WHY_PAST_STAMPS)) {
        list[WHY_WRITE] = NO_STAMP_LEFT;
        return;
    }
    if (no_block_left(v, cluster) && !MUTANT(WHY_PAST_BLOCKS)) {
        list[WHY_WRITE] = NO_BLOCK_LEFT;
        return;
    }
    if (open.found) {
        list[WHY_WRITE] = MUTANT(WHY_OPENS) ? 2 : 1;
        list[WHY_TARGET] = open.virtual_block;
        list[WHY_TAKES] = open.frame;
        return;
    }
    while (i < v->p.gamma && block_of(v, region, i) != NONE)
        i++;
    if (i == v->p.gamma) {
        tell_victim(v, region, list);
        return;
    }
    list[WHY_WRITE] = 2;
    list[WHY_TARGET] = i;
}

/* The forecast, the frame, and the looks that T-08 counts; frame and looks are
   told where the forecast is 9 or 10 too. */
static void tell_all(const struct view *v, uint32_t cluster, uint32_t *list)
{
    tell_write(v, cluster, list);
    if ((MUTANT(WHY_9_BARE) && no_stamp_left(v, cluster))
        || (MUTANT(WHY_10_BARE) && no_block_left(v, cluster)))
        return;
    tell_frame(v, cluster, list);
    list[WHY_LOOKS] = looks_for(v, cluster);
}

/* T-05: "for one LBA, why it reads so and what a write would do: which reply"
   and then the rest. */
uint64_t model_why(uint32_t s, uint32_t alpha, uint32_t beta, uint32_t d,
                   uint32_t mu, uint32_t gamma, uint32_t c, uint32_t n,
                   uint32_t e,
                   const uint8_t *chip, size_t chip_len,
                   const uint16_t *ct, size_t ct_len,
                   const uint16_t *bt, size_t bt_len,
                   const uint16_t *fst, size_t fst_len,
                   const uint8_t *bst, size_t bst_len,
                   const uint32_t *wear, size_t wear_len,
                   const uint64_t *marks, size_t marks_len,
                   const uint32_t *stamps, size_t stamps_len,
                   uint32_t lba,
                   uint32_t *list, size_t list_len)
{
    struct params p = make_params(s, alpha, beta, d, mu, gamma, c, n, e);
    struct lengths len = {
        chip_len, ct_len, bt_len, fst_len, bst_len, wear_len, marks_len,
        stamps_len
    };
    struct view v = { p, chip, ct, bt, fst, bst, wear, marks, stamps };
    uint32_t reply = refuse_board(&p, &len);

    if (reply == ACCEPTED)
        reply = refuse_why(&v, lba, list_len);
    if (reply != ACCEPTED && reply != NOT_ORDERLY
        && !(reply == BAD_ADDRESS && MUTANT(WHY_FILLS_4)))
        return answer(reply, 0, 0, 0);
    for (int i = 0; i < WHY_ENTRIES; i++)
        list[i] = 0;
    list[WHY_REPLY] = reply;
    if (reply == NOT_ORDERLY)
        list[WHY_RULE] = told_rule(&v);
    if (reply == ACCEPTED)
        tell_all(&v, cluster_of(&p, lba), list);
    return answer(reply, 0, 0, 0);
}

/* ==== Start from the chip alone ======================================== */

/* What a good block that is not erased is, by itself. */
struct finding {
    bool used, sound, full, left_over;
    uint32_t region, virtual_block;
};

/* "bad blocks by T-02's rule; erased ones free": whether a block is neither. */
static bool block_in_use(const struct view *v, uint32_t block)
{
    return !block_bad(v, block) && !erased_from(v, block, 0);
}

/* How many frames from the first on are as they are in a used block of this
   region and virtual block. */
static uint32_t sound_frames(const struct view *v, uint32_t region,
                             uint32_t virtual_block, uint32_t block)
{
    uint32_t k = 0;

    for (; k < v->p.f; k++) {
        uint32_t cluster = cluster_in(spare_at(v, block, k, 0));

        if (!frame_programmed(v, virtual_block, block, k) || cluster >= v->p.c
            || region_of(&v->p, cluster) != region)
            break;
    }
    return k;
}

/* A block in use "orderly by itself with one region and one virtual block
   below gamma", or not. */
static struct finding find_block(const struct view *v, uint32_t block)
{
    struct finding found = { false, false, false, false, 0, 0 };
    const uint8_t *spare = spare_at(v, block, 0, 0);
    uint32_t k;

    if (!block_in_use(v, block))
        return found;
    found.used = true;
    found.region = region_of(&v->p, cluster_in(spare));
    found.virtual_block = spare[11];
    k = sound_frames(v, found.region, found.virtual_block, block);
    found.sound = k > 0 && erased_from(v, block, k)
               && found.virtual_block < v->p.gamma;
    if (MUTANT(START_GAMMA) && !found.sound && k > 0
        && erased_from(v, block, k)) {
        found.virtual_block %= v->p.gamma;
        found.sound = true;
    }
    found.full = k == v->p.f;
    return found;
}

/* All blocks of a chip. */
static struct finding found_blocks[65536];

/* The blocks that name a virtual block: how many, and how many are full. */
struct naming {
    uint32_t all, full;
};

static struct naming naming_of(const struct view *v, uint32_t region,
                               uint32_t virtual_block)
{
    struct naming names = { 0, 0 };

    for (uint32_t b = 0; b < v->p.n; b++)
        if (found_blocks[b].used && found_blocks[b].region == region
            && found_blocks[b].virtual_block == virtual_block) {
            names.all++;
            names.full += found_blocks[b].full;
        }
    return names;
}

/* "If two blocks name one virtual block, the one with a page of every frame
   programmed (full) stays and the other is erased." */
static bool is_left_over(const struct view *v, uint32_t block)
{
    const struct finding *found = &found_blocks[block];
    struct naming names;

    if (!found->used)
        return false;
    names = naming_of(v, found->region, found->virtual_block);
    if (MUTANT(START_FULL_ERASED))
        return found->full && names.all == 2;
    return !found->full && names.full > 0;
}

/* "when three blocks name one virtual block or two of which not exactly one is
   full" */
static bool pair_right(struct naming names)
{
    if (MUTANT(START_PAIR_REFUSED))
        return names.all < 2;
    if (names.all == 3 && names.full == 1 && MUTANT(START_THREE))
        return true;
    if (names.all == 2 && names.full == 2 && MUTANT(START_TWO_FULL))
        return true;
    return names.all < 2 || (names.all == 2 && names.full == 1);
}

/* "when a region otherwise has two blocks not full" */
static bool one_open(const struct view *v, uint32_t region)
{
    uint32_t open = 0;

    for (uint32_t b = 0; b < v->p.n; b++)
        open += found_blocks[b].used && found_blocks[b].region == region
             && !found_blocks[b].full
             && (!found_blocks[b].left_over || MUTANT(START_OPEN_COUNTED));
    return open < 2 || MUTANT(START_TWO_OPEN);
}

/* A whole frame of a block that is kept. */
struct kept_frame {
    uint32_t cluster, stamp;
};

/* For sorting: by cluster, then by stamp. */
static int by_cluster(const void *a, const void *b)
{
    const struct kept_frame *x = a, *y = b;

    if (x->cluster != y->cluster)
        return x->cluster < y->cluster ? -1 : 1;
    return (x->stamp > y->stamp) - (x->stamp < y->stamp);
}

/* Gathers the whole frames of a region's blocks; returns how many. */
static uint32_t gather_frames(const struct view *v, uint32_t region,
                              struct kept_frame *list)
{
    uint32_t count = 0;

    for (uint32_t b = 0; b < v->p.n; b++) {
        if (!found_blocks[b].used || found_blocks[b].region != region
            || (found_blocks[b].left_over && !MUTANT(START_STAMPS_ALL)))
            continue;
        for (uint32_t frame = 0; frame < v->p.f; frame++)
            if (MUTANT(START_BEGUN_STAMPS) ? frame_taken(v, b, frame)
                                           : frame_whole(v, b, frame)) {
                list[count].cluster = cluster_in(spare_at(v, b, frame, 0));
                list[count++].stamp = stamp_in(spare_at(v, b, frame, 0));
            }
    }
    return count;
}

/* "when two kept whole frames of a cluster share a stamp" */
static bool stamps_apart(const struct view *v, uint32_t region)
{
    static struct kept_frame list[2 * 16 * 256];
    uint32_t count = gather_frames(v, region, list);

    qsort(list, count, sizeof *list, by_cluster);
    for (uint32_t i = 1; i < count; i++)
        if (list[i].cluster == list[i - 1].cluster
            && list[i].stamp == list[i - 1].stamp)
            return MUTANT(START_SAME_STAMPS);
    return true;
}

/* Looks at all blocks; false where a good block "is neither erased nor orderly
   by itself". */
static bool find_blocks(const struct view *v)
{
    for (uint32_t b = 0; b < v->p.n; b++) {
        found_blocks[b] = find_block(v, b);
        if (found_blocks[b].used && !found_blocks[b].sound
            && !MUTANT(START_ANY_BLOCK))
            return false;
        if (found_blocks[b].used && !found_blocks[b].sound)
            found_blocks[b].used = false;
    }
    for (uint32_t b = 0; b < v->p.n; b++)
        found_blocks[b].left_over = is_left_over(v, b);
    return true;
}

/* Whether a start can be made from the chip. */
static bool startable(const struct view *v)
{
    if (!find_blocks(v))
        return false;
    for (uint32_t b = 0; b < v->p.n; b++)
        if (found_blocks[b].used
            && !pair_right(naming_of(v, found_blocks[b].region,
                                     found_blocks[b].virtual_block)))
            return false;
    for (uint32_t r = 0; r < v->p.mu; r++)
        if (!one_open(v, r) || !stamps_apart(v, r))
            return false;
    return true;
}

/* BST, BT and the erases; returns how many. */
static uint32_t start_blocks(struct lent *l)
{
    const struct params *p = &l->v.p;
    uint32_t erases = 0;

    for (size_t i = 0; i < (size_t)p->mu * p->gamma; i++)
        l->bt[i] = NONE;
    for (uint32_t i = 0; i < p->n; i++) {
        uint32_t b = MUTANT(CUT_START_ORDER) ? p->n - 1 - i : i;
        const struct finding *found = &found_blocks[b];

        if (!found->used || found->left_over) {
            if (!(MUTANT(START_ERASED_USED) && !found->used
                  && l->bst[b] < 2))
                l->bst[b] = block_bad(&l->v, b) ? RESERVED : FREE;
        } else {
            assign(l, found->region, found->virtual_block, b);
        }
        if (!found->left_over)
            continue;
        begin_erase(l, b);
        if (!MUTANT(START_NOT_ERASED))
            erase_pages(l, b);
        if (!MUTANT(START_NO_WEAR))
            count_erase(l, b);
        end_erase(l, b, MUTANT(WORN_FREE_AT_START));
        erases++;
    }
    return MUTANT(START_NO_COUNT) ? 0 : erases;
}

/* "per cluster the whole frame with the largest stamp" */
static void start_cluster(struct lent *l, uint32_t cluster)
{
    const struct view *v = &l->v;
    uint32_t region = region_of(&v->p, cluster), best = 0;
    bool found = false;

    for (uint32_t i = 0; i < v->p.gamma; i++) {
        uint32_t block = block_of(v, region, i);

        for (uint32_t f = 0; block != NONE && f < v->p.f; f++) {
            uint32_t stamp = stamp_in(spare_at(v, block, f, 0));

            if (!(MUTANT(START_BEGUN_CT)
                  ? frame_taken(v, block, f)
                    && cluster_in(spare_at(v, block, f, 0)) == cluster
                  : frame_holds(v, block, f, cluster)))
                continue;
            if (found && !(MUTANT(START_SMALLEST) ? stamp < best
                           : MUTANT(START_LAST_FRAME) || stamp > best))
                continue;
            found = true;
            best = stamp;
            l->ct[cluster] = (uint16_t)segment_of(&v->p, i, f);
        }
    }
    if (!found && !MUTANT(START_KEEPS_CT))
        l->ct[cluster] = NONE;
}

/* FST: the block that is not full. "If all of a region's blocks are full, FST
   names the last segment of the lowest virtual block." */
static void start_fst(struct lent *l, uint32_t region)
{
    const struct view *v = &l->v;
    uint32_t chosen = NONE;

    for (uint32_t i = 0; i < v->p.gamma; i++) {
        uint32_t block = block_of(v, region, i);

        if (block == NONE)
            continue;
        if (chosen == NONE || MUTANT(START_FST_HIGHEST)
            || (frames_taken(v, block) < v->p.f && !MUTANT(START_FST_FULL)))
            chosen = i;
        if (frames_taken(v, block) < v->p.f && !MUTANT(START_FST_FULL))
            break;
    }
    l->fst[region] = NONE;
    if (chosen != NONE)
        l->fst[region] = (uint16_t)segment_of(&v->p, chosen,
            MUTANT(START_FST_FIRST)
            ? 0 : frames_taken(v, block_of(v, region, chosen)) - 1);
}

/* Whether a mutant leaves a frame out of the last stamp. */
static bool stamp_left_out(const struct view *v, uint32_t virtual_block,
                           uint32_t block, uint32_t frame)
{
    uint32_t cluster = cluster_in(spare_at(v, block, frame, 0));

    if (MUTANT(START_WHOLE_LAST))
        return !frame_whole(v, block, frame);
    return MUTANT(START_LAST_CT)
        && v->ct[cluster] != segment_of(&v->p, virtual_block, frame);
}

/* "the stamps (largest on the region's pages, else 0)" */
static void start_stamp(struct lent *l, uint32_t region)
{
    const struct view *v = &l->v;
    uint32_t most = 0;
    bool any = false;

    for (uint32_t i = 0; i < v->p.gamma; i++) {
        uint32_t block = block_of(v, region, i);

        for (uint32_t f = 0; block != NONE && f < frames_taken(v, block); f++) {
            uint32_t stamp = stamp_in(spare_at(v, block, f, 0));

            any = true;
            if (stamp > most && !stamp_left_out(v, i, block, f))
                most = stamp;
        }
    }
    if (any || !MUTANT(START_KEEPS_STAMPS))
        l->stamps[region] = most;
}

/* "The start rebuilds BST, BT, CT, FST, the marks and the stamps"; returns its
   erases. */
static uint32_t start_steps(struct lent *l)
{
    uint32_t erases = start_blocks(l);

    for (uint32_t x = 0; x < l->v.p.c; x++)
        start_cluster(l, x);
    for (uint32_t r = 0; r < l->v.p.mu; r++) {
        start_fst(l, r);
        start_stamp(l, r);
    }
    if (!MUTANT(START_KEEPS_MARKS))
        work_out_marks(&l->v, l->marks);
    return erases;
}

/* T-07: "Refusals: 1, 2, 6 and 7 for the start"; T-12: "start and salvage no
   longer give 6". */
static uint32_t refuse_start(const struct view *v)
{
    if (MUTANT(START_GIVES_6)
        && good_blocks(v) < v->p.mu * v->p.gamma + 1)
        return TOO_FEW_BLOCKS;
    return startable(v) ? ACCEPTED : NOT_ORDERLY;
}

/* "The start reports its erases." */
uint64_t model_start(uint32_t s, uint32_t alpha, uint32_t beta, uint32_t d,
                     uint32_t mu, uint32_t gamma, uint32_t c, uint32_t n,
                     uint32_t e,
                     uint8_t *chip, size_t chip_len,
                     uint16_t *ct, size_t ct_len,
                     uint16_t *bt, size_t bt_len,
                     uint16_t *fst, size_t fst_len,
                     uint8_t *bst, size_t bst_len,
                     uint32_t *wear, size_t wear_len,
                     uint64_t *marks, size_t marks_len,
                     uint32_t *stamps, size_t stamps_len)
{
    struct params p = make_params(s, alpha, beta, d, mu, gamma, c, n, e);
    struct lengths len = {
        chip_len, ct_len, bt_len, fst_len, bst_len, wear_len, marks_len,
        stamps_len
    };
    struct lent l = {
        { p, chip, ct, bt, fst, bst, wear, marks, stamps },
        chip, ct, bt, fst, bst, wear, marks, stamps
    };
    uint32_t reply = refuse_board(&p, &len), marked = marks_made, erases;

    if (reply == ACCEPTED)
        reply = refuse_start(&l.v);
    if (reply != ACCEPTED)
        return answer(reply, 0, 0, 0);
    past_refusals();
    erases = start_steps(&l);
    return answer(ACCEPTED, reported_marks(marked), erases, 0);
}

/* ==== Calls that power may end ========================================= */

/* The wear before the call, for a mutant. */
static uint32_t wear_before[65536 + 8];

/* What a budget is worth, where a mutant does not take it for what it is. */
static uint64_t worth(uint64_t budget)
{
    if (MUTANT(CUT_LATE) && budget > 0 && budget < UINT64_MAX)
        return budget + 1;
    if (MUTANT(CUT_EARLY) && budget > 0)
        return budget - 1;
    return MUTANT(CUT_32_BITS) ? (uint32_t)budget : budget;
}

/* "format, write, queue and start also come with a budget of programs and
   erases": power for so many. */
static void limit_power(const struct lent *l, const struct lengths *len,
                        uint64_t budget, bool queue)
{
    power.limited = !(MUTANT(CUT_ZERO) && budget == 0);
    power.budget = power.left = worth(budget);
    memset(power.made, 0, sizeof power.made);
    power.queue = queue;
    power.answered = 0;
    if (MUTANT(CUT_WEAR_BEFORE))
        memcpy(wear_before, l->wear, len->wear * sizeof *wear_before);
    if (MUTANT(CUT_BEFORE_REFUSALS))
        stop_if_spent();
}

/* "with the chip as it then stands, wear as counted so far and the other tables
   all ones" */
static void lose_tables(const struct lent *l, const struct lengths *len)
{
    int byte = MUTANT(CUT_ZEROES) ? 0 : 255;

    if (!MUTANT(CUT_KEEPS_CT))
        memset(l->ct, byte, len->ct * sizeof *l->ct);
    if (!MUTANT(CUT_KEEPS_BT))
        memset(l->bt, byte, len->bt * sizeof *l->bt);
    if (!MUTANT(CUT_KEEPS_FST))
        memset(l->fst, byte, len->fst * sizeof *l->fst);
    if (!MUTANT(CUT_KEEPS_BST))
        memset(l->bst, byte, len->bst * sizeof *l->bst);
    if (!MUTANT(CUT_KEEPS_MARKS))
        memset(l->marks, byte, len->marks * sizeof *l->marks);
    if (!MUTANT(CUT_KEEPS_STAMPS))
        memset(l->stamps, byte, len->stamps * sizeof *l->stamps);
    for (uint32_t r = 0; r < l->v.p.mu && MUTANT(CUT_STAMPS_16_BITS); r++)
        l->stamps[r] = NONE;
    if (MUTANT(CUT_WEAR_ONES))
        memset(l->wear, byte, len->wear * sizeof *l->wear);
    if (MUTANT(CUT_WEAR_BEFORE))
        memcpy(l->wear, wear_before, len->wear * sizeof *l->wear);
}

/* "its answers then count for nothing": reply 0 and counts 0. */
static uint64_t cut_call(const struct lent *l, const struct lengths *len)
{
    power.limited = false;
    lose_tables(l, len);
    if (MUTANT(CUT_COUNTS))
        return answer(ACCEPTED, power.made[HOST_PAGE] + power.made[COPIED_PAGE],
                      power.made[BLOCK_ERASE], 0);
    return answer(MUTANT(CUT_REPLIES_7) ? NOT_ORDERLY : ACCEPTED, 0, 0, 0);
}

/* "A plain call equals one whose budget is never spent", and one that is
   refused is refused. */
static uint64_t whole_call(const struct lent *l, const struct lengths *len,
                           uint64_t answered)
{
    power.limited = false;
    if (MUTANT(CUT_REFUSED) && answered % 65536 != ACCEPTED)
        lose_tables(l, len);
    return answered;
}

/* The answers of a cut queue, spoilt as mutants would spoil them: those of the
   items that it had finished stand, the others stay as lent. */
static void cut_answers(uint64_t *answers, size_t items)
{
    for (size_t i = 0; i < power.answered && MUTANT(CUT_ANSWERS_LOST); i++)
        answers[i] = UINT64_MAX;
    for (size_t i = power.answered + 1;
         i < items && MUTANT(CUT_ANSWERS_BEHIND); i++)
        answers[i] = NOT_ORDERLY;
}

/* A format, until its budget is spent. */
uint64_t model_format_cut(uint32_t s, uint32_t alpha, uint32_t beta,
                          uint32_t d, uint32_t mu, uint32_t gamma,
                          uint32_t c, uint32_t n, uint32_t e,
                          uint8_t *chip, size_t chip_len,
                          uint16_t *ct, size_t ct_len,
                          uint16_t *bt, size_t bt_len,
                          uint16_t *fst, size_t fst_len,
                          uint8_t *bst, size_t bst_len,
                          uint32_t *wear, size_t wear_len,
                          uint64_t *marks, size_t marks_len,
                          uint32_t *stamps, size_t stamps_len,
                          uint64_t budget)
{
    struct params p = make_params(s, alpha, beta, d, mu, gamma, c, n, e);
    struct lengths len = {
        chip_len, ct_len, bt_len, fst_len, bst_len, wear_len, marks_len,
        stamps_len
    };
    struct lent l = {
        { p, chip, ct, bt, fst, bst, wear, marks, stamps },
        chip, ct, bt, fst, bst, wear, marks, stamps
    };

    if (setjmp(power.gone) != 0)
        return cut_call(&l, &len);
    limit_power(&l, &len, budget, false);
    return whole_call(&l, &len,
        model_format(s, alpha, beta, d, mu, gamma, c, n, e, chip, chip_len,
                     ct, ct_len, bt, bt_len, fst, fst_len, bst, bst_len,
                     wear, wear_len, marks, marks_len, stamps, stamps_len));
}

/* A write, until its budget is spent. */
uint64_t model_write_cut(uint32_t s, uint32_t alpha, uint32_t beta,
                         uint32_t d, uint32_t mu, uint32_t gamma,
                         uint32_t c, uint32_t n, uint32_t e,
                         uint8_t *chip, size_t chip_len,
                         uint16_t *ct, size_t ct_len,
                         uint16_t *bt, size_t bt_len,
                         uint16_t *fst, size_t fst_len,
                         uint8_t *bst, size_t bst_len,
                         uint32_t *wear, size_t wear_len,
                         uint64_t *marks, size_t marks_len,
                         uint32_t *stamps, size_t stamps_len,
                         uint32_t lba, uint32_t count,
                         const uint8_t *data, size_t data_len,
                         uint64_t budget)
{
    struct params p = make_params(s, alpha, beta, d, mu, gamma, c, n, e);
    struct lengths len = {
        chip_len, ct_len, bt_len, fst_len, bst_len, wear_len, marks_len,
        stamps_len
    };
    struct lent l = {
        { p, chip, ct, bt, fst, bst, wear, marks, stamps },
        chip, ct, bt, fst, bst, wear, marks, stamps
    };

    if (setjmp(power.gone) != 0)
        return cut_call(&l, &len);
    limit_power(&l, &len, budget, false);
    return whole_call(&l, &len,
        model_write(s, alpha, beta, d, mu, gamma, c, n, e, chip, chip_len,
                    ct, ct_len, bt, bt_len, fst, fst_len, bst, bst_len,
                    wear, wear_len, marks, marks_len, stamps, stamps_len,
                    lba, count, data, data_len));
}

/* A queue, until its budget is spent: an item that has its answer by then keeps
   it. */
uint64_t model_queue_cut(uint32_t s, uint32_t alpha, uint32_t beta,
                         uint32_t d, uint32_t mu, uint32_t gamma,
                         uint32_t c, uint32_t n, uint32_t e,
                         uint8_t *chip, size_t chip_len,
                         uint16_t *ct, size_t ct_len,
                         uint16_t *bt, size_t bt_len,
                         uint16_t *fst, size_t fst_len,
                         uint8_t *bst, size_t bst_len,
                         uint32_t *wear, size_t wear_len,
                         uint64_t *marks, size_t marks_len,
                         uint32_t *stamps, size_t stamps_len,
                         const uint32_t *requests, size_t requests_len,
                         const uint8_t *data, size_t data_len,
                         uint64_t *answers, size_t answers_len,
                         uint64_t budget)
{
    struct params p = make_params(s, alpha, beta, d, mu, gamma, c, n, e);
    struct lengths len = {
        chip_len, ct_len, bt_len, fst_len, bst_len, wear_len, marks_len,
        stamps_len
    };
    struct lent l = {
        { p, chip, ct, bt, fst, bst, wear, marks, stamps },
        chip, ct, bt, fst, bst, wear, marks, stamps
    };

    if (setjmp(power.gone) != 0) {
        cut_answers(answers, requests_len / 3);
        return cut_call(&l, &len);
    }
    limit_power(&l, &len, budget, true);
    return whole_call(&l, &len,
        model_queue(s, alpha, beta, d, mu, gamma, c, n, e, chip, chip_len,
                    ct, ct_len, bt, bt_len, fst, fst_len, bst, bst_len,
                    wear, wear_len, marks, marks_len, stamps, stamps_len,
                    requests, requests_len, data, data_len, answers,
                    answers_len));
}

/* A start, until its budget is spent. */
uint64_t model_start_cut(uint32_t s, uint32_t alpha, uint32_t beta,
                         uint32_t d, uint32_t mu, uint32_t gamma,
                         uint32_t c, uint32_t n, uint32_t e,
                         uint8_t *chip, size_t chip_len,
                         uint16_t *ct, size_t ct_len,
                         uint16_t *bt, size_t bt_len,
                         uint16_t *fst, size_t fst_len,
                         uint8_t *bst, size_t bst_len,
                         uint32_t *wear, size_t wear_len,
                         uint64_t *marks, size_t marks_len,
                         uint32_t *stamps, size_t stamps_len,
                         uint64_t budget)
{
    struct params p = make_params(s, alpha, beta, d, mu, gamma, c, n, e);
    struct lengths len = {
        chip_len, ct_len, bt_len, fst_len, bst_len, wear_len, marks_len,
        stamps_len
    };
    struct lent l = {
        { p, chip, ct, bt, fst, bst, wear, marks, stamps },
        chip, ct, bt, fst, bst, wear, marks, stamps
    };

    if (setjmp(power.gone) != 0)
        return cut_call(&l, &len);
    limit_power(&l, &len, budget, false);
    return whole_call(&l, &len,
        model_start(s, alpha, beta, d, mu, gamma, c, n, e, chip, chip_len,
                    ct, ct_len, bt, bt_len, fst, fst_len, bst, bst_len,
                    wear, wear_len, marks, marks_len, stamps, stamps_len));
}
