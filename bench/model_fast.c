/*
 * model_fast.c - document 01 with 02's marks, stamps, start and worn blocks in
 * plain C, written for speed.
 *
 * The orderly check passes once over the chip.  It reads only the spare bytes
 * of programmed pages, compares erased pages by words, and searches nothing:
 *   - The pages of a block fix its region, by their cluster, and its virtual
 *     block, so that no block can be named twice.
 *   - If all named blocks are used and differ, then "used exactly if named"
 *     says that as many blocks are used as are named.
 *   - All pages of a frame have the spare bytes of its first page but for the
 *     place: they are compared with those as two words.
 *   - A cluster has at most one valid frame, and that frame's segment is the
 *     one in CT.  So there are at most as many valid frames as CT entries that
 *     are not none.  Where each marked frame is valid, and there are as many
 *     marks as such entries, all valid frames are marked and CT is orderly:
 *     the frames without a mark need no look at CT.
 *
 * A write keeps the marks: it sets the new frame's and clears the old one's,
 * and after a reclaim the copies have the first marks of their block.  It takes
 * the next stamp of its region, if there is one left, for its pages.  That no
 * block is free shows in the search for one, before anything is stored.
 *
 * A start checks all before it stores anything, on the chip alone: one pass
 * over the blocks; then, region by region, one over the heads of the blocks and
 * one over the region's frames, in which a bit for each stamp mod 16,384 tells
 * most stamps apart at once.  Then it builds the tables in passes over heads
 * and frames; CT holds frame numbers on the way.
 */
#include "model_fast.h"

#include "all_ones.h"

#include <stdbool.h>
#include <string.h>

/* In place of a cluster's number: of a frame only begun, and of a wrong one. */
#define BEGUN UINT32_MAX
#define WRONG (UINT32_MAX - 1)

enum { SPARE = 16, NONE = 65535, FREE = 0, USED = 1, RESERVED = 2, WORDS = 4 };
enum {
    ACCEPTED, BAD_PARAMETER, WRONG_LENGTH, BAD_COUNT, BAD_ADDRESS, WRONG_DATA,
    TOO_FEW_BLOCKS, NOT_ORDERLY, TOO_FEW_ANSWERS, NO_STAMP_LEFT, NO_BLOCK_LEFT
};

/* Parameters, sizes worked out from them, and the state as it is read. */
struct board {
    uint32_t s, alpha, beta, d, mu, gamma, c, n, e;
    uint32_t frames;
    size_t page, frame, block; /* bytes of each */
    const uint8_t *chip;
    const uint16_t *ct, *bt, *fst;
    const uint8_t *bst;
    const uint32_t *wear;
    const uint64_t *marks;
    const uint32_t *stamps;
};

/* The state as format and write change it. */
struct lent {
    uint8_t *chip;
    uint16_t *ct, *bt, *fst;
    uint8_t *bst;
    uint32_t *wear;
    uint64_t *marks;
    uint32_t *stamps;
};

/* The cluster number in the spare bytes of a page. */
static uint32_t cluster_in(const uint8_t *spare)
{
    return spare[0] | (uint32_t)spare[1] << 8 | (uint32_t)spare[2] << 16
         | (uint32_t)spare[3] << 24;
}

/* The spare bytes of a frame's first page as two numbers, the low byte first,
   as both processors have it.  Byte 4, the place, is all that differs on the
   other pages. */
struct spare {
    uint64_t low, high;
};

/* The eight bytes from p on as a number. */
static uint64_t word_at(const uint8_t *p)
{
    uint64_t w;

    memcpy(&w, p, sizeof w);
    return w;
}

/* Those of a page. */
static struct spare spare_in(const uint8_t *bytes)
{
    return (struct spare){ word_at(bytes), word_at(bytes + 8) };
}

/* Cluster, place 0, 255, 0 and the stamp's low byte; its other bytes, virtual
   block, and four times 255. */
static struct spare make_spare(uint32_t cluster, uint32_t stamp,
                               uint32_t virtual_block)
{
    return (struct spare){
        UINT64_C(0x0000ff0000000000) | cluster | (uint64_t)stamp << 56,
        UINT64_C(0xffffffff00000000) | virtual_block << 24 | stamp >> 8
    };
}

/* The stamp in them. */
static uint32_t stamp_in(struct spare spare)
{
    return (uint32_t)(spare.high << 8 | spare.low >> 56);
}

/* The same bytes for another page of the frame. */
static struct spare at_place(struct spare spare, uint32_t place)
{
    spare.low |= (uint64_t)place << 32;
    return spare;
}

/* Offset of a frame in the chip. */
static size_t frame_at(const struct board *b, uint32_t block, uint32_t frame)
{
    return block * b->block + frame * b->frame;
}

/* The spare bytes of a frame's first page. */
static const uint8_t *spare_at(const struct board *b, uint32_t block,
                               uint32_t frame)
{
    return b->chip + frame_at(b, block, frame) + b->s;
}

/* ==== Marks ============================================================ */

/* Where the words of a virtual block begin. */
static size_t words_at(const struct board *b, uint32_t region,
                       uint32_t virtual_block)
{
    return WORDS * ((size_t)region * b->gamma + virtual_block);
}

/* The first k marks of a word and no other; k may be below 0 or above 64. */
static uint64_t first_marks(int k)
{
    return k <= 0 ? 0 : k >= 64 ? UINT64_MAX : (UINT64_C(1) << k) - 1;
}

/* The ones in the words of a virtual block. */
static uint32_t ones(const uint64_t *words)
{
    return (uint32_t)(__builtin_popcountll(words[0])
                      + __builtin_popcountll(words[1])
                      + __builtin_popcountll(words[2])
                      + __builtin_popcountll(words[3]));
}

/* The ones below a frame's mark. */
static uint32_t ones_below(const uint64_t *words, uint32_t frame)
{
    uint32_t sum = 0;

    for (int w = 0; w < WORDS; w++)
        sum += (uint32_t)__builtin_popcountll(
            words[w] & first_marks((int)frame - 64 * w));
    return sum;
}

/* ==== The orderly check ================================================ */

/* How many pages of a frame, from the first on, have the spare bytes of the
   first one. */
static uint32_t pages_alike(const struct board *b, const uint8_t *bytes,
                            struct spare first)
{
    uint32_t place = 1;

    for (; place < b->alpha; place++) {
        struct spare right = at_place(first, place);

        bytes += b->page;
        if (word_at(bytes) != right.low || word_at(bytes + 8) != right.high)
            break;
    }
    return place;
}

/* The cluster of a frame with these spare bytes in its first page, BEGUN if
   only its first pages are programmed, or WRONG if it is not orderly or has a
   stamp above the last one. */
static uint32_t check_frame(const struct board *b, uint32_t region,
                            uint32_t virtual_block, uint32_t last,
                            const uint8_t *bytes)
{
    struct spare first = spare_in(bytes);
    uint32_t cluster = (uint32_t)first.low, stamp = stamp_in(first), pages;
    struct spare right = make_spare(cluster, stamp, virtual_block);

    if (first.low != right.low || first.high != right.high
        || cluster >= b->c || cluster % b->mu != region
        || stamp > last)
        return WRONG;
    pages = pages_alike(b, bytes, first);
    if (pages == b->alpha)
        return cluster;
    return all_ones(bytes - b->s + pages * b->page,
                    (b->alpha - pages) * b->page) ? BEGUN : WRONG;
}

/* Whether each marked one of a segment's first k frames, with these clusters,
   BEGUN for a frame that is not whole, is valid; the first frame's mark is the
   lowest bit. */
static bool marked_valid(const struct board *b, const uint32_t *cluster,
                         uint32_t k, uint32_t segment, uint64_t bits)
{
    for (uint32_t i = 0; i < k; i++) {
        if (!(bits >> i & 1))
            continue;
        if (cluster[i] == BEGUN || b->ct[cluster[i]] != segment)
            return false;
        for (uint32_t later = i + 1; later < k; later++)
            if (cluster[later] == cluster[i])
                return false;
    }
    return true;
}

/* The marks of a segment from a frame on, the first of them the lowest bit. */
static uint64_t marks_from(const uint64_t *words, uint32_t frame)
{
    uint64_t low = words[frame / 64] >> frame % 64;

    if (frame % 64 == 0 || frame / 64 == WORDS - 1)
        return low;
    return low | words[frame / 64 + 1] << (64 - frame % 64);
}

/* Whether no frame from k on has a mark. */
static bool no_marks_from(const uint64_t *words, uint32_t k)
{
    uint64_t rest = 0;

    for (int w = 0; w < WORDS; w++)
        rest |= words[w] & ~first_marks((int)k - 64 * w);
    return rest == 0;
}

/* The programmed frames of a used block, or 0 if it or a mark of it is not
   orderly. */
static uint32_t check_used_block(const struct board *b, uint32_t region,
                                 uint32_t virtual_block, uint32_t block)
{
    const uint64_t *words = b->marks + words_at(b, region, virtual_block);
    uint32_t cluster[16], k, held = 0, segment = virtual_block * b->d;

    for (k = 0; k < b->frames; k++) {
        const uint8_t *spare = spare_at(b, block, k);

        if (spare[6] != 0)
            break;
        cluster[held] = check_frame(b, region, virtual_block,
                                    b->stamps[region], spare);
        if (cluster[held++] == WRONG)
            return 0;
        if (held == b->beta) {
            if (!marked_valid(b, cluster, held, segment,
                              marks_from(words, k + 1 - held)))
                return 0;
            held = 0;
            segment++;
        }
    }
    if (held > 0
        && !marked_valid(b, cluster, held, segment,
                         marks_from(words, k - held)))
        return 0;
    if (!no_marks_from(words, k)
        || !all_ones(b->chip + frame_at(b, block, k),
                     (b->frames - k) * b->frame))
        return 0;
    return k;
}

/* Whether a region's blocks, their marks and its FST entry are orderly.  Adds
   its blocks to *named and its marks to *marked. */
static bool check_region(const struct board *b, uint32_t region,
                         uint32_t *named, uint32_t *marked)
{
    const uint16_t *bt = b->bt + (size_t)region * b->gamma;
    uint32_t segment = b->fst[region], open = segment / b->d;
    uint32_t blocks = 0;
    bool found = false;

    for (uint32_t v = 0; v < b->gamma; v++) {
        const uint64_t *words = b->marks + words_at(b, region, v);
        uint32_t k;

        if (bt[v] == NONE && no_marks_from(words, 0))
            continue;
        if (bt[v] >= b->n || b->bst[bt[v]] != USED)
            return false;
        k = check_used_block(b, region, v, bt[v]);
        if (k == 0 || (k < b->frames && v != open))
            return false;
        if (v == open && segment == v * b->d + (k - 1) / b->beta)
            found = true;
        blocks++;
        *marked += ones(words);
    }
    *named += blocks;
    return blocks == 0 ? segment == NONE : found;
}

/* Whether BST is orderly, where this many different blocks are named, and the
   free blocks are erased. */
static bool check_blocks(const struct board *b, uint32_t named)
{
    uint32_t used = 0;

    for (uint32_t i = 0; i < b->n; i++) {
        if (b->bst[i] > RESERVED)
            return false;
        used += b->bst[i] == USED;
        if (b->bst[i] == FREE && !all_ones(b->chip + i * b->block, b->block))
            return false;
    }
    return used == named;
}

/* CT entries that are not none. */
static uint32_t ct_entries(const struct board *b)
{
    uint32_t entries = 0;

    for (uint32_t x = 0; x < b->c; x++)
        entries += b->ct[x] != NONE;
    return entries;
}

/* Whether the state is orderly. */
static bool orderly(const struct board *b)
{
    uint32_t named = 0, marked = 0;

    for (uint32_t r = 0; r < b->mu; r++)
        if (!check_region(b, r, &named, &marked))
            return false;
    return marked == ct_entries(b) && check_blocks(b, named);
}

/* ==== Refusals ========================================================= */

/* Whether the parameters are allowed. */
static bool parameters_allowed(const struct board *b)
{
    return b->s - 16 <= 496 && b->alpha - 1 <= 15 && b->beta - 1 <= 15
        && b->d - 1 <= 15 && b->mu - 1 <= 1023 && b->gamma - 1 <= 15
        && b->c - 1 <= 1048575 && b->n - 1 <= 65534 && b->e - 1 <= 999999
        && b->alpha * b->frames <= 256
        && (b->c + b->mu - 1) / b->mu <= b->gamma * b->frames - 1;
}

/* The reply to parameters and lengths. */
static uint32_t refuse_board(const struct board *b, size_t chip_len,
                             size_t ct_len, size_t bt_len, size_t fst_len,
                             size_t bst_len, size_t wear_len,
                             size_t marks_len, size_t stamps_len)
{
    if (!parameters_allowed(b))
        return BAD_PARAMETER;
    if (chip_len != (uint64_t)b->n * (b->alpha * b->frames) * (b->s + SPARE)
        || ct_len != b->c || bt_len != b->mu * b->gamma || fst_len != b->mu
        || bst_len != b->n || wear_len != b->n
        || marks_len != WORDS * b->mu * b->gamma || stamps_len != b->mu)
        return WRONG_LENGTH;
    return ACCEPTED;
}

/* The reply to a request on a board of right lengths, the state aside. */
static uint32_t refuse_place(const struct board *b, uint32_t lba,
                             uint32_t count, bool data_right)
{
    if (count == 0 || count > b->alpha - lba % b->alpha)
        return BAD_COUNT;
    if (lba >= b->c * b->alpha)
        return BAD_ADDRESS;
    return data_right ? ACCEPTED : WRONG_DATA;
}

/* The reply to a request on a board of right lengths. */
static uint32_t refuse_request(const struct board *b, uint32_t lba,
                               uint32_t count, size_t data_len)
{
    uint32_t reply = refuse_place(b, lba, count,
                                  data_len == (size_t)count * b->s);

    if (reply != ACCEPTED)
        return reply;
    return orderly(b) ? ACCEPTED : NOT_ORDERLY;
}

/* The reply to a write on an orderly board that is right otherwise. */
static uint32_t refuse_stampless(const struct board *b, uint32_t lba)
{
    return b->stamps[lba / b->alpha % b->mu] == UINT32_MAX ? NO_STAMP_LEFT
                                                           : ACCEPTED;
}

/* The parameters with the sizes that follow from them. */
static struct board make_board(uint32_t s, uint32_t alpha, uint32_t beta,
                               uint32_t d, uint32_t mu, uint32_t gamma,
                               uint32_t c, uint32_t n, uint32_t e)
{
    struct board b = { .s = s, .alpha = alpha, .beta = beta, .d = d, .mu = mu,
                       .gamma = gamma, .c = c, .n = n, .e = e };

    b.frames = beta * d;
    b.page = (size_t)s + SPARE;
    b.frame = alpha * b.page;
    b.block = b.frames * b.frame;
    return b;
}

/* The chip and the tables that a call looks at. */
static void look_at(struct board *b, const uint8_t *chip, const uint16_t *ct,
                    const uint16_t *bt, const uint16_t *fst,
                    const uint8_t *bst, const uint32_t *wear,
                    const uint64_t *marks, const uint32_t *stamps)
{
    b->chip = chip;
    b->ct = ct;
    b->bt = bt;
    b->fst = fst;
    b->bst = bst;
    b->wear = wear;
    b->marks = marks;
    b->stamps = stamps;
}

/* reply + 65,536 * programs + 4,294,967,296 * erases */
static uint64_t answer(uint32_t reply, uint32_t programs, uint32_t erases)
{
    return reply | (uint64_t)programs << 16 | (uint64_t)erases << 32;
}

/* ==== Steps ============================================================ */

/* A cluster's valid frame; at is its offset, or SIZE_MAX if CT has none. */
struct holder {
    size_t at;
    uint32_t virtual_block, frame;
};

/* Finds it. */
static struct holder valid_frame(const struct board *b, uint32_t cluster)
{
    struct holder h = { SIZE_MAX, 0, 0 };
    uint32_t segment = b->ct[cluster], block;

    if (segment == NONE)
        return h;
    h.virtual_block = segment / b->d;
    block = b->bt[(size_t)(cluster % b->mu) * b->gamma + h.virtual_block];
    h.frame = segment % b->d * b->beta + b->beta - 1;
    while (cluster_in(spare_at(b, block, h.frame)
                      + (b->alpha - 1) * b->page) != cluster)
        h.frame--;
    h.at = frame_at(b, block, h.frame);
    return h;
}

/* Erases a block and counts it; marks and reserves it if that wears it out. */
static void erase(const struct board *b, const struct lent *l, uint32_t block)
{
    memset(l->chip + block * b->block, 255, b->block);
    l->wear[block] += l->wear[block] != UINT32_MAX;
    l->bst[block] = FREE;
    if (l->wear[block] >= b->e) {
        l->chip[block * b->block + b->s + 5] = 0;
        l->bst[block] = RESERVED;
    }
}

/* The free block of lowest wear, the lowest on a tie, or NONE. */
static uint32_t free_block(const struct board *b)
{
    uint32_t best = NONE;

    for (uint32_t i = 0; i < b->n; i++)
        if (b->bst[i] == FREE && (best == NONE || b->wear[i] < b->wear[best]))
            best = i;
    return best;
}

/* The virtual block with fewest valid frames, and how many these are. */
static uint32_t choose_victim(const struct board *b, uint32_t region,
                              uint32_t *valid)
{
    const uint64_t *words = b->marks + words_at(b, region, 0);
    uint32_t victim = 0;

    *valid = ones(words);
    for (uint32_t v = 1; v < b->gamma; v++) {
        uint32_t here = ones(words + WORDS * v);

        if (here < *valid) {
            victim = v;
            *valid = here;
        }
    }
    return victim;
}

/* Copies the victim's marked frames, with their spare bytes, to a block; CT
   follows. */
static void copy_frames(const struct board *b, const struct lent *l,
                        uint32_t victim, uint32_t old, uint32_t new_block,
                        const uint64_t *words)
{
    uint32_t i = 0;

    for (uint32_t w = 0; w < WORDS; w++)
        for (uint64_t bits = words[w]; bits != 0; bits &= bits - 1, i++) {
            uint32_t frame = 64 * w + (uint32_t)__builtin_ctzll(bits);
            uint32_t cluster = cluster_in(spare_at(b, old, frame));

            memcpy(l->chip + frame_at(b, new_block, i),
                   b->chip + frame_at(b, old, frame), b->frame);
            l->ct[cluster] = (uint16_t)(victim * b->d + i / b->beta);
        }
}

/* Where a write goes, and what it takes. */
struct target {
    uint32_t virtual_block, block, frame;
    uint32_t copied;
    uint32_t victim_block; /* to be erased after the write, or NONE */
};

/* The lowest erased frame of a region's open block, if there is one. */
static bool open_frame(const struct board *b, uint32_t region,
                       struct target *t)
{
    uint32_t segment = b->fst[region], end;

    if (segment == NONE)
        return false;
    t->virtual_block = segment / b->d;
    t->block = b->bt[(size_t)region * b->gamma + t->virtual_block];
    t->frame = segment % b->d * b->beta + 1;
    end = (segment % b->d + 1) * b->beta;
    while (t->frame < end && spare_at(b, t->block, t->frame)[6] == 0)
        t->frame++;
    return t->frame < b->frames;
}

/* The copies of a reclaim, which then have the first marks of their virtual
   block; the holder's mark is followed. */
static void reclaim(const struct board *b, const struct lent *l,
                    uint32_t region, struct target *t, struct holder *old)
{
    uint64_t *words;

    t->virtual_block = choose_victim(b, region, &t->copied);
    t->victim_block = b->bt[(size_t)region * b->gamma + t->virtual_block];
    t->frame = t->copied;
    words = l->marks + words_at(b, region, t->virtual_block);
    copy_frames(b, l, t->virtual_block, t->victim_block, t->block, words);
    if (old->virtual_block == t->virtual_block)
        old->frame = ones_below(words, old->frame);
    for (int w = 0; w < WORDS; w++)
        words[w] = first_marks((int)t->copied - 64 * w);
}

/* Finds the frame of a write: in the open block, in a new one, or after the
   copies of a reclaim; its block is NONE where none is free. */
static struct target find_target(const struct board *b, const struct lent *l,
                                 uint32_t region, struct holder *old)
{
    struct target t = { 0, NONE, 0, 0, NONE };
    uint16_t *bt = l->bt + (size_t)region * b->gamma;

    if (open_frame(b, region, &t))
        return t;
    t.block = free_block(b);
    if (t.block == NONE)
        return t;
    t.frame = t.virtual_block = 0;
    while (t.virtual_block < b->gamma && bt[t.virtual_block] != NONE)
        t.virtual_block++;
    if (t.virtual_block == b->gamma)
        reclaim(b, l, region, &t, old);
    bt[t.virtual_block] = (uint16_t)t.block;
    l->bst[t.block] = USED;
    return t;
}

/* Clears the old frame's mark, if there is one, and sets the new one's. */
static void move_mark(const struct board *b, const struct lent *l,
                      uint32_t region, const struct holder *old,
                      const struct target *t)
{
    uint64_t *from = l->marks + words_at(b, region, old->virtual_block);
    uint64_t *to = l->marks + words_at(b, region, t->virtual_block);

    if (old->at != SIZE_MAX)
        from[old->frame / 64] &= ~(UINT64_C(1) << old->frame % 64);
    to[t->frame / 64] |= UINT64_C(1) << t->frame % 64;
}

/* Programs the pages of an erased frame, each once: those asked for with the
   data, the others with that of the old page, or, if there is none, with the
   spare bytes alone, since their data bytes are 255 already. */
static void put_cluster(const struct board *b, uint8_t *to, const uint8_t *old,
                        struct spare first_page, uint32_t first,
                        uint32_t count, const uint8_t *data)
{
    for (uint32_t place = 0; place < b->alpha; place++) {
        struct spare spare = at_place(first_page, place);
        uint8_t *page = to + place * b->page;

        if (place - first < count)
            memcpy(page, data + (size_t)(place - first) * b->s, b->s);
        else if (old != NULL)
            memcpy(page, old + place * b->page, b->s);
        memcpy(page + b->s, &spare, SPARE);
    }
}

/* The steps of a write, or its refusal where no block is left; the victim
   is erased last, when all copies stand. */
static uint64_t write_steps(const struct board *b, const struct lent *l,
                            uint32_t lba, uint32_t count, const uint8_t *data)
{
    uint32_t cluster = lba / b->alpha, region = cluster % b->mu, segment;
    struct holder old = valid_frame(b, cluster);
    struct target t = find_target(b, l, region, &old);
    uint8_t *to;

    if (t.block == NONE)
        return answer(NO_BLOCK_LEFT, 0, 0);
    to = l->chip + frame_at(b, t.block, t.frame);
    put_cluster(b, to, old.at == SIZE_MAX ? NULL : b->chip + old.at,
                make_spare(cluster, ++l->stamps[region], t.virtual_block),
                lba % b->alpha, count, data);
    if (t.victim_block != NONE)
        erase(b, l, t.victim_block);
    segment = t.virtual_block * b->d + t.frame / b->beta;
    l->ct[cluster] = (uint16_t)segment;
    l->fst[region] = (uint16_t)segment;
    move_mark(b, l, region, &old, &t);
    return answer(ACCEPTED, b->alpha * (t.copied + 1), t.victim_block != NONE);
}

/* ==== The calls ======================================================== */

/* Whether neither of a block's first two pages has the maker's bad mark. */
static bool block_good(const struct board *b, uint32_t block)
{
    const uint8_t *mark = b->chip + block * b->block + b->s + 5;

    return mark[0] == 255
        && (b->alpha * b->frames < 2 || mark[b->page] == 255);
}

/* Erases the good blocks, reserves the bad and the worn ones and clears the
   tables. */
uint64_t fast_format(uint32_t s, uint32_t alpha, uint32_t beta, uint32_t d,
                     uint32_t mu, uint32_t gamma, uint32_t c, uint32_t n,
                     uint32_t e,
                     uint8_t *chip, size_t chip_len,
                     uint16_t *ct, size_t ct_len,
                     uint16_t *bt, size_t bt_len,
                     uint16_t *fst, size_t fst_len,
                     uint8_t *bst, size_t bst_len,
                     uint32_t *wear, size_t wear_len,
                     uint64_t *marks, size_t marks_len,
                     uint32_t *stamps, size_t stamps_len)
{
    struct board b = make_board(s, alpha, beta, d, mu, gamma, c, n, e);
    struct lent l = { chip, ct, bt, fst, bst, wear, marks, stamps };
    uint32_t reply = refuse_board(&b, chip_len, ct_len, bt_len, fst_len,
                                  bst_len, wear_len, marks_len, stamps_len);
    uint32_t good = 0, left = 0;

    if (reply != ACCEPTED)
        return answer(reply, 0, 0);
    b.chip = chip;
    for (uint32_t i = 0; i < n; i++) {
        bool here = block_good(&b, i);

        good += here;
        left += here && wear[i] < e - 1;
    }
    if (left <= mu * gamma)
        return answer(TOO_FEW_BLOCKS, 0, 0);
    for (uint32_t i = 0; i < n; i++)
        if (block_good(&b, i))
            erase(&b, &l, i);
        else
            bst[i] = RESERVED;
    memset(ct, 255, ct_len * sizeof *ct);
    memset(bt, 255, bt_len * sizeof *bt);
    memset(fst, 255, fst_len * sizeof *fst);
    memset(marks, 0, marks_len * sizeof *marks);
    memset(stamps, 0, stamps_len * sizeof *stamps);
    return answer(ACCEPTED, 0, good);
}

/* Copies the sectors of the valid frame, or fills with 255. */
uint64_t fast_read(uint32_t s, uint32_t alpha, uint32_t beta, uint32_t d,
                   uint32_t mu, uint32_t gamma, uint32_t c, uint32_t n,
                   uint32_t e,
                   const uint8_t *chip, size_t chip_len,
                   const uint16_t *ct, size_t ct_len,
                   const uint16_t *bt, size_t bt_len,
                   const uint16_t *fst, size_t fst_len,
                   const uint8_t *bst, size_t bst_len,
                   const uint32_t *wear, size_t wear_len,
                   const uint64_t *marks, size_t marks_len,
                   const uint32_t *stamps, size_t stamps_len,
                   uint32_t lba, uint32_t count,
                   uint8_t *data, size_t data_len)
{
    struct board b = make_board(s, alpha, beta, d, mu, gamma, c, n, e);
    uint32_t reply = refuse_board(&b, chip_len, ct_len, bt_len, fst_len,
                                  bst_len, wear_len, marks_len, stamps_len);
    size_t frame;

    look_at(&b, chip, ct, bt, fst, bst, wear, marks, stamps);
    if (reply == ACCEPTED)
        reply = refuse_request(&b, lba, count, data_len);
    if (reply != ACCEPTED)
        return answer(reply, 0, 0);
    frame = valid_frame(&b, lba / alpha).at;
    if (frame == SIZE_MAX)
        memset(data, 255, data_len);
    for (uint32_t i = 0; i < count && frame != SIZE_MAX; i++)
        memcpy(data + (size_t)i * s, chip + frame + (lba % alpha + i) * b.page,
               s);
    return answer(ACCEPTED, 0, 0);
}

/* Refuses or makes the steps of a write. */
uint64_t fast_write(uint32_t s, uint32_t alpha, uint32_t beta, uint32_t d,
                    uint32_t mu, uint32_t gamma, uint32_t c, uint32_t n,
                    uint32_t e,
                    uint8_t *chip, size_t chip_len,
                    uint16_t *ct, size_t ct_len,
                    uint16_t *bt, size_t bt_len,
                    uint16_t *fst, size_t fst_len,
                    uint8_t *bst, size_t bst_len,
                    uint32_t *wear, size_t wear_len,
                    uint64_t *marks, size_t marks_len,
                    uint32_t *stamps, size_t stamps_len,
                    uint32_t lba, uint32_t count,
                    const uint8_t *data, size_t data_len)
{
    struct board b = make_board(s, alpha, beta, d, mu, gamma, c, n, e);
    struct lent l = { chip, ct, bt, fst, bst, wear, marks, stamps };
    uint32_t reply = refuse_board(&b, chip_len, ct_len, bt_len, fst_len,
                                  bst_len, wear_len, marks_len, stamps_len);

    look_at(&b, chip, ct, bt, fst, bst, wear, marks, stamps);
    if (reply == ACCEPTED)
        reply = refuse_request(&b, lba, count, data_len);
    if (reply == ACCEPTED)
        reply = refuse_stampless(&b, lba);
    if (reply != ACCEPTED)
        return answer(reply, 0, 0);
    return write_steps(&b, &l, lba, count, data);
}

/* One item of a queue on a state that was checked before. */
static uint64_t write_item(const struct board *b, const struct lent *l,
                           bool in_order, const uint32_t *item,
                           const uint8_t *data, size_t data_len)
{
    uint64_t need = (uint64_t)item[1] * b->s;
    uint32_t reply = refuse_place(b, item[0], item[1],
                                  item[2] + need <= data_len);

    if (reply == ACCEPTED)
        reply = in_order ? refuse_stampless(b, item[0]) : NOT_ORDERLY;
    if (reply != ACCEPTED)
        return answer(reply, 0, 0);
    return write_steps(b, l, item[0], item[1], data + item[2]);
}

/* Checks the state once, and makes the steps of each write. */
uint64_t fast_queue(uint32_t s, uint32_t alpha, uint32_t beta, uint32_t d,
                    uint32_t mu, uint32_t gamma, uint32_t c, uint32_t n,
                    uint32_t e,
                    uint8_t *chip, size_t chip_len,
                    uint16_t *ct, size_t ct_len,
                    uint16_t *bt, size_t bt_len,
                    uint16_t *fst, size_t fst_len,
                    uint8_t *bst, size_t bst_len,
                    uint32_t *wear, size_t wear_len,
                    uint64_t *marks, size_t marks_len,
                    uint32_t *stamps, size_t stamps_len,
                    const uint32_t *requests, size_t requests_len,
                    const uint8_t *data, size_t data_len,
                    uint64_t *answers, size_t answers_len)
{
    struct board b = make_board(s, alpha, beta, d, mu, gamma, c, n, e);
    struct lent l = { chip, ct, bt, fst, bst, wear, marks, stamps };
    uint32_t reply = refuse_board(&b, chip_len, ct_len, bt_len, fst_len,
                                  bst_len, wear_len, marks_len, stamps_len);
    bool in_order;

    look_at(&b, chip, ct, bt, fst, bst, wear, marks, stamps);
    if (reply == ACCEPTED && requests_len % 3 != 0)
        reply = WRONG_LENGTH;
    if (reply == ACCEPTED && answers_len < requests_len / 3)
        reply = TOO_FEW_ANSWERS;
    if (reply != ACCEPTED)
        return answer(reply, 0, 0);
    in_order = orderly(&b);
    for (size_t i = 0; i < requests_len / 3; i++)
        answers[i] = write_item(&b, &l, in_order, requests + 3 * i, data,
                                data_len);
    return answer(ACCEPTED, 0, 0);
}

/* ==== The start ======================================================== */

enum { MOST_VIRTUAL = 16, SEEN_BITS = 16384 };

/* The block of each virtual block of a region that is full, and that is not;
   NONE where there is none. */
struct heads {
    uint32_t full[MOST_VIRTUAL], open[MOST_VIRTUAL];
};

/* Whether a block with its first frame programmed is orderly by itself. */
static bool check_alone(const struct board *b, uint32_t block)
{
    const uint8_t *spare = spare_at(b, block, 0);
    uint32_t cluster = cluster_in(spare), region = cluster % b->mu, k;

    if (cluster >= b->c || spare[11] >= b->gamma)
        return false;
    for (k = 0; k < b->frames && spare_at(b, block, k)[6] == 0; k++)
        if (check_frame(b, region, spare[11], UINT32_MAX,
                        spare_at(b, block, k)) == WRONG)
            return false;
    return all_ones(b->chip + frame_at(b, block, k),
                    (b->frames - k) * b->frame);
}

/* Whether every good block is erased or orderly by itself. */
static bool check_alone_all(const struct board *b)
{
    for (uint32_t i = 0; i < b->n; i++) {
        if (!block_good(b, i))
            continue;
        if (spare_at(b, i, 0)[6] == 0
            ? !check_alone(b, i) : !all_ones(b->chip + i * b->block, b->block))
            return false;
    }
    return true;
}

/* Whether a block's last frame is programmed. */
static bool block_full(const struct board *b, uint32_t block)
{
    return spare_at(b, block, b->frames - 1)[6] == 0;
}

/* Whether a block is in use, where all are erased or orderly by themselves. */
static bool in_use(const struct board *b, uint32_t block)
{
    return spare_at(b, block, 0)[6] == 0 && block_good(b, block);
}

/* Finds the blocks of a region; false where two of a kind name one virtual
   block. */
static bool find_heads(const struct board *b, uint32_t region,
                       struct heads *h)
{
    for (uint32_t v = 0; v < b->gamma; v++)
        h->full[v] = h->open[v] = NONE;
    for (uint32_t i = 0; i < b->n; i++) {
        const uint8_t *spare = spare_at(b, i, 0);
        uint32_t *place;

        if (spare[6] != 0 || cluster_in(spare) % b->mu != region
            || !block_good(b, i))
            continue;
        place = (block_full(b, i) ? h->full : h->open) + spare[11];
        if (*place != NONE)
            return false;
        *place = i;
    }
    return true;
}

/* A frame's stamp. */
static uint32_t stamp_of(const struct board *b, uint32_t block, uint32_t frame)
{
    return stamp_in(spare_in(spare_at(b, block, frame)));
}

/* Whether a frame is whole. */
static bool is_whole(const struct board *b, uint32_t block, uint32_t frame)
{
    return spare_at(b, block, frame)[(b->alpha - 1) * b->page + 6] == 0;
}

/* Whether a whole frame of the region's kept blocks before this one has its
   cluster and its stamp. */
static bool repeated(const struct board *b, const uint32_t *kept,
                     uint32_t virtual_block, uint32_t frame)
{
    uint32_t block = kept[virtual_block];
    uint32_t cluster = cluster_in(spare_at(b, block, frame));
    uint32_t stamp = stamp_of(b, block, frame);

    for (uint32_t v = 0; v <= virtual_block; v++) {
        uint32_t end = v < virtual_block ? b->frames : frame;

        for (uint32_t f = 0; kept[v] != NONE && f < end; f++)
            if (is_whole(b, kept[v], f) && stamp_of(b, kept[v], f) == stamp
                && cluster_in(spare_at(b, kept[v], f)) == cluster)
                return true;
    }
    return false;
}

/* Whether no two whole frames of a cluster in these blocks share a stamp. */
static bool check_apart(const struct board *b, const uint32_t *kept)
{
    uint64_t seen[SEEN_BITS / 64] = { 0 };

    for (uint32_t v = 0; v < b->gamma; v++)
        for (uint32_t f = 0; kept[v] != NONE && f < b->frames; f++) {
            uint32_t bit;

            if (!is_whole(b, kept[v], f))
                continue;
            bit = stamp_of(b, kept[v], f) % SEEN_BITS;
            if (seen[bit / 64] >> bit % 64 & 1 && repeated(b, kept, v, f))
                return false;
            seen[bit / 64] |= UINT64_C(1) << bit % 64;
        }
    return true;
}

/* Whether a region can be started. */
static bool check_start_region(const struct board *b, uint32_t region)
{
    struct heads h;
    uint32_t kept[MOST_VIRTUAL], open = 0;

    if (!find_heads(b, region, &h))
        return false;
    for (uint32_t v = 0; v < b->gamma; v++) {
        kept[v] = h.full[v] != NONE ? h.full[v] : h.open[v];
        open += h.full[v] == NONE && h.open[v] != NONE;
    }
    return open <= 1 && check_apart(b, kept);
}

/* Whether the chip can be started. */
static bool startable(const struct board *b)
{
    if (!check_alone_all(b))
        return false;
    for (uint32_t r = 0; r < b->mu; r++)
        if (!check_start_region(b, r))
            return false;
    return true;
}

/* The BT entry that a block in use names. */
static uint16_t *entry_of(const struct board *b, const struct lent *l,
                          uint32_t block)
{
    const uint8_t *spare = spare_at(b, block, 0);

    return l->bt + cluster_in(spare) % b->mu * b->gamma + spare[11];
}

/* BT, BST and the erases; how many. */
static uint32_t start_blocks(const struct board *b, const struct lent *l)
{
    uint32_t erases = 0;

    memset(l->bt, 255, (size_t)b->mu * b->gamma * sizeof *l->bt);
    for (uint32_t i = 0; i < b->n; i++) {
        l->bst[i] = block_good(b, i) ? FREE : RESERVED;
        if (in_use(b, i) && block_full(b, i)) {
            *entry_of(b, l, i) = (uint16_t)i;
            l->bst[i] = USED;
        }
    }
    for (uint32_t i = 0; i < b->n; i++) {
        uint16_t *entry;

        if (l->bst[i] != FREE || spare_at(b, i, 0)[6] != 0)
            continue;
        entry = entry_of(b, l, i);
        if (*entry == NONE) {
            *entry = (uint16_t)i;
            l->bst[i] = USED;
        } else {
            erase(b, l, i);
            erases++;
        }
    }
    return erases;
}

/* One block's frames into CT, as frame numbers of the region; the largest
   stamp so far. */
static uint32_t start_block(const struct board *b, const struct lent *l,
                            const uint16_t *bt, uint32_t virtual_block,
                            uint32_t most)
{
    uint32_t block = bt[virtual_block];

    for (uint32_t f = 0; f < b->frames; f++) {
        const uint8_t *spare = spare_at(b, block, f);
        uint32_t stamp, cluster, held;

        if (spare[6] != 0)
            break;
        stamp = stamp_in(spare_in(spare));
        most = stamp > most ? stamp : most;
        if (!is_whole(b, block, f))
            continue;
        cluster = cluster_in(spare);
        held = l->ct[cluster];
        if (held == NONE
            || stamp_of(b, bt[held / b->frames], held % b->frames) < stamp)
            l->ct[cluster] = (uint16_t)(virtual_block * b->frames + f);
    }
    return most;
}

/* How many frames of a block are programmed. */
static uint32_t frames_in(const struct board *b, uint32_t block)
{
    uint32_t k = 0;

    while (k < b->frames && spare_at(b, block, k)[6] == 0)
        k++;
    return k;
}

/* A region's clusters, stamp and FST entry. */
static void start_region(const struct board *b, const struct lent *l,
                         uint32_t region)
{
    const uint16_t *bt = l->bt + (size_t)region * b->gamma;
    uint32_t most = 0, open = NONE;

    for (uint32_t v = 0; v < b->gamma; v++) {
        if (bt[v] == NONE)
            continue;
        most = start_block(b, l, bt, v, most);
        if (open == NONE || !block_full(b, bt[v]))
            open = v;
    }
    l->stamps[region] = most;
    l->fst[region] = open == NONE ? NONE
        : (uint16_t)(open * b->d + (frames_in(b, bt[open]) - 1) / b->beta);
}

/* The marks of a virtual block: in each segment the last whole frame of each
   cluster whose CT entry names it. */
static void start_marks(const struct board *b, const struct lent *l,
                        uint32_t entry)
{
    uint64_t *words = l->marks + WORDS * (size_t)entry;
    uint32_t block = l->bt[entry];

    memset(words, 0, WORDS * sizeof *words);
    for (uint32_t f = 0; block != NONE && f < b->frames; f++) {
        uint32_t segment = entry % b->gamma * b->d + f / b->beta;
        uint32_t end = (f / b->beta + 1) * b->beta, cluster, later;

        if (!is_whole(b, block, f))
            continue;
        cluster = cluster_in(spare_at(b, block, f));
        if (l->ct[cluster] != segment)
            continue;
        for (later = f + 1; later < end; later++)
            if (is_whole(b, block, later)
                && cluster_in(spare_at(b, block, later)) == cluster)
                break;
        if (later == end)
            words[f / 64] |= UINT64_C(1) << f % 64;
    }
}

/* All tables, from the chip alone. */
static uint64_t start_steps(const struct board *b, const struct lent *l)
{
    uint32_t erases = start_blocks(b, l);

    memset(l->ct, 255, b->c * sizeof *l->ct);
    for (uint32_t r = 0; r < b->mu; r++)
        start_region(b, l, r);
    for (uint32_t x = 0; x < b->c; x++)
        if (l->ct[x] != NONE)
            l->ct[x] = (uint16_t)(l->ct[x] / b->beta);
    for (uint32_t i = 0; i < b->mu * b->gamma; i++)
        start_marks(b, l, i);
    return answer(ACCEPTED, 0, erases);
}

/* Refuses or makes the steps of a start. */
uint64_t fast_start(uint32_t s, uint32_t alpha, uint32_t beta, uint32_t d,
                    uint32_t mu, uint32_t gamma, uint32_t c, uint32_t n,
                    uint32_t e,
                    uint8_t *chip, size_t chip_len,
                    uint16_t *ct, size_t ct_len,
                    uint16_t *bt, size_t bt_len,
                    uint16_t *fst, size_t fst_len,
                    uint8_t *bst, size_t bst_len,
                    uint32_t *wear, size_t wear_len,
                    uint64_t *marks, size_t marks_len,
                    uint32_t *stamps, size_t stamps_len)
{
    struct board b = make_board(s, alpha, beta, d, mu, gamma, c, n, e);
    struct lent l = { chip, ct, bt, fst, bst, wear, marks, stamps };
    uint32_t reply = refuse_board(&b, chip_len, ct_len, bt_len, fst_len,
                                  bst_len, wear_len, marks_len, stamps_len);

    if (reply != ACCEPTED)
        return answer(reply, 0, 0);
    look_at(&b, chip, ct, bt, fst, bst, wear, marks, stamps);
    if (!startable(&b))
        return answer(NOT_ORDERLY, 0, 0);
    return start_steps(&b, &l);
}
