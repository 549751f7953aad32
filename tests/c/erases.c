/*
 * erases.c - holds the writes per erase of cnftl.h (document 02, T-10) against
 * the answers of the layer on boards that are written for long.
 *
 * Each board is small and of any shape, and the layer formats it.  Then it gets
 * single writes, queues, releases, reads, starts and calls that are refused.
 * The erases of a region are those that the answers to its accepted writes
 * count, and two of them must never be fewer than G accepted writes to the
 * region apart, where G is the figure.  That is T-10 for every window: one with
 * e erases is then at least (e - 1)*G + 1 writes long, so k writes bring at
 * most k/G erases, rounded up.  Half of the boards have few rated erases: their
 * blocks wear out until writes find none that is free, and soon after that the
 * board gets no more calls.  A write may find none only once the board's life
 * is over (cnftl.h, "How long a board lasts").
 *
 *   erases CALLS SEED [MORE]    with G + MORE in place of G
 *
 * Exit status: 0 all is as the figure says, 1 it is not or something was never
 * seen, 2 wrong use, 3 it is not while MORE is above 0.
 */
#include "cnftl.h"

#include <assert.h>
#include <inttypes.h>
#include <stdbool.h>
#include <stdio.h>
#include <stdlib.h>
#include <string.h>

enum { MOST_S = 18, MOST_ALPHA = 3, MOST_BETA = 4, MOST_D = 3, MOST_MU = 4 };
enum { MOST_GAMMA = 4, MOST_SPARE = 4, WORN_SPARE = 24, RATED = 1000000 };
enum { MOST_N = MOST_MU * MOST_GAMMA + WORN_SPARE };
enum { MOST_P = MOST_ALPHA * MOST_BETA * MOST_D };
enum { MOST_C = MOST_MU * (MOST_GAMMA * MOST_BETA * MOST_D - 1) };
enum { MOST_DATA = MOST_ALPHA * MOST_S, MOST_ITEMS = 8, REPLIES = 11 };
enum { CALLS_EACH = 1000, LAST_CALLS = 20 }; /* that a board gets, and once
                                                no block is left */

/* Where a board's writes go: anywhere, most often to few hot clusters, or where
   they leave the most to copy. */
enum traffic { EVEN, HOT, COSTLY, TRAFFICS };

/* What is known of a region since the format. */
struct region {
    uint32_t figure;    /* its writes per erase */
    uint32_t copies;    /* the most frames that a reclaim copies */
    uint64_t writes;    /* accepted writes */
    uint64_t erased_at; /* the last of them that erased, from 1; 0 for none */
};

static uint8_t chip[MOST_N * MOST_P * (MOST_S + CNFTL_SPARE_BYTES)];
static uint16_t ct[MOST_C], bt[MOST_MU * MOST_GAMMA], fst[MOST_MU];
static uint8_t bst[MOST_N], data[MOST_DATA];
static uint32_t wear[MOST_N];
static uint64_t marks[CNFTL_MARK_WORDS * MOST_MU * MOST_GAMMA];
static uint32_t stamps[MOST_MU];
static struct cnftl_board board = {
    { 0, 0, 0, 0, 0, 0, 0, 0, 0 }, chip, ct, bt, fst, bst, wear, marks, stamps
};
static struct cnftl_params *const p = &board.params;
static struct region regions[MOST_MU];
static enum traffic traffic;
static bool releasing;         /* whether this board gets releases */
static uint32_t hot_from, hot; /* the hot clusters */
static uint64_t counted_wear;  /* what the wear should be in all */
static uint64_t good;          /* the blocks that the format found good */
static int left;               /* the calls that this board still gets */
static bool reached;           /* whether a figure of 2 or more was reached:
                                  two erases exactly that far apart */

/* What was seen. */
static uint64_t calls, boards, fewer_clusters, writes, items, erases;
static uint64_t releases, reads, starts, refusals[REPLIES];
static uint64_t worn, worn_boards; /* blocks worn out, boards that have them */
static uint64_t short_erases;      /* erases by writes where mu*gamma blocks or
                                      fewer are not reserved after them */
/* By gamma: boards with a figure of 2 or more, those of them that reached it,
   and the erases by which they did. */
static uint64_t roomy[MOST_GAMMA + 1], tight[MOST_GAMMA + 1];
static uint64_t exact[MOST_GAMMA + 1];

static uint32_t more;
static uint64_t seed, rnd_state;

/* A random number below n, which is not 0 (splitmix64). */
static uint32_t below(uint32_t n)
{
    uint64_t z = rnd_state += UINT64_C(0x9e3779b97f4a7c15);

    z = (z ^ z >> 30) * UINT64_C(0xbf58476d1ce4e5b9);
    z = (z ^ z >> 27) * UINT64_C(0x94d049bb133111eb);
    return (uint32_t)((z >> 33) % n);
}

/* Ends the run with what is wrong, and the board. */
static void fail(const char *what)
{
    printf("erases: %s at call %" PRIu64 " (seed %" PRIu64 ")\n", what, calls,
           seed);
    printf("  s=%" PRIu32 " alpha=%" PRIu32 " beta=%" PRIu32 " d=%" PRIu32
           " mu=%" PRIu32 " gamma=%" PRIu32 " c=%" PRIu32 " n=%" PRIu32
           " e=%" PRIu32 "\n", p->s, p->alpha, p->beta, p->d, p->mu, p->gamma,
           p->c, p->n, p->e);
    exit(more == 0 ? 1 : 3);
}

/* ==== Boards =========================================================== */

/* Any small parameters.  A region has from one spare frame up to all but one,
   and the last regions have a cluster less than the first, at times none. */
static void choose_params(void)
{
    static const uint32_t few[] = { 2, 3, 5, 20 };
    uint32_t frames, e = below(2) == 0 ? RATED : few[below(4)];

    do {
        *p = (struct cnftl_params){
            16 + below(MOST_S - 15), 1 + below(MOST_ALPHA),
            1 + below(MOST_BETA), 1 + below(MOST_D), 1 + below(MOST_MU),
            1 + below(MOST_GAMMA), 0, 0, e
        };
        frames = p->gamma * p->beta * p->d;
    } while (frames == 1);
    p->c = p->mu * below(frames - 1) + 1 + below(p->mu);
    p->n = p->mu * p->gamma + 1 + below(e < RATED ? WORN_SPARE : MOST_SPARE);
    assert(cnftl_params_allowed(p) && p->c <= MOST_C && p->n <= MOST_N);
}

/* A new chip, with the maker's bad mark on as many blocks as may have it, or on
   few where blocks wear out soon. */
static void new_chip(void)
{
    uint32_t most = p->n - p->mu * p->gamma - 1;

    memset(chip, 255, sizeof chip);
    memset(wear, 0, sizeof wear);
    for (uint32_t i = p->e < RATED ? below(most / 4 + 1) : most; i > 0; i--) {
        size_t page = below(p->n) * cnftl_pages_per_block(p);

        chip[page * cnftl_page_bytes(p) + p->s + 5] = 0;
    }
}

/* A region's figure, and what else follows from its clusters, counted here one
   by one. */
static void open_region(uint32_t region)
{
    uint32_t clusters = 0;

    for (uint32_t cluster = 0; cluster < p->c; cluster++)
        clusters += cluster % p->mu == region;
    regions[region] = (struct region){
        cnftl_writes_per_erase(p, region), clusters / p->gamma, 0, 0
    };
}

/* A new board, formatted, and the traffic that it gets. */
static void open_board(void)
{
    bool two_or_more = false;
    uint64_t a;

    choose_params();
    new_chip();
    a = cnftl_board_format(&board);
    if (cnftl_reply_of(a) != CNFTL_ACCEPTED)
        fail("a format is refused");
    good = counted_wear = cnftl_erases_of(a);
    for (uint32_t region = 0; region < p->mu; region++) {
        open_region(region);
        two_or_more |= regions[region].figure >= 2 && region < p->c;
    }
    traffic = (enum traffic)below(TRAFFICS);
    releasing = below(2) == 0;
    hot = 1 + below(p->c < 4 ? p->c : 4);
    hot_from = below(p->c - hot + 1);
    reached = false;
    boards++;
    fewer_clusters += p->c < p->mu;
    roomy[p->gamma] += two_or_more;
}

/* The erases answered since the format, and its own, are those that the table
   of wear counts, and a block is worn exactly if that counts E or more. */
static void close_board(void)
{
    uint64_t all = 0, before = worn;

    for (uint32_t block = 0; block < p->n; block++) {
        all += wear[block];
        worn += wear[block] >= p->e;
        if (wear[block] > p->e)
            fail("a worn block is erased");
        if (wear[block] >= p->e && bst[block] != CNFTL_BLOCK_RESERVED)
            fail("a worn block is not reserved");
    }
    if (all != counted_wear)
        fail("another sum of wear than erases answered");
    worn_boards += worn > before;
    tight[p->gamma] += reached;
}

/* Blocks with this entry in BST. */
static uint32_t blocks_that_are(enum cnftl_block_state state)
{
    uint32_t all = 0;

    for (uint32_t block = 0; block < p->n; block++)
        all += bst[block] == state;
    return all;
}

/* Whether fewer than mu*gamma+1 blocks are not reserved. */
static bool is_short(void)
{
    return p->n - blocks_that_are(CNFTL_BLOCK_RESERVED) <= p->mu * p->gamma;
}

/* ==== Writes =========================================================== */

/* Looks at an erase by the region's last write. */
static void hold_erase(struct region *r)
{
    uint64_t apart = r->writes - r->erased_at;

    erases++;
    counted_wear++;
    short_erases += is_short();
    if (r->erased_at != 0 && apart < r->figure + more)
        fail("two erases of a region nearer than its figure");
    if (r->erased_at != 0 && apart == r->figure && r->figure >= 2) {
        reached = true;
        exact[p->gamma]++;
    }
    r->erased_at = r->writes;
}

/* Whether as many erases were made since the format, which found no wear, as a
   board lasts at least. */
static bool life_is_over(void)
{
    return counted_wear - good >= (good - p->mu * p->gamma) * (p->e - 1);
}

/* Counts a write by its answer; a reclaim copies at most L/gamma frames. */
static void count_write(uint32_t lba, uint64_t a)
{
    struct region *r = &regions[lba / p->alpha % p->mu];

    if (cnftl_reply_of(a) == CNFTL_NO_BLOCK_LEFT && !life_is_over())
        fail("no block is left before the board's life is over");
    if (cnftl_reply_of(a) == CNFTL_NO_BLOCK_LEFT && left > LAST_CALLS)
        left = LAST_CALLS;
    if (cnftl_reply_of(a) != CNFTL_ACCEPTED) {
        refusals[cnftl_reply_of(a) % REPLIES]++;
        return;
    }
    writes++;
    r->writes++;
    if (cnftl_programs_of(a) > p->alpha * (r->copies + 1))
        fail("a write copies too many frames");
    if (cnftl_erases_of(a) > 1)
        fail("a write erases more than one block");
    if (cnftl_erases_of(a) == 1)
        hold_erase(r);
}

/* The valid frames of the virtual block that holds a cluster; a cluster that
   none holds is before all others.  No block has more than 64 frames. */
static uint32_t cost_of(uint32_t cluster)
{
    uint32_t virtual_block = ct[cluster] / p->d, ones = 0;
    uint64_t word;

    if (ct[cluster] == CNFTL_NONE)
        return UINT32_MAX;
    word = marks[CNFTL_MARK_WORDS * (cluster % p->mu * p->gamma
                                     + virtual_block)];
    for (; word != 0; word &= word - 1)
        ones++;
    return ones;
}

/* The cluster of a board's next write. */
static uint32_t choose_cluster(void)
{
    uint32_t cluster = below(p->c);

    if (traffic == HOT && below(8) != 0)
        return hot_from + below(hot);
    for (int i = 0; i < 8 && traffic == COSTLY; i++) {
        uint32_t other = below(p->c);

        if (cost_of(other) > cost_of(cluster))
            cluster = other;
    }
    return cluster;
}

/* A write of the data's first bytes that is right for the board. */
static struct cnftl_request choose_write(void)
{
    uint32_t place = below(p->alpha);
    uint32_t lba = choose_cluster() * p->alpha + place;

    return (struct cnftl_request){ lba, 1 + below(p->alpha - place), 0 };
}

/* Whether a write may be refused with 10: blocks are worn, and none is free. */
static bool is_blockless(uint64_t a)
{
    return a == CNFTL_NO_BLOCK_LEFT && is_short()
        && blocks_that_are(CNFTL_BLOCK_FREE) == 0;
}

/* One write. */
static void write_one(void)
{
    struct cnftl_request r = choose_write();
    uint64_t a = cnftl_board_write(&board, r.lba, r.count, data,
                                   (size_t)r.count * p->s);

    if (cnftl_reply_of(a) != CNFTL_ACCEPTED && !is_blockless(a))
        fail("a right write is refused");
    count_write(r.lba, a);
}

/* Several writes as one queue, now and then one that is refused. */
static void write_queue(void)
{
    struct cnftl_request requests[MOST_ITEMS];
    uint64_t answers[MOST_ITEMS];
    uint32_t count = 2 + below(MOST_ITEMS - 1);

    for (uint32_t i = 0; i < count; i++) {
        requests[i] = choose_write();
        if (below(16) == 0)
            requests[i].count = 0;
        if (below(16) == 0)
            requests[i].lba += cnftl_sectors(p);
        if (below(16) == 0)
            requests[i].first = MOST_DATA;
    }
    if (cnftl_board_queue(&board, requests, count, data, MOST_DATA, answers)
        != CNFTL_ACCEPTED)
        fail("a queue is refused");
    for (uint32_t i = 0; i < count; i++) {
        items += cnftl_reply_of(answers[i]) == CNFTL_ACCEPTED;
        count_write(requests[i].lba, answers[i]);
    }
}

/* ==== Other calls ====================================================== */

/* A release of any cluster. */
static void release_one(void)
{
    if (cnftl_board_release(&board, below(p->c)) != CNFTL_ACCEPTED)
        fail("a release is refused");
    releases++;
}

/* A read of any sector. */
static void read_one(void)
{
    static uint8_t sector[MOST_S];

    if (cnftl_board_read(&board, below(cnftl_sectors(p)), 1, sector, p->s)
        != CNFTL_ACCEPTED)
        fail("a read is refused");
    reads++;
}

/* A start, at times with the tables lost; it erases nothing. */
static void start_one(void)
{
    if (below(2) == 0) {
        memset(board.ct, 255, cnftl_ct_entries(p) * sizeof *board.ct);
        memset(board.bst, 255, cnftl_bst_entries(p));
    }
    if (cnftl_board_start(&board) != CNFTL_ACCEPTED)
        fail("a start is refused, or erases a block");
    starts++;
}

/* A queue of one write with these lengths of its lists. */
static uint64_t short_queue(size_t requests_len, size_t answers_len)
{
    static const struct cnftl_request request = { 0, 1, 0 };
    uint64_t answer;

    return cnftl_queue(CNFTL_BOARD(&board), &request.lba, requests_len, data,
                       MOST_DATA, &answer, answers_len);
}

/* The answer of a write while a mark is wrong. */
static uint64_t disordered_write(void)
{
    uint64_t a;

    marks[0] ^= 1;
    a = cnftl_board_write(&board, 0, 1, data, p->s);
    marks[0] ^= 1;
    return a;
}

/* The answer of a write while its region has no stamp left. */
static uint64_t stampless_write(void)
{
    uint32_t last = stamps[0];
    uint64_t a;

    stamps[0] = UINT32_MAX;
    a = cnftl_board_write(&board, 0, 1, data, p->s);
    stamps[0] = last;
    return a;
}

/* The answer of a call that should be refused with this reply. */
static uint64_t wrong_call(uint32_t reply)
{
    struct cnftl_board other = board;

    switch (reply) {
    case CNFTL_BAD_PARAMETER:
        other.params.alpha = 0;
        return cnftl_board_write(&other, 0, 1, data, p->s);
    case CNFTL_WRONG_LENGTH:
        return short_queue(2, 1);
    case CNFTL_BAD_COUNT:
        return cnftl_board_write(&board, 0, p->alpha + 1, data, p->s);
    case CNFTL_BAD_ADDRESS:
        return cnftl_board_write(&board, cnftl_sectors(p), 1, data, p->s);
    case CNFTL_WRONG_DATA:
        return cnftl_board_write(&board, 0, 1, data, p->s - 1);
    case CNFTL_TOO_FEW_BLOCKS:
        other.params.n = p->mu * p->gamma;
        return cnftl_board_format(&other);
    case CNFTL_NOT_ORDERLY:
        return disordered_write();
    case CNFTL_TOO_FEW_ANSWERS:
        return short_queue(3, 0);
    default:
        return stampless_write();
    }
}

/* A call that is refused, with one reply or another up to 9, and counts
   nothing. */
static void refused_call(void)
{
    uint32_t reply = 1 + below(CNFTL_NO_STAMP_LEFT);

    if (wrong_call(reply) != reply)
        fail("a wrong call is not refused as it should be");
    refusals[reply]++;
}

/* ==== The program ====================================================== */

/* One call of any kind. */
static void make_call(void)
{
    uint32_t kind = below(16);

    if (kind == 0 && releasing)
        release_one();
    else if (kind == 1)
        read_one();
    else if (kind == 2 && below(4) == 0)
        start_one();
    else if (kind == 2)
        refused_call();
    else if (kind < 7)
        write_queue();
    else
        write_one();
    calls++;
    if (calls % 100000 == 0)
        fprintf(stderr, "erases: %" PRIu64 " calls\n", calls);
}

/* Prints what was seen; false if something never was. */
static bool report(void)
{
    bool all = fewer_clusters > 0 && items > 0 && erases >= calls / 10
            && releases > 0 && reads > 0 && starts > 0 && worn > 0
            && short_erases > 0;

    printf("erases: %" PRIu64 " calls from seed %" PRIu64 " on %" PRIu64
           " boards, %" PRIu64 " of them with fewer clusters than regions\n",
           calls, seed, boards, fewer_clusters);
    printf("  %" PRIu64 " accepted writes, %" PRIu64 " of them in queues, %"
           PRIu64 " erases\n", writes, items, erases);
    printf("  %" PRIu64 " releases, %" PRIu64 " reads, %" PRIu64
           " starts, refused by reply:", releases, reads, starts);
    for (int reply = 1; reply < REPLIES; reply++) {
        printf(" %d: %" PRIu64, reply, refusals[reply]);
        all = all && refusals[reply] > 0;
    }
    printf("\n  %" PRIu64 " blocks worn out on %" PRIu64 " boards, %" PRIu64
           " erases where mu*gamma blocks or fewer were not reserved\n", worn,
           worn_boards, short_erases);
    for (int gamma = 1; gamma <= MOST_GAMMA; gamma++) {
        printf("  gamma %d: %" PRIu64 " boards with G of 2 or more, %" PRIu64
               " had erases exactly G writes apart, %" PRIu64 " times\n",
               gamma, roomy[gamma], tight[gamma], exact[gamma]);
        all = all && tight[gamma] > 0;
    }
    return all;
}

int main(int argc, char **argv)
{
    uint64_t limit;

    if (argc < 3 || argc > 4) {
        fprintf(stderr, "use: erases CALLS SEED [MORE]\n");
        return 2;
    }
    limit = strtoull(argv[1], NULL, 10);
    seed = rnd_state = strtoull(argv[2], NULL, 10);
    if (argc == 4)
        more = (uint32_t)strtoul(argv[3], NULL, 10);
    while (calls < limit) {
        open_board();
        for (left = CALLS_EACH; left > 0 && calls < limit; left--)
            make_call();
        close_board();
    }
    if (!report()) {
        printf("erases: something was never seen (seed %" PRIu64 ")\n", seed);
        return 1;
    }
    return 0;
}
