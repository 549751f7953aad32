/*
 * cuts.c - takes the power away after every operation of every call.
 *
 * Small boards of all shapes are formatted and then written, singly and by
 * queues, released and started.  Each format, write, queue and start of such a
 * run is first made with every budget from 0 to the number of its operations,
 * each time on a copy of the board.  Then the copy is started, or, where a
 * format was cut, formatted; and what every sector reads as is compared with
 * what the host knows.  That start is made twice, cut after each of its own
 * operations, and made again.  A budget of one more is the plain call.  All
 * bytes of each call are compared with the model's.  The run goes on with the
 * call as it is or, at times, with one of the boards that came back.  Half of
 * the boards have few rated erases, so that their blocks wear out and cuts fall
 * between an erase and its mark; where a write then needs a free block and
 * there is none, or a format would leave too few, it is refused at every
 * budget, and every sector still reads as before.  A board whose format was cut
 * and whose next one is refused so has come to its end.
 *
 * What the host knows is kept here, in plain arrays: the bytes last accepted
 * for each cluster, which clusters were released since, and the write that was
 * cut short.  A wrong layer, which is a mutant of the model in the layer's
 * place, is held to that alone and to no model.
 *
 *   cuts [--cuts N] [--seed S] [--layer K]    cut, with mutant K as the layer
 *   cuts --layers                             list the mutants to be noticed
 *
 * Exit status: 0 all is as it should be, 1 it is not or something was never
 * seen, 2 wrong use, 3 it is not with a mutant as the layer.
 */
#include "cnftl.h"
#include "model.h"
#include "options.h"

#include <assert.h>
#include <inttypes.h>
#include <stdbool.h>
#include <stdio.h>
#include <stdlib.h>
#include <string.h>

enum { MOST_S = 18, MOST_ALPHA = 4, MOST_F = 6, MOST_MU = 3, MOST_GAMMA = 4 };
enum { MOST_P = MOST_ALPHA * MOST_F, MOST_SPARE = 4, WORN_SPARE = 8 };
enum { MOST_N = MOST_MU * MOST_GAMMA + WORN_SPARE, RATED = 1000000 };
enum { MOST_C = MOST_MU * (MOST_GAMMA * MOST_F - 1), MOST_ITEMS = 3 };
enum { MOST_CLUSTER = MOST_ALPHA * MOST_S };
enum { SHAPES = MOST_ALPHA * MOST_GAMMA * MOST_MU };

/* ==== Chance =========================================================== */

static uint64_t rnd_state;

/* The next 64 random bits (splitmix64). */
static uint64_t rnd(void)
{
    uint64_t z = rnd_state += UINT64_C(0x9e3779b97f4a7c15);

    z = (z ^ z >> 30) * UINT64_C(0xbf58476d1ce4e5b9);
    z = (z ^ z >> 27) * UINT64_C(0x94d049bb133111eb);
    return z ^ z >> 31;
}

/* A random number below n, which is not 0. */
static uint32_t below(uint32_t n)
{
    return (uint32_t)((rnd() >> 32) * n >> 32);
}

/* A random number from low to high. */
static uint32_t between(uint32_t low, uint32_t high)
{
    return low + below(high - low + 1);
}

/* True once in n times. */
static bool once_in(uint32_t n)
{
    return below(n) == 0;
}

/* Fills memory with random bytes. */
static void fill_random(uint8_t *to, size_t len)
{
    for (size_t i = 0; i < len; i++)
        to[i] = (uint8_t)rnd();
}

/* ==== Boards and calls ================================================= */

/* All that a board lends.  What its parameters leave over must stay too. */
struct state {
    uint64_t marks[CNFTL_MARK_WORDS * MOST_MU * MOST_GAMMA];
    uint32_t wear[MOST_N], stamps[MOST_MU];
    uint16_t ct[MOST_C], bt[MOST_MU * MOST_GAMMA], fst[MOST_MU];
    uint8_t bst[MOST_N];
    uint8_t chip[MOST_N * MOST_P * (MOST_S + CNFTL_SPARE_BYTES)];
};

/* A format 'F', a write 'W', a queue 'Q', a release 'L' or a start 'S'. */
struct call {
    char kind;
    bool limited;
    uint64_t budget;
    uint32_t lba, count, cluster;
    size_t items;
    struct cnftl_request item[MOST_ITEMS];
    uint8_t data[MOST_ITEMS * MOST_CLUSTER];
};

/* What a call answers; of a queue, for each item too. */
struct answer {
    uint64_t own, item[MOST_ITEMS];
};

/* The calls that are held to the promise. */
struct layer {
    __typeof__(cnftl_format) *format;
    __typeof__(cnftl_write) *write;
    __typeof__(cnftl_queue) *queue;
    __typeof__(cnftl_release) *release;
    __typeof__(cnftl_start) *start;
    __typeof__(cnftl_read) *read;
    __typeof__(cnftl_format_cut) *format_cut;
    __typeof__(cnftl_write_cut) *write_cut;
    __typeof__(cnftl_queue_cut) *queue_cut;
    __typeof__(cnftl_start_cut) *start_cut;
};

static const struct layer product = {
    cnftl_format, cnftl_write, cnftl_queue, cnftl_release, cnftl_start,
    cnftl_read, cnftl_format_cut, cnftl_write_cut, cnftl_queue_cut,
    cnftl_start_cut
};
static const struct layer model = {
    model_format, model_write, model_queue, model_release, model_start,
    model_read, model_format_cut, model_write_cut, model_queue_cut,
    model_start_cut
};

static const struct layer *layer;
static struct cnftl_params par; /* of the board */
static uint64_t boards, cuts, wanted = 100000, seed = 1;

/* The board's parameters and a state's slices. */
static struct cnftl_board lend(struct state *b)
{
    struct cnftl_board board = {
        par, b->chip, b->ct, b->bt, b->fst, b->bst, b->wear, b->marks,
        b->stamps
    };

    return board;
}

/* Bytes of a cluster. */
static size_t cluster_bytes(void)
{
    return (size_t)par.alpha * par.s;
}

/* Makes a call with its budget. */
static uint64_t make_limited(const struct layer *by, struct state *b,
                             const struct call *k, uint64_t *answers)
{
    struct cnftl_board board = lend(b);

    switch (k->kind) {
    case 'F':
        return by->format_cut(CNFTL_BOARD(&board), k->budget);
    case 'Q':
        return by->queue_cut(CNFTL_BOARD(&board), &k->item[0].lba,
                             3 * k->items, k->data, sizeof k->data, answers,
                             k->items, k->budget);
    case 'S':
        return by->start_cut(CNFTL_BOARD(&board), k->budget);
    default:
        return by->write_cut(CNFTL_BOARD(&board), k->lba, k->count, k->data,
                             (size_t)k->count * par.s, k->budget);
    }
}

/* Makes a call without one. */
static uint64_t make_plain(const struct layer *by, struct state *b,
                           const struct call *k, uint64_t *answers)
{
    struct cnftl_board board = lend(b);

    switch (k->kind) {
    case 'F':
        return by->format(CNFTL_BOARD(&board));
    case 'Q':
        return by->queue(CNFTL_BOARD(&board), &k->item[0].lba, 3 * k->items,
                         k->data, sizeof k->data, answers, k->items);
    case 'L':
        return by->release(CNFTL_BOARD(&board), k->cluster);
    case 'S':
        return by->start(CNFTL_BOARD(&board));
    default:
        return by->write(CNFTL_BOARD(&board), k->lba, k->count, k->data,
                         (size_t)k->count * par.s);
    }
}

/* Makes a call.  No answer is all ones, so a place that stays so has none. */
static struct answer make(const struct layer *by, struct state *b,
                          const struct call *k)
{
    struct answer a;

    memset(&a, 255, sizeof a);
    a.own = k->limited ? make_limited(by, b, k, a.item)
                       : make_plain(by, b, k, a.item);
    return a;
}

/* Tells what is wrong with a call, and ends the run. */
static void fail(const struct call *k, const char *what)
{
    printf("cuts: %s, after %" PRIu64 " cuts, on board %" PRIu64 " (seed %"
           PRIu64 ")\n", what, cuts, boards, seed);
    printf("  call %c, lba %" PRIu32 ", count %" PRIu32 ", %zu items, ",
           k->kind, k->lba, k->count, k->items);
    if (k->limited)
        printf("budget %" PRIu64 "\n", k->budget);
    else
        printf("no budget\n");
    printf("  s=%" PRIu32 " alpha=%" PRIu32 " beta=%" PRIu32 " d=%" PRIu32
           " mu=%" PRIu32 " gamma=%" PRIu32 " c=%" PRIu32 " n=%" PRIu32
           " e=%" PRIu32 "\n", par.s, par.alpha, par.beta, par.d, par.mu,
           par.gamma, par.c, par.n, par.e);
    exit(model_mutant == MODEL_RIGHT ? 1 : 3);
}

/* The end of the run unless it holds. */
static void expect(bool holds, const struct call *k, const char *what)
{
    if (!holds)
        fail(k, what);
}

/* Makes a call by the layer and, on a copy, by the model, and compares all
   bytes.  Returns the answer. */
static struct answer make_both(struct state *b, const struct call *k)
{
    static struct state twin;
    struct answer a, by_model;

    if (layer == &model)
        return make(layer, b, k);
    memcpy(&twin, b, sizeof twin);
    a = make(layer, b, k);
    by_model = make(&model, &twin, k);
    expect(memcmp(&a, &by_model, sizeof a) == 0, k, "another answer");
    expect(memcmp(b->chip, twin.chip, sizeof twin.chip) == 0, k,
           "another chip");
    expect(memcmp(b, &twin, sizeof twin) == 0, k, "other tables");
    return a;
}

/* The same call with a budget. */
static struct call with_budget(const struct call *k, uint64_t budget)
{
    struct call limited = *k;

    limited.limited = true;
    limited.budget = budget;
    return limited;
}

/* The programs and erases of an answer; none where it is a refusal. */
static uint64_t operations(uint64_t a)
{
    return cnftl_programs_of(a) + (uint64_t)cnftl_erases_of(a);
}

/* A page of a chip, counted over it. */
static const uint8_t *page_at(const struct state *b, size_t page)
{
    return b->chip + page * cnftl_page_bytes(&par);
}

/* Whether a block has a bad mark on its first or second page. */
static bool is_bad(const struct state *b, size_t block)
{
    size_t pages = cnftl_pages_per_block(&par);
    const uint8_t *first = page_at(b, block * pages) + par.s;

    return first[5] != 255
        || (pages > 1 && first[cnftl_page_bytes(&par) + 5] != 255);
}

/* How many blocks have one. */
static uint32_t bad_in(const struct state *b)
{
    uint32_t bad = 0;

    for (uint32_t i = 0; i < par.n; i++)
        bad += is_bad(b, i);
    return bad;
}

/* The marks of worn blocks of the call that is cut, which no answer reports,
   and those of its items. */
static struct {
    uint64_t own, item[MOST_ITEMS];
} marked;

/* Counts them, those of a queue by single writes. */
static void count_marks(const struct state *before, const struct state *after,
                        const struct call *k)
{
    static struct state b;
    uint32_t bad = bad_in(before);

    memset(&marked, 0, sizeof marked);
    memcpy(&b, before, sizeof b);
    if (k->kind != 'Q')
        marked.own = bad_in(after) - bad;
    for (size_t i = 0; i < k->items; i++) {
        struct cnftl_board board = lend(&b);
        const struct cnftl_request *item = &k->item[i];
        size_t len = (size_t)item->count * par.s;

        if (item->first + len <= sizeof k->data)
            layer->write(CNFTL_BOARD(&board), item->lba, item->count,
                         k->data + item->first, len);
        marked.item[i] = bad_in(&b) - bad;
        bad = bad_in(&b);
    }
}

/* The operations of a call: of a queue, of its items together. */
static uint64_t operations_of(const struct call *k, const struct answer *a)
{
    uint64_t made = operations(a->own) + marked.own;

    for (size_t i = 0; i < k->items; i++)
        made += operations(a->item[i]) + marked.item[i];
    return made;
}

/* ==== What the host knows ============================================== */

/* The bytes last accepted for each cluster, 255 where there are none, and the
   clusters released since; and the write that was cut short, if one was, with
   what its cluster would be. */
struct knowledge {
    uint8_t bytes[MOST_C][MOST_CLUSTER];
    bool released[MOST_C];
    bool unfinished;
    uint32_t cluster;
    uint8_t fresh[MOST_CLUSTER];
};

static uint64_t came_old, came_new; /* writes cut short, as they came back */
static uint64_t came_back;          /* released clusters that came back */
static uint64_t reads;              /* clusters read and compared */

/* What a cluster would be once these sectors are written. */
static void merge(const struct knowledge *host, uint32_t lba, uint32_t count,
                  const uint8_t *data, uint8_t *to)
{
    memcpy(to, host->bytes[lba / par.alpha], cluster_bytes());
    memcpy(to + lba % par.alpha * par.s, data, (size_t)count * par.s);
}

/* A write was accepted. */
static void know_write(struct knowledge *host, uint32_t lba, uint32_t count,
                       const uint8_t *data)
{
    uint8_t bytes[MOST_CLUSTER];

    merge(host, lba, count, data, bytes);
    memcpy(host->bytes[lba / par.alpha], bytes, cluster_bytes());
    host->released[lba / par.alpha] = false;
}

/* A write was cut short. */
static void know_unfinished(struct knowledge *host, uint32_t lba,
                            uint32_t count, const uint8_t *data)
{
    host->unfinished = true;
    host->cluster = lba / par.alpha;
    merge(host, lba, count, data, host->fresh);
}

/* A format was accepted. */
static void know_nothing_written(struct knowledge *host)
{
    memset(host, 0, sizeof *host);
    memset(host->bytes, 255, sizeof host->bytes);
}

/* A cluster was released. */
static void know_release(struct knowledge *host, uint32_t cluster)
{
    memset(host->bytes[cluster], 255, cluster_bytes());
    host->released[cluster] = true;
}

/* The number of four bytes, low byte first. */
static uint32_t number_at(const uint8_t *from)
{
    return from[0] | (uint32_t)from[1] << 8 | (uint32_t)from[2] << 16
         | (uint32_t)from[3] << 24;
}

/* What a released cluster comes back with: the whole frame with the largest
   stamp that is left on the chip, or 255 throughout. */
static void latest_left(const struct state *b, uint32_t cluster, uint8_t *to)
{
    size_t pages = cnftl_pages_per_block(&par);
    bool found = false;
    uint32_t most = 0;

    memset(to, 255, cluster_bytes());
    for (size_t page = 0; page < par.n * pages; page += par.alpha) {
        const uint8_t *last = page_at(b, page + par.alpha - 1) + par.s;

        if (last[6] != 0 || number_at(last) != cluster
            || is_bad(b, page / pages)
            || (found && number_at(last + 7) < most))
            continue;
        found = true;
        most = number_at(last + 7);
        for (uint32_t i = 0; i < par.alpha; i++)
            memcpy(to + i * par.s, page_at(b, page + i), par.s);
    }
    came_back += found;
}

/* Reads a cluster. */
static void read_cluster(struct state *b, uint32_t cluster, uint8_t *to,
                         const struct call *k)
{
    struct cnftl_board board = lend(b);
    uint64_t a = layer->read(CNFTL_BOARD(&board), cluster * par.alpha,
                             par.alpha, to, cluster_bytes());

    expect(a == CNFTL_ACCEPTED, k, "a read after it is refused");
    reads++;
}

/* Reads every cluster of a board that was not cut: reads hold also where no
   block is left. */
static void read_all(struct state *b, const struct knowledge *host,
                     const struct call *k)
{
    for (uint32_t x = 0; x < par.c; x++) {
        uint8_t now[MOST_CLUSTER];

        read_cluster(b, x, now, k);
        expect(memcmp(now, host->bytes[x], cluster_bytes()) == 0, k,
               "beside it a cluster reads otherwise");
    }
}

/* Reads every cluster after a start on the chip as it was cut, and holds it to
   what the host knows.  What is found is what the host then knows. */
static void find_all(struct state *b, const struct state *as_cut,
                     const struct knowledge *host, struct knowledge *found,
                     const struct call *k)
{
    memset(found, 0, sizeof *found);
    for (uint32_t x = 0; x < par.c; x++) {
        uint8_t old[MOST_CLUSTER], *now = found->bytes[x];
        bool is_old, is_new;

        read_cluster(b, x, now, k);
        if (host->released[x])
            latest_left(as_cut, x, old);
        else
            memcpy(old, host->bytes[x], cluster_bytes());
        is_old = memcmp(now, old, cluster_bytes()) == 0;
        is_new = host->unfinished && host->cluster == x
              && memcmp(now, host->fresh, cluster_bytes()) == 0;
        expect(is_old || is_new, k, "after it a cluster reads otherwise");
        if (host->unfinished && host->cluster == x) {
            came_new += is_new;
            came_old += !is_new;
        }
    }
}

/* ==== Cuts ============================================================= */

static const char cut_kinds[] = "FWQS";
static uint64_t calls_cut[4], cuts_of[4]; /* by kind */
static uint64_t starts, start_erases;     /* starts after a cut, their erases */
static uint64_t finished_items;           /* accepted ones of cut queues */
static uint64_t longest;                  /* the most operations of a call */
static uint64_t worn, worn_starts;        /* blocks worn out, and by starts */
static uint64_t unmarked;                 /* cuts between erase and mark */
static uint64_t tens, sixes;              /* writes and formats of runs that
                                             were refused with 10 and 6 */
static uint64_t ends;                     /* boards whose format was cut and
                                             that none can be made on */

static const struct call start_call = {
    'S', false, 0, 0, 0, 0, 0, { { 0, 0, 0 } }, { 0 }
};

/* Whether a slice is all ones. */
static bool all_ones(const void *slice, size_t bytes)
{
    for (size_t i = 0; i < bytes; i++)
        if (((const uint8_t *)slice)[i] != 255)
            return false;
    return true;
}

/* Whether the tables of a board are lost, all but the wear. */
static bool is_lost(const struct state *b)
{
    return all_ones(b->ct, cnftl_ct_entries(&par) * sizeof *b->ct)
        && all_ones(b->bt, cnftl_bt_entries(&par) * sizeof *b->bt)
        && all_ones(b->fst, cnftl_fst_entries(&par) * sizeof *b->fst)
        && all_ones(b->bst, cnftl_bst_entries(&par) * sizeof *b->bst)
        && all_ones(b->marks, cnftl_marks_entries(&par) * sizeof *b->marks)
        && all_ones(b->stamps, cnftl_stamps_entries(&par) * sizeof *b->stamps);
}

/* Makes a call that its budget cuts, and counts it. */
static struct answer make_cut(struct state *b, const struct call *k)
{
    struct answer a = make_both(b, k);

    expect(a.own == 0 && is_lost(b), k, "the call is not cut");
    cuts++;
    cuts_of[strchr(cut_kinds, k->kind) - cut_kinds]++;
    if (cuts % 100000 == 0)
        fprintf(stderr, "cuts: %" PRIu64 " cuts, %" PRIu64 " boards\n", cuts,
                boards);
    return a;
}

/* A start on a board that it has to bring to this state with so many erases. */
static void start_to(const struct state *from, const struct call *k,
                     const struct state *right, uint64_t erases)
{
    static struct state b;
    struct answer a;

    memcpy(&b, from, sizeof b);
    a = make_both(&b, k);
    expect(a.own == erases << 32, k, "a start finds more to erase, or less");
    expect(memcmp(&b, right, sizeof b) == 0, k, "a start finds otherwise");
}

/* Whether a block is erased throughout, but for the mark of a worn block. */
static bool is_worn(const struct state *b, uint32_t block)
{
    size_t pages = cnftl_pages_per_block(&par), page = cnftl_page_bytes(&par);
    const uint8_t *first = page_at(b, block * pages);

    return first[par.s + 5] == 0 && all_ones(first, par.s + 5)
        && all_ones(first + par.s + 6, pages * page - par.s - 6);
}

/* Looks that of the blocks erased between two boards exactly those are worn
   whose wear came to E; a cut call's last erase may have no mark yet. */
static void worn_right(const struct state *before, const struct state *after,
                       const struct call *k, bool is_cut)
{
    uint32_t without = 0;

    for (uint32_t i = 0; i < par.n; i++) {
        bool fresh = is_bad(after, i) && !is_bad(before, i);
        bool due = after->wear[i] != before->wear[i] && after->wear[i] >= par.e;

        expect(!fresh || is_worn(after, i), k, "a mark on another block");
        expect(!fresh || after->wear[i] >= par.e, k, "a mark too early");
        expect(is_cut || !fresh || after->bst[i] == CNFTL_BLOCK_RESERVED, k,
               "a worn block is not reserved");
        without += due && !fresh;
    }
    expect(without <= (is_cut ? 1 : 0), k, "a worn block is not marked");
    unmarked += without;
}

/* The board that a start leaves where the one before it was cut between an
   erase and its mark: the block is erased and free. */
static void unmark(const struct state *as_cut, struct state *b)
{
    size_t bytes = cnftl_pages_per_block(&par) * cnftl_page_bytes(&par);

    for (uint32_t i = 0; i < par.n; i++)
        if (is_bad(b, i) && !is_bad(as_cut, i)) {
            b->chip[i * bytes + par.s + 5] = 255;
            b->bst[i] = CNFTL_BLOCK_FREE;
        }
}

/* Starts a board that was cut, and looks that it has come back with what the
   host knows: once, and again, and where the start is cut itself. */
static void start_after(const struct state *as_cut, struct state *b,
                        const struct knowledge *host, struct knowledge *found,
                        const struct call *k)
{
    static struct state again, without;
    struct call limited;
    struct answer a;
    uint64_t erases, most;

    memcpy(b, as_cut, sizeof *b);
    a = make_both(b, &start_call);
    erases = cnftl_erases_of(a.own);
    expect(a.own == erases << 32, k, "the start after it is refused");
    expect(erases <= 1, k, "the start after it erases more than one block");
    worn_right(as_cut, b, k, false);
    starts++;
    start_erases += erases;
    most = erases + bad_in(b) - bad_in(as_cut);
    worn_starts += most - erases;
    find_all(b, as_cut, host, found, k);
    start_to(b, &start_call, b, 0);
    memcpy(&without, b, sizeof without);
    unmark(as_cut, &without);
    for (uint64_t i = 0; i <= most; i++) {
        limited = with_budget(&start_call, i);
        memcpy(&again, as_cut, sizeof again);
        make_cut(&again, &limited);
        worn_right(as_cut, &again, &limited, true);
        start_to(&again, &start_call, i == 1 && most == 2 ? &without : b,
                 i == 0 ? erases : 0);
    }
    limited = with_budget(&start_call, most + 1);
    start_to(as_cut, &limited, b, erases);
}

/* What the host knows after a queue that was cut, from the answers that stand:
   those of the items by whose end fewer than the budget were made, as the
   plain queue gives them. */
static void know_cut_queue(const struct call *k, const struct answer *a,
                           const struct answer *plain, struct knowledge *host)
{
    uint64_t made = 0;
    bool before = true;

    for (size_t i = 0; i < k->items; i++) {
        const struct cnftl_request *item = &k->item[i];
        const uint8_t *data = k->data + item->first;
        bool right = cnftl_reply_of(plain->item[i]) == CNFTL_ACCEPTED;

        made += operations(plain->item[i]) + marked.item[i];
        expect(a->item[i] == (made < k->budget ? plain->item[i] : UINT64_MAX),
               k, "another item is finished");
        if (made < k->budget && right) {
            know_write(host, item->lba, item->count, data);
            finished_items++;
        } else if (made >= k->budget && before) {
            before = false;
            if (right)
                know_unfinished(host, item->lba, item->count, data);
        }
    }
}

/* The same after any call that was cut. */
static void know_cut(const struct call *k, const struct answer *a,
                     const struct answer *plain, struct knowledge *host)
{
    if (k->kind == 'W')
        know_unfinished(host, k->lba, k->count, k->data);
    if (k->kind == 'Q')
        know_cut_queue(k, a, plain, host);
}

/* Whether a format of this board is to be refused: fewer than mu*gamma+1 blocks
   are not bad and left good by one more erase. */
static bool too_few(const struct state *b)
{
    uint32_t left = 0;

    for (uint32_t i = 0; i < par.n; i++)
        left += !is_bad(b, i) && (uint64_t)b->wear[i] + 1 < par.e;
    return left < par.mu * par.gamma + 1;
}

/* Formats a board whose format was cut, and looks that nothing is on it.  False
   where that is refused because too few blocks would be left. */
static bool format_after(const struct state *as_cut, struct state *b,
                         const struct call *k, struct knowledge *found)
{
    static struct knowledge nothing;
    static struct state other;
    struct call format = start_call;
    struct answer a;

    memcpy(&other, as_cut, sizeof other);
    make_both(&other, &start_call);
    memcpy(b, as_cut, sizeof *b);
    format.kind = 'F';
    a = make_both(b, &format);
    if (too_few(as_cut)) {
        expect(a.own == CNFTL_TOO_FEW_BLOCKS
               && memcmp(b, as_cut, sizeof *b) == 0, k,
               "the format after it leaves too few blocks");
        return false;
    }
    expect(cnftl_reply_of(a.own) == CNFTL_ACCEPTED, k,
           "the format after it is refused");
    worn_right(as_cut, b, k, false);
    know_nothing_written(&nothing);
    find_all(b, b, &nothing, found, k);
    return true;
}

/* Looks that chip and wear stand between those before a call and after it:
   with budget 0 they are the first, and at its last operation the others. */
static void between_both(const struct state *before, const struct state *cut,
                         const struct state *after, const struct call *k,
                         bool last)
{
    for (uint32_t i = 0; i < par.n; i++)
        expect(cut->wear[i] >= before->wear[i]
               && cut->wear[i] <= after->wear[i], k, "another wear");
    if (k->budget == 0 || last) {
        const struct state *as = last ? after : before;

        expect(memcmp(cut->chip, as->chip, sizeof as->chip) == 0
               && memcmp(cut->wear, as->wear, sizeof as->wear) == 0, k,
               "more was made, or less");
    }
}

/* Looks that a write of one sector is refused, with budget 0 and without a
   budget, and changes nothing. */
static void is_refused(const struct state *before, uint32_t lba, uint32_t reply)
{
    static struct state b;
    struct call k = start_call;

    k.kind = 'W';
    k.lba = lba;
    k.count = 1;
    memcpy(&b, before, sizeof b);
    for (int i = 0; i < 2; i++) {
        k.limited = i == 0;
        expect(make_both(&b, &k).own == reply
               && memcmp(&b, before, sizeof b) == 0, &k,
               "the call is not refused, or changes something");
    }
}

/* Cuts a call, and brings the board back; false where it does not come back. */
static bool cut_at(const struct state *before, const struct call *k,
                   const struct answer *plain, const struct state *after,
                   const struct knowledge *host, struct state *b,
                   struct knowledge *found)
{
    static struct state as_cut;
    static struct knowledge then;
    struct answer a;

    memcpy(&as_cut, before, sizeof as_cut);
    a = make_cut(&as_cut, k);
    between_both(before, &as_cut, after, k,
                 k->budget == operations_of(k, plain));
    worn_right(before, &as_cut, k, true);
    is_refused(&as_cut, 0, CNFTL_NOT_ORDERLY);
    if (k->kind == 'F')
        return format_after(&as_cut, b, k, found);
    memcpy(&then, host, sizeof then);
    know_cut(k, &a, plain, &then);
    start_after(&as_cut, b, &then, found, k);
    return true;
}

/* A budget that is not spent makes no difference. */
static void whole_with(const struct state *before, const struct call *k,
                       const struct answer *plain, const struct state *after)
{
    static struct state b;
    struct answer a;

    memcpy(&b, before, sizeof b);
    a = make_both(&b, k);
    expect(memcmp(&a, plain, sizeof a) == 0 && memcmp(&b, after, sizeof b) == 0,
           k, "an unspent budget makes a difference");
}

/* Cuts a call after every one of its operations.  One of the boards, and what
   is known of it, is kept; false where that one does not come back. */
static bool cut_everywhere(const struct state *before, const struct call *k,
                           const struct answer *plain,
                           const struct state *after,
                           const struct knowledge *host, struct state *kept,
                           struct knowledge *kept_host)
{
    static struct state b;
    static struct knowledge found;
    uint64_t most = operations_of(k, plain), keep = below((uint32_t)most + 1);
    bool back = true;

    is_refused(before, cnftl_sectors(&par), CNFTL_BAD_ADDRESS);
    for (uint64_t i = 0; i <= most; i++) {
        struct call limited = with_budget(k, i);
        bool now = cut_at(before, &limited, plain, after, host, &b, &found);

        if (i == keep) {
            back = now;
            memcpy(kept, &b, sizeof b);
            memcpy(kept_host, &found, sizeof found);
        }
    }
    for (int i = 0; i < 2; i++) {
        struct call limited = with_budget(k, i == 0 ? most + 1 : UINT64_MAX);

        whole_with(before, &limited, plain, after);
    }
    calls_cut[strchr(cut_kinds, k->kind) - cut_kinds]++;
    longest = most > longest ? most : longest;
    return back;
}

/* ==== Runs ============================================================= */

static uint64_t shapes[SHAPES]; /* boards by alpha, gamma and mu */
static uint64_t bad_blocks;     /* of all boards */
static uint64_t reclaims;       /* in runs */
static uint64_t went_on;        /* times that a run went on after a cut */
static uint32_t hot;            /* the clusters that get half the traffic */

/* The parameters of a board: each shape in its turn, C tight half of the time,
   few rated erases half of the time, and a few blocks more than needed. */
static struct cnftl_params some_parameters(void)
{
    static const uint32_t few[] = { 2, 3, 3, 5, 20 };
    uint32_t shape = (uint32_t)(boards % SHAPES), most;
    struct cnftl_params p = { 0, 0, 0, 0, 0, 0, 0, 0, RATED };

    shapes[shape]++;
    p.s = between(16, MOST_S);
    p.alpha = 1 + shape % MOST_ALPHA;
    p.gamma = 1 + shape / MOST_ALPHA % MOST_GAMMA;
    p.mu = 1 + shape / MOST_ALPHA / MOST_GAMMA;
    do {
        p.beta = between(1, 3);
        p.d = between(1, 3);
    } while (p.beta * p.d > MOST_F || p.gamma * p.beta * p.d == 1);
    most = p.gamma * p.beta * p.d - 1;
    p.c = p.mu * (once_in(2) ? most : between(1, most)) - below(p.mu);
    if (once_in(2))
        p.e = few[below(sizeof few / sizeof *few)];
    p.n = p.mu * p.gamma + between(1, p.e < RATED ? WORN_SPARE : MOST_SPARE);
    return p;
}

/* The wear of a block: what the first format wears out, while it need not be
   left, and else less. */
static uint32_t some_wear(uint32_t *spare)
{
    const uint32_t values[] = { par.e - 1, par.e, par.e + 1, UINT32_MAX - 1 };

    if (*spare == 0 || !once_in(4))
        return below(par.e - 1 < 4 ? par.e - 1 : 4);
    *spare -= 1;
    return values[below(4)];
}

/* A new board: any chip, with bad blocks as long as there are enough others,
   and any tables. */
static void new_board(struct state *b)
{
    size_t pages = cnftl_pages_per_block(&par), page = cnftl_page_bytes(&par);
    uint32_t spare = par.n - par.mu * par.gamma - 1;

    fill_random((uint8_t *)b, sizeof *b);
    if (once_in(2))
        memset(b->chip, 255, sizeof b->chip);
    for (uint32_t i = 0; i < par.n; i++) {
        uint8_t *first = b->chip + i * pages * page + par.s + 5;
        uint8_t *second = pages > 1 ? first + page : first;

        *first = *second = 255;
        if (spare > 0 && once_in(4)) {
            *(once_in(2) ? first : second) = (uint8_t)below(255);
            spare--;
            bad_blocks++;
        }
        b->wear[i] = some_wear(&spare);
    }
    hot = between(1, par.c < 3 ? par.c : 3);
}

/* Sectors of one cluster. */
static void some_sectors(uint32_t *lba, uint32_t *count)
{
    uint32_t place = once_in(2) ? 0 : below(par.alpha);

    *lba = (once_in(2) ? below(hot) : below(par.c)) * par.alpha + place;
    *count = once_in(2) ? par.alpha - place : between(1, par.alpha - place);
}

/* A call that the board accepts if it has the blocks; an item of a queue may be
   refused. */
static struct call some_call(char kind)
{
    struct call k = start_call;

    k.kind = kind;
    k.cluster = once_in(2) ? below(hot) : below(par.c);
    fill_random(k.data, sizeof k.data);
    if (kind == 'W')
        some_sectors(&k.lba, &k.count);
    if (kind == 'Q')
        k.items = below(MOST_ITEMS + 1);
    for (size_t i = 0; i < k.items; i++) {
        struct cnftl_request *item = &k.item[i];

        some_sectors(&item->lba, &item->count);
        item->first = below((MOST_ITEMS - 1) * MOST_CLUSTER);
        if (once_in(8))
            item->count = once_in(2) ? 0 : par.alpha + 1;
        else if (once_in(8))
            item->first = sizeof k.data;
    }
    return k;
}

/* What the host knows after a call of the run. */
static void know_call(const struct call *k, const struct answer *a,
                      struct state *b, struct knowledge *host)
{
    static struct knowledge found;

    if (k->kind == 'F')
        know_nothing_written(host);
    if (k->kind == 'W')
        know_write(host, k->lba, k->count, k->data);
    if (k->kind == 'L')
        know_release(host, k->cluster);
    for (size_t i = 0; i < k->items; i++)
        if (cnftl_reply_of(a->item[i]) == CNFTL_ACCEPTED)
            know_write(host, k->item[i].lba, k->item[i].count,
                       k->data + k->item[i].first);
    if (k->kind == 'S') {
        find_all(b, b, host, &found, k);
        memcpy(host, &found, sizeof found);
    }
}

/* Whether worn blocks have left a board no free one. */
static bool no_block_left(const struct state *b)
{
    uint32_t reserved = 0;

    for (uint32_t i = 0; i < par.n; i++) {
        if (b->bst[i] == CNFTL_BLOCK_FREE)
            return false;
        reserved += b->bst[i] == CNFTL_BLOCK_RESERVED;
    }
    return par.n - reserved <= par.mu * par.gamma;
}

/* A write or a format that is refused for want of blocks: so at every budget,
   it changes nothing, and all reads as before. */
static void refused_call(struct state *b, const struct state *before,
                         const struct knowledge *host, const struct call *k,
                         uint64_t reply)
{
    expect((k->kind == 'W' && reply == CNFTL_NO_BLOCK_LEFT && no_block_left(b))
           || (k->kind == 'F' && reply == CNFTL_TOO_FEW_BLOCKS && too_few(b)),
           k, "the call is refused");
    for (uint64_t i = 0; i < 3; i++) {
        struct call limited = with_budget(k, i);

        expect(make_both(b, &limited).own == reply, k,
               "with a budget the call is not refused so");
    }
    expect(memcmp(b, before, sizeof *b) == 0, k, "a refusal changes something");
    read_all(b, host, k);
    tens += k->kind == 'W';
    sixes += k->kind == 'F';
}

/* Counts what a call of a run has done. */
static void count_call(const struct state *before, const struct state *after,
                       const struct call *k, const struct answer *a)
{
    for (size_t i = 0; i < k->items; i++) {
        reclaims += cnftl_erases_of(a->item[i]);
        tens += cnftl_reply_of(a->item[i]) == CNFTL_NO_BLOCK_LEFT;
    }
    reclaims += k->kind == 'W' && cnftl_erases_of(a->own) == 1;
    worn += bad_in(after) - bad_in(before);
}

/* One call of a run: cut everywhere, and then made; at times the run goes on
   with a board that came back from a cut.  False where that one did not. */
static bool run_call(struct state *b, struct knowledge *host,
                     const struct call *k)
{
    static struct state before, kept;
    static struct knowledge kept_host;
    struct answer a;
    bool back = true;

    memcpy(&before, b, sizeof before);
    a = make_both(b, k);
    if (cnftl_reply_of(a.own) != CNFTL_ACCEPTED) {
        refused_call(b, &before, host, k, a.own);
        return true;
    }
    worn_right(&before, b, k, false);
    count_call(&before, b, k, &a);
    count_marks(&before, b, k);
    if (k->kind != 'L')
        back = cut_everywhere(&before, k, &a, b, host, &kept, &kept_host);
    know_call(k, &a, b, host);
    if (k->kind == 'L' || !once_in(4))
        return true;
    memcpy(b, &kept, sizeof kept);
    memcpy(host, &kept_host, sizeof kept_host);
    went_on += back;
    ends += !back;
    return back;
}

/* A board with its run: a format, writes until all regions may be full and
   some more, with releases, queues, starts and now and then a format between
   them. */
static void run_board(void)
{
    static struct state b;
    static struct knowledge host;
    struct call k;
    uint32_t calls;
    bool back;

    par = some_parameters();
    assert(cnftl_params_allowed(&par));
    new_board(&b);
    know_nothing_written(&host);
    k = some_call('F');
    back = run_call(&b, &host, &k);
    calls = par.mu * par.gamma * par.beta * par.d + between(5, 25);
    for (; calls > 0 && back; calls--) {
        k = some_call(once_in(64) ? 'F' : "WWWWWWWWWQQQLLS"[below(15)]);
        back = run_call(&b, &host, &k);
    }
    boards++;
}

/* ==== The program ====================================================== */

/* Prints what was seen; false if something never was. */
static bool report(void)
{
    bool all = came_old > 0 && came_new > 0 && came_back > 0
            && start_erases > 0 && finished_items > 0 && reclaims > 0
            && went_on > 0 && bad_blocks > 0 && worn > 0 && worn_starts > 0
            && unmarked > 0 && tens > 0 && sixes > 0 && ends > 0;

    printf("cuts: %" PRIu64 " cuts on %" PRIu64 " boards, in all of", cuts,
           boards);
    for (int i = 0; i < 4; i++) {
        printf(" %" PRIu64 " %c", calls_cut[i], cut_kinds[i]);
        all = all && calls_cut[i] > 0 && cuts_of[i] > 0;
    }
    printf("; by kind:");
    for (int i = 0; i < 4; i++)
        printf(" %c %" PRIu64, cut_kinds[i], cuts_of[i]);
    printf("; at most %" PRIu64 " operations a call\n", longest);
    for (int i = 0; i < SHAPES; i++)
        all = all && shapes[i] > 0;
    printf("cuts: %d shapes of boards, %" PRIu64 " bad blocks, %" PRIu64
           " reclaims in runs, %" PRIu64 " runs went on after a cut\n", SHAPES,
           bad_blocks, reclaims, went_on);
    printf("cuts: %" PRIu64 " starts after a cut (%" PRIu64 " erases), %" PRIu64
           " clusters read back; of the writes cut short %" PRIu64
           " came back old and %" PRIu64 " new; %" PRIu64
           " released clusters came back; %" PRIu64
           " items of queues were finished before a cut\n", starts,
           start_erases, reads, came_old, came_new, came_back, finished_items);
    printf("cuts: %" PRIu64 " blocks worn out in runs, %" PRIu64 " by starts"
           " after a cut, %" PRIu64 " cuts between erase and mark; %" PRIu64
           " writes refused with 10 and %" PRIu64 " formats with 6, %" PRIu64
           " boards ended with a cut format\n", worn, worn_starts, unmarked,
           tens, sixes, ends);
    return all;
}

/* The mutants that what the host knows is enough to notice. */
static const int wrong_layers[] = {
    MODEL_BEGUN_REFUSED, MODEL_BEGUN_VALID, MODEL_BEGUN_HIDES,
    MODEL_OLD_NOT_COPIED, MODEL_ERASE_FIRST, MODEL_STAMP_BEFORE,
    MODEL_OLD_STAMP, MODEL_OLD_VIRTUAL, MODEL_COPY_STAMP,
    MODEL_WORN_LATE, MODEL_WORN_EXACTLY, MODEL_WORN_UNMARKED,
    MODEL_WORN_MARK_FIRST, MODEL_WORN_SECOND_PAGE, MODEL_WORN_BYTE_6,
    MODEL_WORN_REPORTED, MODEL_WORN_FREE_AT_FORMAT, MODEL_WORN_FREE_AT_RECLAIM,
    MODEL_WORN_FREE_AT_START, MODEL_TEN_NEVER, MODEL_TEN_IS_SIX,
    MODEL_FORMAT_6_BY_BAD, MODEL_FORMAT_6_LATE, MODEL_BLOCKS_ASKED,
    MODEL_START_GIVES_6, MODEL_CUT_MARKS_FREE,
    MODEL_START_PAIR_REFUSED, MODEL_START_STAMPS_ALL, MODEL_START_FULL_ERASED,
    MODEL_START_NOT_ERASED, MODEL_START_NO_COUNT, MODEL_START_SMALLEST,
    MODEL_START_LAST_FRAME, MODEL_START_BEGUN_CT, MODEL_START_FST_FULL,
    MODEL_START_FST_FIRST, MODEL_START_WHOLE_LAST, MODEL_START_LAST_CT,
    MODEL_START_KEEPS_STAMPS, MODEL_START_KEEPS_MARKS,
    MODEL_CUT_LATE, MODEL_CUT_EARLY, MODEL_CUT_LAST, MODEL_CUT_ZERO,
    MODEL_CUT_IDLE, MODEL_CUT_COPIES_FREE, MODEL_CUT_PROGRAMS_FREE,
    MODEL_CUT_ERASES_FREE, MODEL_CUT_KEEPS_CT, MODEL_CUT_KEEPS_BT,
    MODEL_CUT_KEEPS_FST, MODEL_CUT_KEEPS_BST, MODEL_CUT_KEEPS_MARKS,
    MODEL_CUT_KEEPS_STAMPS, MODEL_CUT_ZEROES, MODEL_CUT_STAMPS_16_BITS,
    MODEL_CUT_WEAR_ONES, MODEL_CUT_WEAR_BEFORE, MODEL_CUT_WEAR_LATE,
    MODEL_CUT_COUNTS, MODEL_CUT_REPLIES_7, MODEL_CUT_REFUSED,
    MODEL_CUT_BEFORE_REFUSALS, MODEL_CUT_PAGE_ORDER, MODEL_CUT_COPY_ORDER,
    MODEL_CUT_ERASE_FIRST, MODEL_CUT_FRAME_FIRST, MODEL_CUT_LAST_ITEM,
    MODEL_CUT_ANSWERS_BEHIND, MODEL_CUT_ANSWERS_LOST, MODEL_CUT_QUEUE_ANEW,
    MODEL_CUT_REFUSED_ITEM
};

/* Lists them, one a line: number, tab, name. */
static int list_layers(void)
{
    for (size_t i = 0; i < sizeof wrong_layers / sizeof *wrong_layers; i++)
        printf("%d\t%s\n", wrong_layers[i], MODEL_MUTANTS[wrong_layers[i]]);
    return 0;
}

/* Says how to use the program. */
static int usage(void)
{
    fprintf(stderr, "use: cuts [--cuts N] [--seed S] [--layer K]\n"
                    "     cuts --layers\n");
    return 2;
}

/* Reads the options, runs, and reports. */
int main(int argc, char **argv)
{
    uint64_t mutant = MODEL_RIGHT;

    if (argc == 2 && strcmp(argv[1], "--layers") == 0)
        return list_layers();
    for (int i = 1; i < argc; i += 2) {
        uint64_t *value = strcmp(argv[i], "--cuts") == 0 ? &wanted
                        : strcmp(argv[i], "--seed") == 0 ? &seed
                        : strcmp(argv[i], "--layer") == 0 ? &mutant : NULL;

        if (value == NULL || !number(argv[i + 1], value))
            return usage();
    }
    if (mutant >= MODEL_MUTANT_COUNT)
        return usage();
    model_mutant = (int)mutant;
    layer = mutant == MODEL_RIGHT ? &product : &model;
    rnd_state = seed;
    printf("cuts: seed %" PRIu64 ", %" PRIu64 " cuts, %s\n", seed, wanted,
           mutant == MODEL_RIGHT ? "the layer" : MODEL_MUTANTS[mutant]);
    while (cuts < wanted || boards < SHAPES)
        run_board();
    if (!report()) {
        printf("cuts: something was never seen (seed %" PRIu64 ")\n", seed);
        return 1;
    }
    printf("cuts: every board came back (seed %" PRIu64 ")\n", seed);
    return 0;
}
