/*
 * fuzz.c - compares cnftl_* of the linked archive with the model, call by call.
 *
 * Both sides own a copy of one board.  Each call is made on both; then the
 * answers, every byte of chip, tables, data and lists, and the guard bytes
 * around each slice must be equal.  The model of a queue is single writes.
 * Accepted reads are also compared with a plain record of the bytes last
 * accepted for each sector (the shadow), also after a start, which brings a
 * released cluster back with its latest whole frame that is left.  Some calls
 * have a budget; after a cut the shadow holds but for the write that was cut
 * short, which the start finds wholly old or wholly new.  And what a
 * why has told with the read and the write that follow it; their third count,
 * which C does not get, is the model's.  The header's writes per erase are
 * compared with the model's for any allowed parameters.  Half of the boards
 * have blocks with few rated erases, and many have wear near those, so that
 * formats, reclaims and starts wear blocks out and writes find none free.
 *
 *   fuzz [--calls N] [--seed S] [--mutant K]    compare
 *   fuzz --mutants                              list the model's mutants
 *
 * Exit status: 0 all agree, 1 a difference or something never seen, 2 wrong
 * use, 3 a difference while a mutant is on.
 */
#include "cnftl.h"
#include "model.h"
#include "options.h"

#include <assert.h>
#include <inttypes.h>
#include <stdbool.h>
#include <stdio.h>
#include <stdlib.h>
#include <string.h>

enum slice {
    CHIP, CT, BT, FST, BST, WEAR, MARKS, STAMPS, TABLES, DATA = TABLES, LIST,
    REQUESTS, ANSWERS, SLICES
};
enum { GUARD = 64, DATA_ROOM = 16 * 512 + GUARD, REPLIES = 11 };
enum { LIST_ROOM = (CNFTL_WHY_ENTRIES + 1) * 4, RULES = CNFTL_RULE_STAMPS + 1 };
enum { MOST_ITEMS = 8, REQUESTS_ROOM = (3 * MOST_ITEMS + 2) * 4 };
enum { ANSWERS_ROOM = (MOST_ITEMS + 3) * 8 };
enum { RATED = 1000000 }; /* the most rated erases of a block, as of Board T */

static const char *const slice_name[SLICES] = {
    "chip", "ct", "bt", "fst", "bst", "wear", "marks", "stamps", "data",
    "list", "requests", "answers"
};
static const size_t width[SLICES] = { 1, 2, 2, 2, 1, 4, 8, 4, 1, 4, 4, 8 };
static const size_t own_room[SLICES] = {
    0, 0, 0, 0, 0, 0, 0, 0, DATA_ROOM, LIST_ROOM, REQUESTS_ROOM, ANSWERS_ROOM
};

/* ==== Chance =========================================================== */

static uint64_t rnd_state;

/* The next 64 random bits (splitmix64). */
static uint64_t rnd(void)
{
    uint64_t z = rnd_state += UINT64_C(0x9e3779b97f4a7c15);

    z = (z ^ z >> 30) * UINT64_C(0xbf58476d1ce4e5b9);
    z = (z ^ z >> 27) * UINT64_C(0x94d049bb133111eb);
    return z ^ z >> 31;
}

/* A random number below n, which is not 0. */
static uint32_t below(uint32_t n)
{
    return (uint32_t)((rnd() >> 32) * n >> 32);
}

/* A random number from low to high. */
static uint32_t between(uint32_t low, uint32_t high)
{
    return low + below(high - low + 1);
}

/* True once in n times. */
static bool once_in(uint32_t n)
{
    return below(n) == 0;
}

/* Fills memory with random bytes. */
static void fill_random(uint8_t *to, size_t len)
{
    for (size_t i = 0; i < len; i += 8) {
        uint64_t bits = rnd();

        memcpy(to + i, &bits, len - i < 8 ? len - i : 8);
    }
}

/* ==== The board, on both sides ========================================= */

/* One side's lent memory: each slice with a guard before and after it. */
struct side {
    uint8_t *raw[SLICES];
};

static struct side product, model, saved;
static struct cnftl_params par;   /* the board's parameters */
static size_t right_len[TABLES];  /* the right lengths, in elements */
static size_t room[SLICES];       /* bytes between the guards */
static size_t shift;              /* where byte slices start, 0 to 7 */
static uint8_t *shadow;           /* the bytes last accepted, by sector */
static bool shadow_holds;         /* false while the board went another way */
static uint8_t *released;         /* 1 for a cluster released and not written */
static bool down;                 /* while it holds: cut and not started yet */
static uint32_t hot_from, hot;    /* the clusters that get half the traffic */

/* The first element of a slice.  Slices of bytes may start anywhere. */
static uint8_t *bytes_of(const struct side *a, enum slice i)
{
    return a->raw[i] + GUARD + (width[i] == 1 ? shift : 0);
}

/* The same for a slice of 16-bit entries. */
static uint16_t *words_of(const struct side *a, enum slice i)
{
    return (uint16_t *)(void *)bytes_of(a, i);
}

/* The same for a slice of 32-bit entries. */
static uint32_t *longs_of(const struct side *a, enum slice i)
{
    return (uint32_t *)(void *)bytes_of(a, i);
}

/* The same for a slice of 64-bit entries. */
static uint64_t *wides_of(const struct side *a, enum slice i)
{
    return (uint64_t *)(void *)bytes_of(a, i);
}

/* Shorthand for the tables of the side on which states are built. */
#define ct (words_of(&product, CT))
#define bt (words_of(&product, BT))
#define fst (words_of(&product, FST))
#define bst (bytes_of(&product, BST))
#define marks (wides_of(&product, MARKS))
#define wear (longs_of(&product, WEAR))
#define stamps (longs_of(&product, STAMPS))
#define chip (bytes_of(&product, CHIP))

/* Frames in a block. */
static uint32_t frames(void)
{
    return par.beta * par.d;
}

/* Whether marks stand in the last word too.  So large a block is not filled by
   the few calls that its board gets. */
static bool large_blocks(void)
{
    return frames() > 64 * (CNFTL_MARK_WORDS - 1);
}

/* Segments in a region. */
static uint32_t segments(void)
{
    return par.gamma * par.d;
}

/* Bytes of a block. */
static size_t block_bytes(void)
{
    return cnftl_pages_per_block(&par) * cnftl_page_bytes(&par);
}

/* Clusters that belong to a region. */
static uint32_t clusters_of_region(uint32_t region)
{
    return region < par.c ? (par.c - region - 1) / par.mu + 1 : 0;
}

/* Memory or the end of the run. */
static uint8_t *get_memory(size_t len)
{
    uint8_t *p = malloc(len);

    if (p == NULL) {
        fprintf(stderr, "fuzz: no memory for %zu bytes\n", len);
        exit(2);
    }
    return p;
}

/* Copies the chip and the tables of one side to another, guards too. */
static void copy_side(const struct side *to, const struct side *from)
{
    for (int i = 0; i < TABLES; i++)
        memcpy(to->raw[i], from->raw[i], room[i] + 2 * GUARD);
}

/* Lends memory for a board of these parameters; chip_bytes is the room that
   its chip gets.  All of it is random at first. */
static void open_board(struct cnftl_params p, size_t chip_bytes)
{
    par = p;
    shift = below(8);
    right_len[CHIP] = chip_bytes;
    right_len[CT] = cnftl_ct_entries(&p);
    right_len[BT] = cnftl_bt_entries(&p);
    right_len[FST] = cnftl_fst_entries(&p);
    right_len[BST] = cnftl_bst_entries(&p);
    right_len[WEAR] = cnftl_wear_entries(&p);
    right_len[MARKS] = cnftl_marks_entries(&p);
    right_len[STAMPS] = cnftl_stamps_entries(&p);
    for (int i = 0; i < SLICES; i++) {
        room[i] = i < TABLES ? right_len[i] * width[i] : own_room[i];
        product.raw[i] = get_memory(room[i] + 2 * GUARD);
        model.raw[i] = get_memory(room[i] + 2 * GUARD);
        saved.raw[i] = get_memory(room[i] + 2 * GUARD);
        fill_random(product.raw[i], room[i] + 2 * GUARD);
    }
    copy_side(&model, &product);
    shadow = get_memory((size_t)cnftl_sectors(&p) * p.s);
    shadow_holds = false;
    down = false;
    released = get_memory(p.c);
    hot = between(1, p.c < 4 ? p.c : 4);
    hot_from = p.c <= 65536 && once_in(2) ? 0 : p.c - hot;
}

/* Gives the board's memory back. */
static void close_board(void)
{
    for (int i = 0; i < SLICES; i++) {
        free(product.raw[i]);
        free(model.raw[i]);
        free(saved.raw[i]);
    }
    free(shadow);
    free(released);
}

/* ==== One call on both sides =========================================== */

struct call {
    char kind; /* 'F', 'R', 'W', a release 'L', a why 'Y', a queue 'Q', a
                  start 'S' */
    struct cnftl_params p;
    size_t len[SLICES];
    uint32_t lba, count; /* lba is a release's cluster */
    bool limited;        /* whether it has a budget */
    uint64_t budget;
};

static const char call_kinds[] = "FRWLYQS";
static uint64_t calls, limit = 1000000, seed = 1;
static uint64_t seen[REPLIES], kinds[7], reclaims, shadow_reads;
static uint64_t starts_seen[REPLIES]; /* replies to starts */
static uint64_t sweeps;               /* starts that erased a block */
static uint64_t came_back;            /* released clusters that a start found */
static uint64_t items_seen[REPLIES]; /* replies to the items of queues */
static uint64_t broken[RULES];   /* rules that a why has told */
static uint64_t forecasts[4];    /* writes as a why has forecast them */
static uint64_t stampless;       /* those forecast to be refused with 9 */
static uint64_t blockless;       /* and those with 10 */
static uint64_t worn_out[7];     /* blocks that calls wore out, by kind */
static uint64_t unmarked;        /* cuts between such an erase and its mark */
static uint64_t worn_formats;    /* formats refused with 6 for wear alone */
static uint64_t short_writes;    /* accepted writes where mu*gamma blocks or
                                    fewer are not reserved */
static uint64_t short_reads;     /* and reads, compared with the shadow */
static uint64_t held_reads;      /* reads of a frame that a why has told */
static uint64_t looks_told[3];   /* third counts as told: 0, 1, and 2 or more */
static uint64_t cut[7], whole[7]; /* accepted calls with a budget, by kind: cut,
                                     and with a budget that was not spent */
static uint64_t restarts, restart_erases; /* starts after a cut, their erases */
static uint64_t came_old, came_new; /* writes cut short, as starts found them */
static uint64_t kept_items;         /* accepted items of queues that were cut */

#define PARAMETERS(k)                                                          \
    (k)->p.s, (k)->p.alpha, (k)->p.beta, (k)->p.d, (k)->p.mu, (k)->p.gamma,    \
    (k)->p.c, (k)->p.n, (k)->p.e
#define LENT(k, a)                                                             \
    PARAMETERS(k), bytes_of(a, CHIP), (k)->len[CHIP],                          \
    words_of(a, CT), (k)->len[CT], words_of(a, BT), (k)->len[BT],              \
    words_of(a, FST), (k)->len[FST], bytes_of(a, BST), (k)->len[BST],          \
    longs_of(a, WEAR), (k)->len[WEAR], wides_of(a, MARKS), (k)->len[MARKS],    \
    longs_of(a, STAMPS), (k)->len[STAMPS]
#define REQUEST(k, a)                                                          \
    (k)->lba, (k)->count, bytes_of(a, DATA), (k)->len[DATA]
#define QUESTION(k, a) (k)->lba, longs_of(a, LIST), (k)->len[LIST]
#define QUEUE(k, a)                                                            \
    longs_of(a, REQUESTS), (k)->len[REQUESTS],                                 \
    bytes_of(a, DATA), (k)->len[DATA], wides_of(a, ANSWERS), (k)->len[ANSWERS]

/* The call on the product with its budget. */
static uint64_t limited_product(const struct call *k)
{
    switch (k->kind) {
    case 'F':
        return cnftl_format_cut(LENT(k, &product), k->budget);
    case 'Q':
        return cnftl_queue_cut(LENT(k, &product), QUEUE(k, &product),
                               k->budget);
    case 'S':
        return cnftl_start_cut(LENT(k, &product), k->budget);
    default:
        return cnftl_write_cut(LENT(k, &product), REQUEST(k, &product),
                               k->budget);
    }
}

/* The same call on the model. */
static uint64_t limited_model(const struct call *k)
{
    switch (k->kind) {
    case 'F':
        return model_format_cut(LENT(k, &model), k->budget);
    case 'Q':
        return model_queue_cut(LENT(k, &model), QUEUE(k, &model), k->budget);
    case 'S':
        return model_start_cut(LENT(k, &model), k->budget);
    default:
        return model_write_cut(LENT(k, &model), REQUEST(k, &model), k->budget);
    }
}

/* The call on the product. */
static uint64_t call_product(const struct call *k)
{
    if (k->limited)
        return limited_product(k);
    switch (k->kind) {
    case 'F':
        return cnftl_format(LENT(k, &product));
    case 'R':
        return cnftl_read(LENT(k, &product), REQUEST(k, &product));
    case 'L':
        return cnftl_release(LENT(k, &product), k->lba);
    case 'Y':
        return cnftl_why(LENT(k, &product), QUESTION(k, &product));
    case 'Q':
        return cnftl_queue(LENT(k, &product), QUEUE(k, &product));
    case 'S':
        return cnftl_start(LENT(k, &product));
    default:
        return cnftl_write(LENT(k, &product), REQUEST(k, &product));
    }
}

/* The same call on the model. */
static uint64_t call_model(const struct call *k)
{
    if (k->limited)
        return limited_model(k);
    switch (k->kind) {
    case 'F':
        return model_format(LENT(k, &model));
    case 'R':
        return model_read(LENT(k, &model), REQUEST(k, &model));
    case 'L':
        return model_release(LENT(k, &model), k->lba);
    case 'Y':
        return model_why(LENT(k, &model), QUESTION(k, &model));
    case 'Q':
        return model_queue(LENT(k, &model), QUEUE(k, &model));
    case 'S':
        return model_start(LENT(k, &model));
    default:
        return model_write(LENT(k, &model), REQUEST(k, &model));
    }
}

/* Prints an answer as reply, programs and erases. */
static void print_answer(const char *who, uint64_t a)
{
    printf("  %s: reply %" PRIu32 ", programs %" PRIu32 ", erases %" PRIu32
           "\n", who, cnftl_reply_of(a), cnftl_programs_of(a),
           cnftl_erases_of(a));
}

/* Prints the first byte in which a slice differs, if any. */
static void print_first_difference(enum slice i)
{
    for (size_t at = 0; at < room[i] + 2 * GUARD; at++)
        if (product.raw[i][at] != model.raw[i][at]) {
            printf("  %s: byte %td of %zu: product %u, model %u\n",
                   slice_name[i], product.raw[i] + at - bytes_of(&product, i),
                   room[i],
                   (unsigned)product.raw[i][at], (unsigned)model.raw[i][at]);
            return;
        }
}

/* Tells of a difference and ends the run. */
static void differ(const struct call *k, const char *what, uint64_t by_product,
                   uint64_t by_model)
{
    printf("fuzz: difference in %s at call %" PRIu64 " (seed %" PRIu64 ")\n",
           what, calls, seed);
    printf("  call %c, lba %" PRIu32 ", count %" PRIu32 ", data %zu bytes, "
           "list %zu entries, requests %zu numbers, answers %zu\n", k->kind,
           k->lba, k->count, k->len[DATA], k->len[LIST], k->len[REQUESTS],
           k->len[ANSWERS]);
    if (k->limited)
        printf("  with budget %" PRIu64 "\n", k->budget);
    printf("  s=%" PRIu32 " alpha=%" PRIu32 " beta=%" PRIu32 " d=%" PRIu32
           " mu=%" PRIu32 " gamma=%" PRIu32 " c=%" PRIu32 " n=%" PRIu32
           " e=%" PRIu32 "\n", PARAMETERS(k));
    printf("  lengths: chip %zu, ct %zu, bt %zu, fst %zu, bst %zu, wear %zu, "
           "marks %zu, stamps %zu\n", k->len[CHIP], k->len[CT], k->len[BT],
           k->len[FST], k->len[BST], k->len[WEAR], k->len[MARKS],
           k->len[STAMPS]);
    print_answer("product", by_product);
    print_answer("model", by_model);
    for (int i = 0; i < SLICES; i++)
        print_first_difference((enum slice)i);
    exit(model_mutant == MODEL_RIGHT ? 1 : 3);
}

/* Whether the call goes to this board with its own parameters. */
static bool own_parameters(const struct call *k)
{
    return memcmp(&k->p, &par, sizeof par) == 0;
}

/* The answers as the last call got them lent. */
static uint64_t lent_answers[ANSWERS_ROOM / 8];

/* Whether a queue has answered an item.  What was lent is no answer. */
static bool answered(size_t item)
{
    return wides_of(&product, ANSWERS)[item] != lent_answers[item];
}

/* Keeps the shadow up with the items of a queue that were accepted. */
static void follow_items(const struct call *k)
{
    for (size_t i = 0; i < k->len[REQUESTS] / 3 && answered(i); i++) {
        const uint32_t *item = longs_of(&product, REQUESTS) + 3 * i;

        if (cnftl_reply_of(wides_of(&product, ANSWERS)[i]) == CNFTL_ACCEPTED) {
            memcpy(shadow + (size_t)item[0] * par.s,
                   bytes_of(&product, DATA) + item[2],
                   (size_t)item[1] * par.s);
            released[item[0] / par.alpha] = 0;
        }
    }
}

/* A page of the chip, counted over it. */
static const uint8_t *page_at(size_t page)
{
    return bytes_of(&product, CHIP) + page * cnftl_page_bytes(&par);
}

/* Whether a page has a maker's mark. */
static bool has_mark(size_t page)
{
    return (page_at(page + 1) - CNFTL_SPARE_BYTES)[5] != 255;
}

/* Whether a block is bad, by its first two pages. */
static bool bad_block(size_t block)
{
    size_t pages = cnftl_pages_per_block(&par);

    return has_mark(block * pages) || (pages > 1 && has_mark(block * pages + 1));
}

/* The first page of the latest whole frame of a cluster that is left on the
   good blocks of a board that was changed by calls alone, or NULL. */
static const uint8_t *latest_frame(uint32_t cluster)
{
    size_t pages = cnftl_pages_per_block(&par);
    size_t page = cnftl_page_bytes(&par);
    const uint8_t *latest = NULL;
    uint32_t most = 0;

    for (size_t i = 0; i < par.n * pages; i += par.alpha) {
        const uint8_t *last = page_at(i + par.alpha) - CNFTL_SPARE_BYTES;
        uint32_t number, stamp;

        if (last[6] != 0 || bad_block(i / pages))
            continue;
        memcpy(&number, last, sizeof number);
        memcpy(&stamp, last + 7, sizeof stamp);
        if (number == cluster && (latest == NULL || stamp > most)) {
            latest = last + CNFTL_SPARE_BYTES - par.alpha * page;
            most = stamp;
        }
    }
    return latest;
}

/* The write that was cut short, if one was: its cluster and what this would
   be. */
static struct {
    bool any;
    uint32_t cluster;
    uint8_t bytes[16 * 512];
} unfinished;

/* Whether the board has no tables, as a cut call leaves it. */
static bool is_cut(void)
{
    return bst[0] == 255;
}

/* Where the shadow has a cluster. */
static uint8_t *shadow_of(uint32_t cluster)
{
    return shadow + (size_t)cluster * par.alpha * par.s;
}

/* A write was cut short. */
static void begin_write(uint32_t lba, uint32_t count, const uint8_t *data)
{
    unfinished.any = true;
    unfinished.cluster = lba / par.alpha;
    memcpy(unfinished.bytes, shadow_of(lba / par.alpha), par.alpha * par.s);
    memcpy(unfinished.bytes + lba % par.alpha * par.s, data, count * par.s);
}

/* A queue was cut: the items that it has answered are done, and the next one
   was cut short, unless it is one to be refused. */
static void follow_cut_queue(const struct call *k)
{
    size_t i = 0;

    follow_items(k);
    for (; i < k->len[REQUESTS] / 3 && answered(i); i++)
        kept_items += cnftl_reply_of(wides_of(&product, ANSWERS)[i]) == 0;
    if (i < k->len[REQUESTS] / 3) {
        const uint32_t *item = longs_of(&product, REQUESTS) + 3 * i;
        uint64_t end = item[2] + (uint64_t)item[1] * par.s;

        if (item[0] < cnftl_sectors(&par) && item[1] > 0
            && (uint64_t)item[0] % par.alpha + item[1] <= par.alpha
            && end <= k->len[DATA])
            begin_write(item[0], item[1], bytes_of(&product, DATA) + item[2]);
    }
}

/* What is known after a cut: nothing of a board whose format was cut. */
static void follow_cut(const struct call *k)
{
    if (k->kind == 'F')
        shadow_holds = false;
    if (!shadow_holds || down)
        return;
    down = true;
    unfinished.any = false;
    if (k->kind == 'W')
        begin_write(k->lba, k->count, bytes_of(&product, DATA));
    if (k->kind == 'Q')
        follow_cut_queue(k);
}

/* "the write cut short reads wholly old or wholly new": which of the two is
   what the start that was just made has found. */
static void settle_write(const struct call *k, uint64_t a)
{
    static uint8_t found[16 * 512];
    size_t len = par.alpha * par.s;
    uint8_t *old = shadow_of(unfinished.cluster);
    uint64_t by_read = cnftl_read(LENT(k, &product),
                                  unfinished.cluster * par.alpha, par.alpha,
                                  found, len);

    if (cnftl_reply_of(by_read) != CNFTL_ACCEPTED)
        differ(k, "the read after a start", by_read, CNFTL_ACCEPTED);
    if (memcmp(found, unfinished.bytes, len) == 0) {
        came_new++;
        memcpy(old, unfinished.bytes, len);
    } else if (memcmp(found, old, len) == 0) {
        came_old++;
    } else {
        differ(k, "the write cut short", a, a);
    }
}

/* "A released cluster with whole frames left comes back with the latest": what
   the shadow has of it after a start. */
static void find_released(void)
{
    for (uint32_t cluster = 0; cluster < par.c; cluster++) {
        const uint8_t *latest;

        if (!released[cluster])
            continue;
        released[cluster] = 0;
        latest = latest_frame(cluster);
        came_back += latest != NULL;
        for (uint32_t i = 0; latest != NULL && i < par.alpha; i++)
            memcpy(shadow + ((size_t)cluster * par.alpha + i) * par.s,
                   latest + i * cnftl_page_bytes(&par), par.s);
    }
}

/* What is known after a start. */
static void follow_start(const struct call *k, uint64_t a)
{
    find_released();
    if (!down)
        return;
    down = false;
    restarts++;
    restart_erases += cnftl_erases_of(a);
    if (cnftl_erases_of(a) > 1)
        differ(k, "the erases of a start after a cut", a, CNFTL_ACCEPTED);
    if (unfinished.any)
        settle_write(k, a);
}

/* Keeps the shadow up with an accepted call, and compares a read with it. */
static void follow_shadow(const struct call *k, uint64_t a)
{
    uint8_t *sectors = shadow + (size_t)k->lba * par.s;

    if (k->kind == 'Y')
        return;
    if (!own_parameters(k)) {
        shadow_holds = shadow_holds && k->kind == 'R';
    } else if (k->limited && is_cut()) {
        follow_cut(k);
    } else if (k->kind == 'F') {
        down = false;
        memset(shadow, 255, (size_t)cnftl_sectors(&par) * par.s);
        memset(released, 0, par.c);
        shadow_holds = true;
    } else if (shadow_holds && k->kind == 'L') {
        memset(shadow + (size_t)k->lba * par.alpha * par.s, 255,
               (size_t)par.alpha * par.s);
        released[k->lba] = 1;
    } else if (shadow_holds && k->kind == 'W') {
        memcpy(sectors, bytes_of(&product, DATA), k->len[DATA]);
        released[k->lba / par.alpha] = 0;
    } else if (shadow_holds && k->kind == 'S') {
        follow_start(k, a);
    } else if (shadow_holds && k->kind == 'Q') {
        follow_items(k);
    } else if (shadow_holds) {
        if (memcmp(sectors, bytes_of(&product, DATA), k->len[DATA]) != 0)
            differ(k, "the bytes last accepted", a, a);
        shadow_reads++;
    }
}

/* Blocks that are not reserved. */
static uint32_t blocks_kept(void)
{
    uint32_t kept = 0;

    for (uint32_t b = 0; b < par.n; b++)
        kept += bst[b] != CNFTL_BLOCK_RESERVED;
    return kept;
}

/* Whether fewer than mu*gamma+1 blocks are not reserved. */
static bool is_short(void)
{
    return blocks_kept() <= par.mu * par.gamma;
}

/* What the last call got lent: which blocks are bad, and their wear. */
static bool lent_bad[65536];
static uint32_t lent_wear[65536];

/* Keeps these. */
static void keep_blocks(void)
{
    for (uint32_t b = 0; b < par.n; b++) {
        lent_bad[b] = bad_block(b);
        lent_wear[b] = wear[b];
    }
}

/* Counts the blocks that an accepted call has worn out, which have a mark that
   they had not, and whether a cut left one without. */
static void count_worn(ptrdiff_t kind, bool cut_call)
{
    bool left = false;

    for (uint32_t b = 0; b < par.n; b++) {
        bool now = bad_block(b);

        worn_out[kind] += now && !lent_bad[b];
        left = left || (!now && wear[b] > lent_wear[b] && wear[b] >= par.e);
    }
    unmarked += cut_call && left;
}

/* Blocks that are not bad; those of them that one erase more leaves good. */
static uint32_t blocks_not_bad(bool after_erase)
{
    uint32_t all = 0;

    for (uint32_t b = 0; b < par.n; b++)
        all += !bad_block(b)
            && (!after_erase || (uint64_t)wear[b] + 1 < par.e);
    return all;
}

/* Whether a right call on a sound board may be refused so: a write where blocks
   are worn and none is free, or a format that would leave too few. */
static bool may_be_refused(const struct call *k, uint32_t reply)
{
    if (k->kind == 'W' && reply == CNFTL_NO_BLOCK_LEFT) {
        for (uint32_t b = 0; b < par.n; b++)
            if (bst[b] == CNFTL_BLOCK_FREE)
                return false;
        return is_short();
    }
    return k->kind == 'F' && reply == CNFTL_TOO_FEW_BLOCKS
        && blocks_not_bad(true) <= par.mu * par.gamma;
}

/* Counts the items of a queue by their replies. */
static void count_items(const struct call *k)
{
    for (size_t i = 0; i < k->len[REQUESTS] / 3 && answered(i); i++) {
        uint64_t a = wides_of(&product, ANSWERS)[i];

        items_seen[cnftl_reply_of(a) % REPLIES]++;
        reclaims += cnftl_erases_of(a) == 1;
    }
}

/* Counts what was seen of worn blocks. */
static void count_wear(const struct call *k, ptrdiff_t kind, uint32_t reply)
{
    if (reply == CNFTL_ACCEPTED && strchr("FWQS", k->kind))
        count_worn(kind, k->limited && is_cut());
    if (reply == CNFTL_ACCEPTED && k->kind == 'W' && !is_cut())
        short_writes += is_short();
    if (reply == CNFTL_ACCEPTED && k->kind == 'R' && shadow_holds)
        short_reads += is_short();
    if (reply == CNFTL_TOO_FEW_BLOCKS && k->kind == 'F')
        worn_formats += blocks_not_bad(false) > par.mu * par.gamma;
}

/* Counts what was seen. */
static void count_call(const struct call *k, uint64_t a)
{
    ptrdiff_t kind = strchr(call_kinds, k->kind) - call_kinds;

    calls++;
    kinds[kind]++;
    if (k->limited && cnftl_reply_of(a) == CNFTL_ACCEPTED) {
        cut[kind] += is_cut();
        whole[kind] += !is_cut();
    }
    seen[cnftl_reply_of(a)]++;
    if (own_parameters(k))
        count_wear(k, kind, cnftl_reply_of(a));
    reclaims += k->kind == 'W' && cnftl_erases_of(a) == 1;
    if (k->kind == 'Q' && cnftl_reply_of(a) == CNFTL_ACCEPTED)
        count_items(k);
    if (k->kind == 'S') {
        starts_seen[cnftl_reply_of(a) % REPLIES]++;
        sweeps += cnftl_erases_of(a) > 0;
    }
    if (k->kind == 'Y' && cnftl_reply_of(a) == CNFTL_NOT_ORDERLY)
        broken[longs_of(&product, LIST)[CNFTL_WHY_RULE] % RULES]++;
    if (calls % 100000 == 0)
        fprintf(stderr, "fuzz: %" PRIu64 " calls\n", calls);
}

/* Gives a slice its length for this call and random bytes on both sides. */
static void fill_slice(const struct call *k, enum slice i)
{
    room[i] = k->len[i] * width[i];
    fill_random(product.raw[i], room[i] + 2 * GUARD);
    memcpy(model.raw[i], product.raw[i], room[i] + 2 * GUARD);
}

/* One request of a queue in its place, the same on both sides. */
static void put_item(size_t at, uint32_t lba, uint32_t count, uint32_t first)
{
    const uint32_t item[3] = { lba, count, first };

    memcpy(longs_of(&product, REQUESTS) + 3 * at, item, sizeof item);
    memcpy(longs_of(&model, REQUESTS) + 3 * at, item, sizeof item);
}

/* The first byte of an item: most times its bytes lie in the data part, at
   times just past its end or where the sum would wrap in 32 bits. */
static uint32_t first_byte(const struct call *k, uint32_t count)
{
    uint32_t need = count * par.s, len = (uint32_t)k->len[DATA];
    uint32_t last = len < need ? 0 : len - need;
    const uint32_t values[] = {
        last + 1, len, len + 1, UINT32_MAX, 0u - need, 1u - need, last
    };

    if (once_in(8))
        return values[below(sizeof values / sizeof *values)];
    return below(last + 1);
}

/* The requests of a queue; one in eight with a fault of its own. */
static void fill_requests(const struct call *k)
{
    uint32_t end = cnftl_sectors(&par);

    for (size_t i = 0; i < k->len[REQUESTS] / 3; i++) {
        uint32_t cluster = once_in(2) ? hot_from + below(hot) : below(par.c);
        uint32_t place = below(par.alpha), lba = cluster * par.alpha + place;
        uint32_t count = between(1, par.alpha - place);
        const uint32_t counts[] = { 0, par.alpha - place + 1, UINT32_MAX };
        const uint32_t addresses[] = { end, end + place, UINT32_MAX };

        if (once_in(16))
            count = counts[below(3)];
        if (once_in(16))
            lba = addresses[below(3)];
        put_item(i, lba, count, first_byte(k, count));
    }
}

/* Makes a call on both sides and compares all that they may have touched.
   Returns the answer. */
static uint64_t answer_of(const struct call *k)
{
    uint64_t by_product, by_model;

    for (int i = TABLES; i < SLICES; i++)
        fill_slice(k, (enum slice)i);
    fill_requests(k);
    memcpy(lent_answers, bytes_of(&product, ANSWERS), room[ANSWERS]);
    if (own_parameters(k) && room[CHIP] > 0)
        keep_blocks();
    by_product = call_product(k);
    by_model = call_model(k);
    if (by_product != by_model)
        differ(k, "the answer", by_product, by_model);
    for (int i = 0; i < SLICES; i++)
        if (memcmp(product.raw[i], model.raw[i], room[i] + 2 * GUARD) != 0)
            differ(k, slice_name[i], by_product, by_model);
    count_call(k, by_product);
    if (cnftl_reply_of(by_product) == CNFTL_ACCEPTED)
        follow_shadow(k, by_product);
    return by_product;
}

/* The same; returns the reply. */
static uint32_t make_call(const struct call *k)
{
    return cnftl_reply_of(answer_of(k));
}

/* A request that is right for the board. */
static struct call right_call(char kind)
{
    struct call k = { kind, par, { 0 }, 0, 0, false, 0 };
    uint32_t cluster = once_in(2) ? hot_from + below(hot) : below(par.c);
    uint32_t place = below(par.alpha);

    memcpy(k.len, right_len, sizeof right_len);
    k.lba = kind == 'L' ? cluster : cluster * par.alpha + place;
    k.count = between(1, par.alpha - place);
    k.len[DATA] = strchr("LYS", kind) ? 0 : (size_t)k.count * par.s;
    k.len[LIST] = kind == 'Y' ? CNFTL_WHY_ENTRIES : 0;
    if (kind == 'Q') {
        uint32_t items = below(MOST_ITEMS + 1);

        k.len[DATA] = between(par.alpha * par.s, DATA_ROOM - GUARD);
        k.len[REQUESTS] = 3 * items;
        k.len[ANSWERS] = items + below(3);
    }
    return k;
}

/* Gives a call a budget: most times about as many operations as it may make, at
   times more than 32 bits can say. */
static void give_budget(struct call *k)
{
    uint32_t pages = (uint32_t)cnftl_pages_per_block(&par);
    uint32_t each = once_in(2) ? par.alpha : pages + 2;
    uint32_t most = k->kind == 'F' ? 2 * par.n : k->kind == 'S' ? 4
                  : k->kind == 'W' ? each
                  : each * (uint32_t)(k->len[REQUESTS] / 3);

    k->limited = true;
    k->budget = below(most + 2);
    if (once_in(8))
        k->budget = below(2);
    if (once_in(16))
        k->budget += UINT64_C(4294967296) << below(32);
    if (once_in(64))
        k->budget = UINT64_MAX;
}

/* ==== Faults of a call ================================================= */

/* The data length that a count asks for, as far as there is room. */
static size_t data_for(uint32_t count)
{
    uint64_t len = (uint64_t)count * par.s;

    return len < DATA_ROOM ? (size_t)len : DATA_ROOM;
}

/* A parameter at or past one of its bounds. */
static void fault_parameter(struct call *k)
{
    static const uint32_t low[9] = { 16, 1, 1, 1, 1, 1, 1, 1, 1 };
    static const uint32_t high[9] = {
        512, 16, 16, 16, 1024, 16, 1048576, 65535, 1000000
    };
    uint32_t *const where[9] = {
        &k->p.s, &k->p.alpha, &k->p.beta, &k->p.d,
        &k->p.mu, &k->p.gamma, &k->p.c, &k->p.n, &k->p.e
    };
    uint32_t i = below(9);
    const uint32_t values[] = {
        0, low[i] - 1, low[i], high[i], high[i] + 1, UINT32_MAX,
        high[i] + 65536, *where[i] + 1, *where[i] - 1
    };

    *where[i] = values[below(sizeof values / sizeof *values)];
}

/* The two rules over several parameters at their bounds, and all limits at
   once. */
static void fault_parameters(struct call *k)
{
    uint32_t most = par.gamma * frames() - 1;

    switch (below(5)) {
    case 0: /* C/mu at or past its bound */
        k->p.c = par.mu * most + below(3);
        break;
    case 1: /* C/mu rounded up is gamma*F exactly */
        k->p.c = par.mu * (most + 1);
        break;
    case 2: /* P above 256 */
        k->p.alpha = 16;
        k->p.beta = 16;
        k->p.d = 2;
        break;
    case 3: /* C at or past its own bound where gamma*F would allow it */
        k->p.alpha = 1;
        k->p.beta = k->p.d = k->p.gamma = 16;
        k->p.mu = 1024;
        k->p.c = 1048576 + below(2);
        break;
    default: /* other parameters for the same lengths */
        k->p.beta = par.d;
        k->p.d = par.beta;
        break;
    }
}

/* A slice that is too short or too long. */
static void fault_length(struct call *k)
{
    uint32_t i = below(TABLES);
    size_t len = k->len[i];
    const size_t values[] = { 0, len / 2, len - (len > 0), len + 1, len + 8 };

    k->len[i] = values[below(5)];
}

/* A count of 0 or past the cluster's end, also where 32 bits would wrap. */
static void fault_count(struct call *k)
{
    uint32_t place = k->lba % par.alpha;
    const uint32_t values[] = {
        0, par.alpha - place + 1, par.alpha + 1, UINT32_MAX,
        UINT32_MAX - place + 1, UINT32_MAX - place + 2, 65536
    };

    k->count = values[below(sizeof values / sizeof *values)];
    if (once_in(2))
        k->len[DATA] = data_for(k->count);
}

/* An address or a cluster at or past the board's end, or just before it. */
static void fault_address(struct call *k)
{
    uint32_t end = k->kind == 'L' ? par.c : cnftl_sectors(&par);
    const uint32_t values[] = {
        end, end + 1, end + par.alpha, end - 1, UINT32_MAX, end + 65536,
        UINT32_MAX / par.alpha * par.alpha
    };

    k->lba = values[below(sizeof values / sizeof *values)];
    if (once_in(2)) {
        k->count = 1;
        k->len[DATA] = par.s;
    }
}

/* A data length that the count does not ask for. */
static void fault_data(struct call *k)
{
    size_t len = k->len[DATA];
    const size_t values[] = {
        0, len - (len > 0), len + 1, len + par.s, len / 2
    };

    k->len[DATA] = values[below(5)] % DATA_ROOM;
}

/* A list that is missing, or one entry too short or too long. */
static void fault_list(struct call *k)
{
    static const size_t values[] = {
        0, CNFTL_WHY_ENTRIES - 1, CNFTL_WHY_ENTRIES + 1
    };

    if (k->kind == 'Y')
        k->len[LIST] = values[below(3)];
}

/* Lists of a queue that do not fit: numbers that are no whole request, or too
   few answers. */
static void fault_lists(struct call *k)
{
    size_t items = k->len[REQUESTS] / 3;

    if (k->kind != 'Q')
        return;
    if (once_in(2))
        k->len[REQUESTS] = 3 * items + between(1, 2);
    else
        k->len[ANSWERS] = items - (items > 0 ? between(1, (uint32_t)items) : 0);
}

/* One to four faults at once. */
static void add_faults(struct call *k)
{
    static void (*const faults[])(struct call *) = {
        fault_parameter, fault_parameters, fault_length, fault_count,
        fault_address, fault_data, fault_list, fault_lists
    };

    do
        faults[below(sizeof faults / sizeof *faults)](k);
    while (once_in(2));
}

/* ==== States =========================================================== */

/* Bytes of a frame. */
static size_t frame_bytes(void)
{
    return par.alpha * cnftl_page_bytes(&par);
}

/* Where a frame begins. */
static uint8_t *frame_at(uint32_t block, uint32_t frame)
{
    return chip + block * block_bytes() + frame * frame_bytes();
}

/* The spare bytes of a page of a frame. */
static uint8_t *spare_at(uint32_t block, uint32_t frame, uint32_t place)
{
    return frame_at(block, frame) + place * cnftl_page_bytes(&par) + par.s;
}

/* Puts a number of four bytes down, low byte first. */
static void put_number(uint8_t *to, uint32_t number)
{
    for (int i = 0; i < 4; i++)
        to[i] = (uint8_t)(number >> 8 * i);
}

/* The number of four bytes, low byte first. */
static uint32_t number_at(const uint8_t *from)
{
    return from[0] | (uint32_t)from[1] << 8 | (uint32_t)from[2] << 16
         | (uint32_t)from[3] << 24;
}

/* A stamp that a page of a region may have: the last one of the region, the one
   before, 0, or any up to the last. */
static uint32_t right_stamp(uint32_t region)
{
    uint32_t last = stamps[region];
    const uint32_t values[] = {
        last, last - (last > 0), 0, (uint32_t)(rnd() % ((uint64_t)last + 1))
    };

    return values[below(4)];
}

/* Programs the first pages of a frame as the documents say, with random data,
   in a block that this BT entry names, or that is to look so. */
static void begin_frame(uint32_t entry, uint32_t block, uint32_t frame,
                        uint32_t cluster, uint32_t pages)
{
    uint32_t stamp = right_stamp(entry / par.gamma);

    for (uint32_t place = 0; place < pages; place++) {
        uint8_t *spare = spare_at(block, frame, place);

        fill_random(spare - par.s, par.s);
        memset(spare, 255, CNFTL_SPARE_BYTES);
        put_number(spare, cluster);
        spare[4] = (uint8_t)place;
        spare[6] = 0;
        put_number(spare + 7, stamp);
        spare[11] = (uint8_t)(entry % par.gamma);
    }
}

/* The cluster number in a frame's first page. */
static uint32_t cluster_at(uint32_t block, uint32_t frame)
{
    return number_at(spare_at(block, frame, 0));
}

/* Programs all pages of a frame of a BT entry's block. */
static void put_frame(uint32_t entry, uint32_t frame, uint32_t cluster)
{
    begin_frame(entry, bt[entry], frame, cluster, par.alpha);
}

/* The same or, at times, only the first pages.  Whether the frame is whole. */
static bool put_some_frame(uint32_t entry, uint32_t frame, uint32_t cluster)
{
    uint32_t pages = once_in(6) ? between(1, par.alpha) : par.alpha;

    begin_frame(entry, bt[entry], frame, cluster, pages);
    return pages == par.alpha;
}

/* Whether a frame is whole and holds a cluster, by its last page. */
static bool holds_at(uint32_t block, uint32_t frame, uint32_t cluster)
{
    const uint8_t *spare = spare_at(block, frame, par.alpha - 1);

    return spare[6] == 0 && number_at(spare) == cluster;
}

/* Leading programmed frames of a block. */
static uint32_t frames_in(uint32_t block)
{
    uint32_t k = 0;

    while (k < frames() && spare_at(block, k, 0)[6] == 0)
        k++;
    return k;
}

/* A random block of this BST value, or CNFTL_NONE. */
static uint32_t some_block(uint8_t state)
{
    uint32_t start = below(par.n);

    for (uint32_t i = 0; i < par.n; i++)
        if (bst[(start + i) % par.n] == state)
            return (start + i) % par.n;
    return CNFTL_NONE;
}

/* A random BT entry that is none or that is not none, or CNFTL_NONE. */
static uint32_t some_entry(bool named)
{
    uint32_t entries = par.mu * par.gamma, start = below(entries);

    for (uint32_t i = 0; i < entries; i++)
        if ((bt[(start + i) % entries] < par.n) == named)
            return (start + i) % entries;
    return CNFTL_NONE;
}

/* A wear near the rated erases, or far from them. */
static uint32_t wear_near_rated(void)
{
    const uint32_t values[] = {
        par.e < 2 ? 0 : par.e - 2, par.e - 1, par.e, par.e + 1, 0, UINT32_MAX
    };

    return values[below(sizeof values / sizeof *values)];
}

/* Wear of one of several kinds; with little, one that leaves most blocks to a
   format. */
static void random_wear(bool little)
{
    static const uint32_t few[] = { 0, 0, 1, 5, 5, 5 };
    uint32_t kind = little ? few[below(6)] : below(6);

    for (uint32_t b = 0; b < par.n; b++) {
        const uint32_t values[6] = {
            0, below(3), UINT32_MAX - below(3), (uint32_t)rnd(),
            wear_near_rated(), /* and for a few blocks alone: */
            once_in(6) ? wear_near_rated() : par.e < 3 ? 0 : below(par.e - 2)
        };

        wear[b] = values[kind];
    }
}

/* A region's last stamp: 0, small, any, near its limit or there. */
static uint32_t some_stamp(void)
{
    const uint32_t values[] = {
        0, below(1000), (uint32_t)rnd(), UINT32_MAX - below(16)
    };

    return once_in(10) ? UINT32_MAX : values[below(4)];
}

/* The last stamps of all regions. */
static void random_stamps(void)
{
    for (uint32_t r = 0; r < par.mu; r++)
        stamps[r] = some_stamp();
}

/* Where the bad mark of a block's page stands. */
static uint8_t *mark_of(uint32_t block, uint32_t page)
{
    return chip + block * block_bytes() + page * (par.s + 16) + par.s + 5;
}

/* The maker's bad mark on a block: on its first page, its second, or both. */
static void mark_bad(uint32_t block)
{
    uint32_t where = par.alpha * frames() < 2 ? 1 : 1 + below(3);

    if (where & 1)
        *mark_of(block, 0) = (uint8_t)below(255);
    if (where & 2)
        *mark_of(block, 1) = (uint8_t)below(255);
}

/* A chip before its format: new or full of anything, with the maker's bad
   marks on a few blocks, at times on one too many. */
static void raw_chip(void)
{
    uint32_t needed = par.mu * par.gamma + 1;
    uint32_t spare = par.n > needed ? par.n - needed : 0;

    if (once_in(2))
        memset(chip, 255, room[CHIP]);
    for (uint32_t b = 0; b < par.n; b++)
        for (uint32_t j = 0; j < 2 && j < par.alpha * frames(); j++)
            *mark_of(b, j) = 255;
    for (uint32_t i = below((spare < 8 ? spare : 8) + 2); i > 0; i--)
        mark_bad(below(par.n));
    random_wear(!once_in(6));
}

/* Gives a virtual block a free block, if there is one, with k frames of the
   region's clusters.  Each frame's cluster takes it into CT half of the
   time. */
static void put_block(uint32_t region, uint32_t virtual_block, uint32_t k)
{
    uint32_t block = some_block(CNFTL_BLOCK_FREE);
    uint32_t kinds_of = between(1, clusters_of_region(region));
    uint32_t entry = region * par.gamma + virtual_block;

    if (block == CNFTL_NONE)
        return;
    bst[block] = CNFTL_BLOCK_USED;
    bt[entry] = (uint16_t)block;
    for (uint32_t frame = 0; frame < k; frame++) {
        uint32_t cluster = region + par.mu * below(kinds_of);

        if (put_some_frame(entry, frame, cluster) && once_in(2))
            ct[cluster] =
                (uint16_t)(virtual_block * par.d + frame / par.beta);
    }
    if (fst[region] == CNFTL_NONE || k < frames() || once_in(2))
        fst[region] = (uint16_t)(virtual_block * par.d + (k - 1) / par.beta);
}

/* The clusters of a region in random order, again and again until each frame
   of the region has one. */
static void shuffle_clusters(uint32_t region, uint32_t *list)
{
    uint32_t all = par.gamma * frames();

    for (uint32_t i = 0; i < all; i++)
        list[i] = region + par.mu * (i % clusters_of_region(region));
    for (uint32_t i = all; i > 1; i--) {
        uint32_t j = below(i), cluster = list[j];

        list[j] = list[i - 1];
        list[i - 1] = cluster;
    }
}

/* Blocks that are free. */
static uint32_t free_blocks(void)
{
    uint32_t all = 0;

    for (uint32_t b = 0; b < par.n; b++)
        all += bst[b] == CNFTL_BLOCK_FREE;
    return all;
}

/* Gives a region all of its blocks, full, with a frame of every cluster, each
   in CT that has a whole one.  Where C is tight, few frames are stale, and
   those of each block count when the next writes reclaim. */
static void pack_region(uint32_t region)
{
    static uint32_t list[16 * 256];

    shuffle_clusters(region, list);
    for (uint32_t i = 0; i < par.gamma * frames(); i++) {
        uint32_t entry = region * par.gamma + i / frames();

        if (i % frames() == 0) {
            bt[entry] = (uint16_t)some_block(CNFTL_BLOCK_FREE);
            bst[bt[entry]] = CNFTL_BLOCK_USED;
        }
        if (put_some_frame(entry, i % frames(), list[i])
            && (ct[list[i]] == CNFTL_NONE || once_in(2)))
            ct[list[i]] = (uint16_t)(i / par.beta);
    }
    fst[region] = (uint16_t)(between(1, par.gamma) * par.d - 1);
}

/* Gives a region some or all of its blocks, of which one may not be full. */
static void put_region(uint32_t region)
{
    bool all = once_in(2);
    uint32_t open = once_in(2) ? below(par.gamma) : par.gamma;

    if (clusters_of_region(region) == 0)
        return;
    if (once_in(large_blocks() ? 2 : 4) && free_blocks() >= par.gamma) {
        pack_region(region);
        return;
    }
    for (uint32_t i = 0; i < par.gamma; i++)
        if (i != open && (all || once_in(2)))
            put_block(region, i, frames());
    if (open < par.gamma)
        put_block(region, open, between(1, frames()));
}

/* The word of the marks that has the mark of a frame of a BT entry. */
static uint64_t *mark_word(uint32_t entry, uint32_t frame)
{
    return &marks[entry * CNFTL_MARK_WORDS + frame / 64];
}

/* The mark of a frame in its word. */
static uint64_t mark_bit(uint32_t frame)
{
    return UINT64_C(1) << frame % 64;
}

/* Marks the frame that a cluster reads from: the last one in the segment that
   CT names.  The state may be any. */
static void put_mark(uint32_t cluster)
{
    uint32_t segment = ct[cluster], entry, first;

    if (segment >= segments())
        return;
    entry = cluster % par.mu * par.gamma + segment / par.d;
    if (bt[entry] >= par.n)
        return;
    first = segment % par.d * par.beta;
    for (uint32_t frame = first + par.beta; frame-- > first;)
        if (holds_at(bt[entry], frame, cluster)) {
            *mark_word(entry, frame) |= mark_bit(frame);
            return;
        }
}

/* Works the marks out, cluster by cluster. */
static void put_marks(void)
{
    memset(marks, 0, room[MARKS]);
    for (uint32_t cluster = 0; cluster < par.c; cluster++)
        put_mark(cluster);
}

/* The ones in the words of a BT entry. */
static uint32_t marks_of(uint32_t entry)
{
    uint32_t ones = 0;

    for (uint32_t frame = 0; frame < CNFTL_MARK_WORDS * 64; frame++)
        ones += (*mark_word(entry, frame) & mark_bit(frame)) != 0;
    return ones;
}

/* A free block becomes reserved: with anything on it, worn, or erased. */
static void reserve_block(uint32_t block)
{
    bst[block] = CNFTL_BLOCK_RESERVED;
    if (once_in(2))
        fill_random(chip + block * block_bytes(), block_bytes());
    else if (once_in(2))
        *mark_of(block, 0) = 0;
}

/* All free blocks become reserved, or all but one. */
static void reserve_free_blocks(void)
{
    uint32_t left = once_in(3);

    while (free_blocks() > left)
        reserve_block(some_block(CNFTL_BLOCK_FREE));
}

/* An orderly state that the calls need not be able to reach, at times with too
   few blocks for all regions or with none that is free. */
static void build_orderly(void)
{
    uint32_t needed = par.mu * par.gamma + 1;
    uint32_t spare = par.n < needed ? 0 : par.n - needed;

    if (once_in(8))
        spare = par.n - 1;
    memset(chip, 255, room[CHIP]);
    memset(ct, 255, room[CT]);
    memset(bt, 255, room[BT]);
    memset(fst, 255, room[FST]);
    memset(bst, CNFTL_BLOCK_FREE, room[BST]);
    random_wear(once_in(2));
    random_stamps();
    for (uint32_t i = below(spare + 1); i > 0; i--)
        reserve_block(below(par.n));
    for (uint32_t r = 0; r < par.mu; r++)
        put_region(r);
    if (once_in(6))
        reserve_free_blocks();
    put_marks();
}

/* Gives the frames of a region's blocks stamps of their own, rising along each
   block in some order of the blocks, and the region the largest one or more. */
static void spread_stamps(uint32_t region)
{
    uint32_t first = below(par.gamma), stamp = once_in(2) ? 0 : below(1u << 31);

    for (uint32_t i = 0; i < par.gamma; i++) {
        uint32_t block = bt[region * par.gamma + (first + i) % par.gamma];

        for (uint32_t k = 0; block < par.n && k < frames_in(block); k++) {
            stamp += between(1, 3);
            for (uint32_t place = 0; place < par.alpha; place++)
                if (spare_at(block, k, place)[6] == 0)
                    put_number(spare_at(block, k, place) + 7, stamp);
        }
    }
    stamps[region] = stamp + below(3);
}

/* Makes an orderly state one that a start takes: what is reserved is bad, and
   no two frames of a region have one stamp. */
static void make_startable(void)
{
    for (uint32_t b = 0; b < par.n; b++)
        if (bst[b] == CNFTL_BLOCK_RESERVED && !bad_block(b))
            mark_bad(b);
    for (uint32_t r = 0; r < par.mu; r++)
        spread_stamps(r);
}

/* ==== One thing changed in a state ===================================== */

/* A 16-bit entry: none, a neighbour, just past the top, or anything. */
static uint16_t other_entry(uint16_t old, uint32_t top)
{
    const uint32_t values[] = {
        CNFTL_NONE, old + 1u, old - 1u, below(top), below(top), top,
        (uint32_t)rnd()
    };

    return (uint16_t)values[below(sizeof values / sizeof *values)];
}

/* A cluster's CT entry. */
static void change_ct(void)
{
    uint16_t *entry = &ct[below(par.c)];

    *entry = other_entry(*entry, segments());
}

/* A region's FST entry. */
static void change_fst(void)
{
    uint16_t *entry = &fst[below(par.mu)];

    *entry = other_entry(*entry, segments());
}

/* A BT entry: at times that of another virtual block of the region or of any,
   or one just past the last block. */
static void change_bt(void)
{
    uint32_t i = below(par.mu * par.gamma), named = some_entry(true);

    if (once_in(4))
        bt[i] = (uint16_t)(par.n + below(3));
    else if (once_in(3))
        bt[i] = bt[i / par.gamma * par.gamma + below(par.gamma)];
    else if (once_in(2) && named != CNFTL_NONE)
        bt[i] = bt[named];
    else
        bt[i] = other_entry(bt[i], par.n);
}

/* A block's BST entry, also above 2. */
static void change_bst(void)
{
    static const uint8_t values[] = { 0, 1, 2, 3, 255, 129 };

    bst[below(par.n)] = values[below(sizeof values)];
}

/* Another byte: one bit, 0, 255 or anything. */
static void change_byte(uint8_t *byte)
{
    const uint8_t values[] = {
        (uint8_t)(*byte ^ 1u << below(8)), 0, 255, (uint8_t)rnd()
    };

    *byte = values[below(sizeof values)];
}

/* A byte anywhere on the chip. */
static void change_chip(void)
{
    change_byte(&chip[below((uint32_t)room[CHIP])]);
}

/* A spare byte of any page. */
static void change_spare(void)
{
    uint32_t page = below((uint32_t)(room[CHIP] / cnftl_page_bytes(&par)));

    change_byte(&chip[(page + 1) * cnftl_page_bytes(&par)
                      - 1 - below(CNFTL_SPARE_BYTES)]);
}

/* A spare byte of a used block. */
static void change_used_spare(void)
{
    uint32_t entry = some_entry(true);
    uint32_t page = below((uint32_t)cnftl_pages_per_block(&par));

    if (entry != CNFTL_NONE)
        change_byte(&chip[bt[entry] * block_bytes()
                          + (page + 1) * cnftl_page_bytes(&par)
                          - 1 - below(CNFTL_SPARE_BYTES)]);
}

/* A frame of a used block holds another cluster throughout: of any region, or
   of its own but perhaps not below C. */
static void change_cluster(void)
{
    uint32_t entry = some_entry(true), frame = below(frames());

    if (entry == CNFTL_NONE || frame >= frames_in(bt[entry]))
        return;
    put_frame(entry, frame,
              once_in(2) ? below(par.c)
                         : entry / par.gamma + par.mu * below(par.c));
}

/* The BT entry that names a block, or any. */
static uint32_t entry_of(uint32_t block)
{
    uint32_t entries = par.mu * par.gamma;

    for (uint32_t i = 0; i < entries; i++)
        if (bt[i] == block)
            return i;
    return below(entries);
}

/* A block takes or loses a whole frame anywhere. */
static void change_frame(void)
{
    uint32_t block = below(par.n), frame = below(frames());

    if (once_in(2))
        begin_frame(entry_of(block), block, frame, below(par.c), par.alpha);
    else
        memset(frame_at(block, frame), 255, frame_bytes());
}

/* The last page of a used block's last frame is lost. */
static void cut_frame(void)
{
    uint32_t entry = some_entry(true), k;

    if (entry == CNFTL_NONE || (k = frames_in(bt[entry])) == 0)
        return;
    memset(frame_at(bt[entry], k - 1) + frame_bytes() - cnftl_page_bytes(&par),
           255, cnftl_page_bytes(&par));
}

/* Free blocks become reserved until mu*gamma or fewer are not, or until none is
   free. */
static void reserve_blocks(void)
{
    uint32_t wanted = once_in(2) ? 0 : par.mu * par.gamma - once_in(4);

    while (blocks_kept() > wanted && free_blocks() > 0)
        reserve_block(some_block(CNFTL_BLOCK_FREE));
}

/* A used block loses its last frame, and CT forgets that frame. */
static void drop_last_frame(void)
{
    uint32_t entry = some_entry(true), k, cluster;

    if (entry == CNFTL_NONE || (k = frames_in(bt[entry])) == 0)
        return;
    cluster = cluster_at(bt[entry], k - 1);
    if (cluster < par.c)
        ct[cluster] = CNFTL_NONE;
    memset(frame_at(bt[entry], k - 1), 255, frame_bytes());
}

/* A virtual block takes a free block and no frame; FST names it. */
static void name_empty_block(void)
{
    uint32_t entry = some_entry(false), block = some_block(CNFTL_BLOCK_FREE);

    if (entry == CNFTL_NONE || block == CNFTL_NONE)
        return;
    bst[block] = CNFTL_BLOCK_USED;
    bt[entry] = (uint16_t)block;
    fst[entry / par.gamma] = (uint16_t)(entry % par.gamma * par.d);
}

/* One mark is lost or is one too many, of any frame and virtual block. */
static void flip_mark(void)
{
    uint32_t entry = below(par.mu * par.gamma);
    uint32_t frame = once_in(2) ? below(frames())
                                : below(CNFTL_MARK_WORDS * 64);

    *mark_word(entry, frame) ^= mark_bit(frame);
}

/* A frame of a used block gets the mark, or loses it. */
static void change_used_mark(void)
{
    uint32_t entry = some_entry(true), frame = below(frames());

    if (entry == CNFTL_NONE)
        return;
    if (once_in(2))
        *mark_word(entry, frame) |= mark_bit(frame);
    else
        *mark_word(entry, frame) &= ~mark_bit(frame);
}

/* A mark from F up is set, just there or in any word. */
static void mark_past_the_end(void)
{
    uint32_t entry = once_in(2) ? below(par.mu * par.gamma) : some_entry(true);
    uint32_t f = frames(), top = CNFTL_MARK_WORDS * 64;
    uint32_t frame = once_in(2) ? f : f < top ? between(f, top - 1) : top;

    if (entry != CNFTL_NONE && frame < top)
        *mark_word(entry, frame) |= mark_bit(frame);
}

/* A virtual block without a physical block gets a mark. */
static void mark_unassigned(void)
{
    uint32_t entry = some_entry(false), frame = below(frames());

    if (entry != CNFTL_NONE)
        *mark_word(entry, frame) |= mark_bit(frame);
}

/* Two words change places: of one virtual block, or of any two. */
static void swap_marks(void)
{
    uint32_t i = below((uint32_t)right_len[MARKS]);
    uint32_t j = once_in(2) ? i / CNFTL_MARK_WORDS * CNFTL_MARK_WORDS
                              + below(CNFTL_MARK_WORDS)
                            : below((uint32_t)right_len[MARKS]);
    uint64_t word = marks[i];

    marks[i] = marks[j];
    marks[j] = word;
}

/* A word becomes anything. */
static void scramble_word(void)
{
    marks[below((uint32_t)right_len[MARKS])] = rnd();
}

/* One thing changes in the marks. */
static void change_marks(void)
{
    static void (*const changes[])(void) = {
        flip_mark, change_used_mark, change_used_mark, mark_past_the_end,
        mark_unassigned, swap_marks, scramble_word
    };

    changes[below(sizeof changes / sizeof *changes)]();
}

/* The largest stamp on the pages of a region, by the first page of each frame,
   or 0.  The state may be any. */
static uint32_t largest_stamp(uint32_t region)
{
    uint32_t most = 0;

    for (uint32_t i = 0; i < par.gamma; i++) {
        uint32_t block = bt[region * par.gamma + i];

        for (uint32_t k = block < par.n ? frames_in(block) : 0; k > 0; k--) {
            uint32_t stamp = number_at(spare_at(block, k - 1, 0) + 7);

            most = stamp > most ? stamp : most;
        }
    }
    return most;
}

/* The last stamps of some regions become others: the largest on the region's
   pages, just below or above that, or any. */
static void change_last_stamps(void)
{
    do {
        uint32_t region = below(par.mu), most = largest_stamp(region);
        const uint32_t values[] = { most, most - 1, most + 1, some_stamp() };

        stamps[region] = values[below(4)];
    } while (once_in(2));
}

/* Some regions have one stamp left or none. */
static void use_up_stamps(void)
{
    do
        stamps[below(par.mu)] = UINT32_MAX - below(2);
    while (once_in(2));
}

/* The programmed pages of a frame get this stamp, from a place on. */
static void put_stamp(uint32_t block, uint32_t frame, uint32_t place,
                      uint32_t stamp)
{
    for (; place < par.alpha; place++)
        if (spare_at(block, frame, place)[6] == 0)
            put_number(spare_at(block, frame, place) + 7, stamp);
}

/* A frame of a used block gets another stamp, from a place on: the region's
   last one, the next, or any. */
static void change_stamp_from(uint32_t place)
{
    uint32_t entry = some_entry(true), last;

    if (entry == CNFTL_NONE || frames_in(bt[entry]) == 0)
        return;
    last = stamps[entry / par.gamma];
    put_stamp(bt[entry], below(frames_in(bt[entry])), place,
              once_in(2) ? last + 1 : once_in(2) ? last : (uint32_t)rnd());
}

/* All pages of a frame get another stamp. */
static void change_stamp(void)
{
    change_stamp_from(0);
}

/* The pages of a frame get two stamps. */
static void mix_stamps(void)
{
    change_stamp_from(below(par.alpha));
}

/* A random BT entry whose block has frames and is not full, or CNFTL_NONE. */
static uint32_t open_entry(void)
{
    uint32_t entries = par.mu * par.gamma, start = below(entries);

    for (uint32_t i = 0; i < entries; i++) {
        uint32_t block = bt[(start + i) % entries];
        uint32_t k = block < par.n ? frames_in(block) : 0;

        if (k > 0 && k < frames())
            return (start + i) % entries;
    }
    return CNFTL_NONE;
}

/* A block that is not full takes a frame that is only begun, with the region's
   next stamp, as of a write that was cut short; the table has the stamp or
   not. */
static void cut_write(void)
{
    uint32_t entry = open_entry(), region, k;

    if (entry == CNFTL_NONE || par.alpha == 1)
        return;
    region = entry / par.gamma;
    k = frames_in(bt[entry]);
    begin_frame(entry, bt[entry], k, cluster_at(bt[entry], k - 1),
                between(1, par.alpha - 1));
    fst[region] = (uint16_t)(entry % par.gamma * par.d + k / par.beta);
    if (stamps[region] == UINT32_MAX)
        return;
    put_stamp(bt[entry], k, 0, stamps[region] + 1);
    stamps[region] += once_in(2);
}

/* The programmed pages of a used block, or of one of its frames, name another
   virtual block, perhaps of no region. */
static void change_virtual(void)
{
    uint32_t entry = some_entry(true), k, only, to;

    if (entry == CNFTL_NONE || (k = frames_in(bt[entry])) == 0)
        return;
    only = once_in(2) ? below(k) : k;
    to = once_in(4) ? (uint32_t)rnd() : below(par.gamma + 1);
    for (uint32_t frame = 0; frame < k; frame++)
        for (uint32_t place = 0; place < par.alpha; place++)
            if ((only == k || only == frame)
                && spare_at(bt[entry], frame, place)[6] == 0)
                spare_at(bt[entry], frame, place)[11] = (uint8_t)to;
}

/* One thing changes in the stamps, in the table or on the pages. */
static void change_stamps(void)
{
    static void (*const changes[])(void) = {
        change_last_stamps, use_up_stamps, change_stamp, mix_stamps, cut_write
    };

    changes[below(sizeof changes / sizeof *changes)]();
}

/* A free block takes the first pages of a used one, as copies that were cut
   short leave it: so many frames, and perhaps the first pages of one more. */
static void copy_block(void)
{
    uint32_t entry = some_entry(true), to = some_block(CNFTL_BLOCK_FREE);
    uint32_t pages = (uint32_t)cnftl_pages_per_block(&par), k;

    if (entry == CNFTL_NONE || to == CNFTL_NONE)
        return;
    k = once_in(8) ? pages : between(1, pages);
    memset(frame_at(to, 0), 255, block_bytes());
    memcpy(frame_at(to, 0), frame_at(bt[entry], 0), k * cnftl_page_bytes(&par));
    if (once_in(4))
        bst[to] = CNFTL_BLOCK_USED;
}

/* Each full block gets such a copy, which is not full, while there are free
   blocks: a start then erases them all. */
static void copy_full_blocks(void)
{
    uint32_t pages = (uint32_t)cnftl_pages_per_block(&par);

    for (uint32_t i = 0; i < par.mu * par.gamma && frames() > 1; i++) {
        uint32_t to = some_block(CNFTL_BLOCK_FREE);

        if (bt[i] >= par.n || frames_in(bt[i]) < frames() || to == CNFTL_NONE)
            continue;
        memcpy(frame_at(to, 0), frame_at(bt[i], 0),
               between(1, pages - par.alpha) * cnftl_page_bytes(&par));
        bst[to] = CNFTL_BLOCK_USED;
    }
}

/* A used block loses its last frames, down to one. */
static void shorten_block(void)
{
    uint32_t entry = some_entry(true), k, to;

    if (entry == CNFTL_NONE || (k = frames_in(bt[entry])) < 2)
        return;
    for (to = between(1, k - 1); k > to; k--)
        memset(frame_at(bt[entry], k - 1), 255, frame_bytes());
}

/* A frame of a used block gets the cluster and the stamp of another frame of
   its region, on its programmed pages. */
static void repeat_stamp(void)
{
    uint32_t entry = some_entry(true), other, from, to;

    if (entry == CNFTL_NONE)
        return;
    other = entry / par.gamma * par.gamma + below(par.gamma);
    if (bt[other] >= par.n || frames_in(bt[other]) == 0
        || frames_in(bt[entry]) == 0)
        return;
    from = below(frames_in(bt[other]));
    to = below(frames_in(bt[entry]));
    for (uint32_t place = 0; place < par.alpha; place++) {
        uint8_t *spare = spare_at(bt[entry], to, place);

        if (spare[6] != 0)
            continue;
        memcpy(spare + 7, spare_at(bt[other], from, 0) + 7, 4);
        if (once_in(2) || place > 0)
            memcpy(spare, spare_at(bt[other], from, 0), 4);
    }
}

/* Each block has been erased nearly as often as it is rated for, or more. */
static void wear_blocks(void)
{
    for (uint32_t b = 0; b < par.n; b++)
        wear[b] = once_in(2) ? par.e - 1 : wear_near_rated();
}

/* What a start looks at changes: whole blocks, or two stamps. */
static void change_for_start(void)
{
    static void (*const changes[])(void) = {
        copy_block, copy_block, copy_block, shorten_block, repeat_stamp,
        cut_frame, cut_write, change_virtual, change_used_spare
    };

    if (once_in(2))
        make_startable();
    if (once_in(4)) {
        copy_full_blocks();
        return;
    }
    do
        changes[below(sizeof changes / sizeof *changes)]();
    while (once_in(3));
}

/* One whole table becomes anything. */
static void scramble_table(void)
{
    uint32_t i = between(CT, STAMPS);

    fill_random(bytes_of(&product, (enum slice)i), room[i]);
}

/* Changes one thing, most often, in both sides' states: marks or stamps alone,
   or another thing, which the marks then follow half of the time, so that they
   do not always give it away.  At times no stamps are left then, or the blocks
   are nearly worn. */
static void change_state(void)
{
    static void (*const changes[])(void) = {
        change_ct, change_fst, change_bt, change_bst, change_chip,
        change_spare, change_used_spare, change_cluster, change_frame,
        cut_frame, reserve_blocks, drop_last_frame, name_empty_block,
        change_virtual, scramble_table
    };

    if (once_in(5)) {
        change_for_start();
    } else if (once_in(5)) {
        change_marks();
        if (once_in(4))
            change_stamps();
    } else if (once_in(6)) {
        change_stamps();
    } else {
        do
            changes[below(sizeof changes / sizeof *changes)]();
        while (once_in(8));
        if (once_in(2))
            put_marks();
    }
    if (once_in(8))
        use_up_stamps();
    if (once_in(4))
        wear_blocks();
    copy_side(&model, &product);
}

/* ==== Figures ========================================================== */

enum { FIGURES_EACH = 8 }; /* parameters whose figures go before each board */

static uint64_t figures_of;     /* parameters whose figures were compared */
static uint64_t figures;        /* regions whose figures were compared */
static uint64_t worst_figures;  /* those with the figure 1 */
static uint64_t empty_figures;  /* those of regions that have no cluster */

/* Any allowed parameters; C is 1, at most mu, the largest or any. */
static struct cnftl_params any_parameters(void)
{
    struct cnftl_params p = { 16, 0, 0, 0, 0, 0, 0, 0, RATED };
    uint32_t most;

    do {
        p.alpha = between(1, 16);
        p.beta = between(1, 16);
        p.d = between(1, 16);
        p.gamma = between(1, 16);
    } while (p.alpha * p.beta * p.d > 256 || p.gamma * p.beta * p.d == 1);
    p.mu = once_in(2) ? between(1, 8) : between(1, 1024);
    p.n = between(1, 65535);
    most = p.mu * (p.gamma * p.beta * p.d - 1);
    most = most < 1048576 ? most : 1048576;
    switch (below(6)) {
    case 0:
        p.c = 1;
        break;
    case 1:
        p.c = between(1, p.mu);
        break;
    case 2:
        p.c = most;
        break;
    default:
        p.c = between(1, most);
        break;
    }
    return p;
}

/* Tells of another figure than the model's and ends the run. */
static void differ_in_figure(const struct cnftl_params *p, uint32_t region,
                             uint32_t by_header, uint32_t by_model)
{
    printf("fuzz: difference in a figure at call %" PRIu64 " (seed %" PRIu64
           ")\n", calls, seed);
    printf("  region %" PRIu32 ": header %" PRIu32 ", model %" PRIu32 "\n",
           region, by_header, by_model);
    printf("  alpha=%" PRIu32 " beta=%" PRIu32 " d=%" PRIu32 " mu=%" PRIu32
           " gamma=%" PRIu32 " c=%" PRIu32 "\n", p->alpha, p->beta, p->d,
           p->mu, p->gamma, p->c);
    exit(model_mutant == MODEL_RIGHT ? 1 : 3);
}

/* Compares the writes per erase of all regions with the model's. */
static void compare_figures(const struct cnftl_params *p)
{
    static uint32_t by_model[1024];

    assert(cnftl_params_allowed(p));
    model_writes_per_erase(p, by_model);
    for (uint32_t region = 0; region < p->mu; region++) {
        uint32_t by_header = cnftl_writes_per_erase(p, region);

        if (by_header != by_model[region])
            differ_in_figure(p, region, by_header, by_model[region]);
        worst_figures += by_header == 1;
        empty_figures += region >= p->c;
    }
    figures_of++;
    figures += p->mu;
}

/* Compares the figures of some parameters. */
static void compare_some_figures(void)
{
    for (int i = 0; i < FIGURES_EACH; i++) {
        struct cnftl_params p = any_parameters();

        compare_figures(&p);
    }
}

/* ==== Runs ============================================================= */

static uint32_t rest_of_episode; /* calls that this board still gets */

/* Whether the mark of this frame of a virtual block of a cluster's region is
   set. */
static bool is_marked(uint32_t cluster, uint32_t virtual_block, uint32_t frame)
{
    uint32_t entry = cluster % par.mu * par.gamma + virtual_block;

    return (*mark_word(entry, frame) & mark_bit(frame)) != 0;
}

/* Compares the model's third count of the read or write just made with what a
   why has told. */
static void looked_as_told(const struct call *k, const uint32_t *list,
                           uint64_t a)
{
    uint32_t looks = list[CNFTL_WHY_LOOKS];

    if (looks != model_looks) {
        printf("fuzz: %" PRIu32 " looks told, %" PRIu32 " by the model\n",
               looks, model_looks);
        differ(k, "the looks told", a, a);
    }
    looks_told[looks < 2 ? looks : 2]++;
}

/* Reads one sector, and compares it with the frame that a why has told. */
static void read_as_told(struct call k, const uint32_t *list)
{
    const uint8_t *page = frame_at(list[CNFTL_WHY_PHYSICAL],
                                   list[CNFTL_WHY_FRAME])
                        + k.lba % par.alpha * cnftl_page_bytes(&par);
    uint64_t a = answer_of(&k);

    for (uint32_t i = 0; i < par.s; i++)
        if (bytes_of(&product, DATA)[i] != (list[CNFTL_WHY_HELD] ? page[i]
                                                                 : 255))
            differ(&k, "the frame told", a, a);
    if (list[CNFTL_WHY_HELD]
        && !is_marked(k.lba / par.alpha, list[CNFTL_WHY_VIRTUAL],
                      list[CNFTL_WHY_FRAME]))
        differ(&k, "the mark of the frame told", a, a);
    looked_as_told(&k, list, a);
    held_reads += list[CNFTL_WHY_HELD];
}

/* Writes one sector that a why has told to have no stamp or no block left. */
static void refused_as_told(struct call k, const uint32_t *list)
{
    uint64_t a = answer_of(&k);

    if (cnftl_reply_of(a) != list[CNFTL_WHY_WRITE]
        || list[CNFTL_WHY_TARGET] != 0 || list[CNFTL_WHY_TAKES] != 0
        || list[CNFTL_WHY_COPIES] != 0)
        differ(&k, "the forecast", a, a);
    stampless += cnftl_reply_of(a) == CNFTL_NO_STAMP_LEFT;
    blockless += cnftl_reply_of(a) == CNFTL_NO_BLOCK_LEFT;
}

/* Whether the frame of a cluster in a virtual block of its region has the
   region's last stamp and that virtual block on all pages. */
static bool is_stamped(uint32_t cluster, uint32_t virtual_block,
                       uint32_t frame)
{
    uint32_t region = cluster % par.mu;
    uint32_t block = bt[region * par.gamma + virtual_block];

    for (uint32_t place = 0; place < par.alpha; place++) {
        const uint8_t *spare = spare_at(block, frame, place);

        if (number_at(spare + 7) != stamps[region]
            || spare[11] != virtual_block)
            return false;
    }
    return true;
}

/* Writes one sector, and compares the counts of the write, the segment that CT
   and FST then name, the mark that it sets and the spare bytes of its frame
   with the forecast, and the copies of a reclaim with the marks before it. */
static void write_as_told(struct call k, const uint32_t *list)
{
    uint32_t cluster = k.lba / par.alpha;
    uint32_t entry = cluster % par.mu * par.gamma + list[CNFTL_WHY_TARGET];
    bool counted = list[CNFTL_WHY_WRITE] != CNFTL_WRITE_RECLAIMS
                || list[CNFTL_WHY_COPIES] == marks_of(entry);
    uint32_t segment = list[CNFTL_WHY_TARGET] * par.d
                     + list[CNFTL_WHY_TAKES] / par.beta;
    uint64_t a = answer_of(&k);

    if (cnftl_reply_of(a) != CNFTL_ACCEPTED
        || cnftl_programs_of(a) != par.alpha * (list[CNFTL_WHY_COPIES] + 1)
        || cnftl_erases_of(a)
               != (list[CNFTL_WHY_WRITE] == CNFTL_WRITE_RECLAIMS)
        || ct[cluster] != segment || fst[cluster % par.mu] != segment
        || !counted || !is_marked(cluster, list[CNFTL_WHY_TARGET],
                                  list[CNFTL_WHY_TAKES])
        || !is_stamped(cluster, list[CNFTL_WHY_TARGET],
                       list[CNFTL_WHY_TAKES]))
        differ(&k, "the forecast", a, a);
    looked_as_told(&k, list, a);
    forecasts[list[CNFTL_WHY_WRITE] % 4]++;
}

/* After a why that was accepted with the board's own parameters: at times a
   read or a write of the same sector at once, which must be as told. */
static void hold_to_it(const struct call *why)
{
    uint32_t list[CNFTL_WHY_ENTRIES];
    struct call k = *why;

    if (!own_parameters(why) || once_in(3) || calls >= limit)
        return;
    memcpy(list, bytes_of(&product, LIST), sizeof list);
    k.kind = "RW"[below(2)];
    k.count = 1;
    k.len[DATA] = par.s;
    k.len[LIST] = 0;
    if (k.kind == 'R')
        read_as_told(k, list);
    else if (list[CNFTL_WHY_WRITE] == CNFTL_NO_STAMP_LEFT
             || list[CNFTL_WHY_WRITE] == CNFTL_NO_BLOCK_LEFT)
        refused_as_told(k, list);
    else
        write_as_told(k, list);
}

/* Makes a few requests on a changed state, and then goes back to the state
   before or, where the changed one is orderly, perhaps goes on with it. */
static void changed_requests(void)
{
    bool held = shadow_holds;
    uint32_t reply, times = between(1, 3);

    copy_side(&saved, &product);
    change_state();
    shadow_holds = false;
    do {
        struct call k = right_call("RRRWWWLYYQQSSSS"[below(15)]);

        if (strchr("WQS", k.kind) && once_in(3))
            give_budget(&k);
        if (once_in(8))
            add_faults(&k);
        reply = make_call(&k);
        if (k.kind == 'Y' && reply == CNFTL_ACCEPTED)
            hold_to_it(&k);
    } while (--times > 0 && calls < limit);
    if (reply == CNFTL_ACCEPTED && once_in(4))
        return;
    copy_side(&product, &saved);
    copy_side(&model, &saved);
    shadow_holds = held;
}

/* One call of any kind with faults. */
static void faulty_request(void)
{
    struct call k = right_call("FRRWWLYYQQQQS"[below(13)]);

    if (strchr("FWQS", k.kind) && once_in(3))
        give_budget(&k);
    add_faults(&k);
    make_call(&k);
}

/* What comes after a cut: a start, some of which are cut themselves, and a few
   reads.  The start is accepted if the board was changed by calls and cuts
   alone since a format. */
static void start_again(void)
{
    uint32_t reads = between(1, 8);
    uint64_t a;

    do {
        struct call k = right_call('S');
        bool sound = shadow_holds;

        if (once_in(4))
            give_budget(&k);
        a = answer_of(&k);
        if (sound && cnftl_reply_of(a) != CNFTL_ACCEPTED)
            differ(&k, "the reply to a start after a cut", a, CNFTL_ACCEPTED);
    } while (cnftl_reply_of(a) == CNFTL_ACCEPTED && is_cut() && calls < limit);
    for (; reads > 0 && calls < limit; reads--) {
        struct call k = right_call('R');

        make_call(&k);
    }
}

/* The board gets at most this many calls more. */
static void end_soon(uint32_t most)
{
    if (rest_of_episode > most)
        rest_of_episode = most;
}

/* A format; a board that cannot be formatted gets a start and few calls
   more. */
static void format_request(void)
{
    struct call k = right_call('F'), start = right_call('S');

    if (make_call(&k) == CNFTL_ACCEPTED)
        return;
    if (calls < limit)
        make_call(&start);
    end_soon(8);
}

/* A right call with a budget.  Most times a start follows a cut, and a format
   that of a format. */
static void limited_request(void)
{
    struct call k = right_call(once_in(64) ? 'F' : "WWWWWQQQS"[below(9)]);
    bool sound = shadow_holds && !down;
    uint64_t a;

    give_budget(&k);
    a = answer_of(&k);
    if (sound && cnftl_reply_of(a) != CNFTL_ACCEPTED
        && !may_be_refused(&k, cnftl_reply_of(a)))
        differ(&k, "the reply on a sound board", a, CNFTL_ACCEPTED);
    if (!is_cut() || once_in(8) || calls >= limit)
        return;
    if (k.kind == 'F' || once_in(32))
        format_request();
    else
        start_again();
}

/* A right read, write, release, why, queue or start.  It is accepted if the
   board was changed by calls alone since a format, and a start then erases
   nothing; but a write may find no block left, and then the board ends soon.
   One that is cut is started soon, one that is not orderly is formatted soon,
   and one with no stamp left in a region later. */
static void right_request(void)
{
    struct call k = right_call(once_in(64) ? 'S'
                               : "RRRRWWWWWWWLYYQQ"[below(16)]);
    bool sound = shadow_holds && !down;
    uint64_t a = answer_of(&k);
    uint32_t reply = cnftl_reply_of(a);

    if (sound && !may_be_refused(&k, reply)
        && (reply != CNFTL_ACCEPTED
            || (k.kind == 'S' && cnftl_erases_of(a) != 0)))
        differ(&k, "the reply on a sound board", a, CNFTL_ACCEPTED);
    if (k.kind == 'Y' && reply == CNFTL_ACCEPTED)
        hold_to_it(&k);
    if (reply == CNFTL_NO_BLOCK_LEFT)
        end_soon(60);
    if (is_cut() && once_in(2) && calls < limit)
        start_again();
    else if (((reply == CNFTL_NOT_ORDERLY && once_in(4))
         || (reply == CNFTL_NO_STAMP_LEFT && once_in(32))) && calls < limit)
        format_request();
}

/* A right read of a state that was built to be orderly is accepted. */
static void read_built_state(void)
{
    struct call k = right_call('R');
    uint32_t reply = make_call(&k);

    if (reply != CNFTL_ACCEPTED)
        differ(&k, "the reply on a built state", reply, CNFTL_ACCEPTED);
}

/* The state that a board starts from: raw and then formatted, orderly, or
   random bytes. */
static void start_state(void)
{
    uint32_t kind = below(16);

    if (kind == 0)
        return;
    if (kind < (large_blocks() ? 14 : 7)) {
        build_orderly();
        if (once_in(2))
            make_startable();
        copy_side(&model, &product);
        read_built_state();
        return;
    }
    raw_chip();
    copy_side(&model, &product);
    format_request();
}

/* Up to this many calls of all sorts on a board of these parameters; fewer
   on a large one. */
static void run_board(struct cnftl_params p, uint32_t most)
{
    uint32_t by_size;

    assert(cnftl_params_allowed(&p));
    open_board(p, cnftl_chip_bytes(&p));
    by_size = (uint32_t)(3000000 / room[CHIP]);
    rest_of_episode = by_size < 20 ? 20 : by_size < most ? by_size : most;
    start_state();
    for (; rest_of_episode > 0 && calls < limit; rest_of_episode--) {
        uint32_t kind = below(100);

        if (kind < 1 && (!shadow_holds || once_in(4)))
            format_request();
        else if (kind < 6)
            faulty_request();
        else if (kind < 14)
            changed_requests();
        else if (kind < 24)
            limited_request();
        else
            right_request();
    }
    close_board();
}

/* Calls on a chip of 4 GiB by its parameters, whose length would be 0 in 32
   bits: the lengths are wrong. */
static void run_wrapped_board(void)
{
    struct cnftl_params p = { 496, 16, 16, 1, 1, 1, 15, 32768, RATED };

    assert((uint64_t)cnftl_chip_bytes(&p) == UINT64_C(4294967296));
    open_board(p, 0);
    for (int i = 0; i < 6 && calls < limit; i++) {
        struct call k = right_call("FRWYQS"[i]);

        make_call(&k);
    }
    close_board();
}

/* C for regions of at most l clusters, the last region or more with fewer. */
static uint32_t clusters_for(uint32_t mu, uint32_t l)
{
    return mu * (l - 1) + between(1, mu);
}

/* Rated erases of a block: half of the time so few that a board has them. */
static uint32_t some_rated(void)
{
    static const uint32_t values[] = { 1, 2, 2, 3, 3, 3, 5, 5, 5, 20, 20, 20 };

    return once_in(2) ? RATED
                      : values[below(sizeof values / sizeof *values)];
}

/* Fills in C, N and E: C is tight a third of the time, a few blocks are spare,
   more of them where they wear out soon, and rarely there are too few. */
static struct cnftl_params with_sizes(struct cnftl_params p)
{
    uint32_t most = p.gamma * p.beta * p.d - 1;

    p.e = some_rated();
    p.c = clusters_for(p.mu, once_in(3) ? most : between(1, most));
    p.n = once_in(24) ? between(1, p.mu * p.gamma)
                      : p.mu * p.gamma + between(1, p.e < RATED ? 12 : 4);
    return p;
}

/* Small boards of all shapes. */
static struct cnftl_params small_board(void)
{
    struct cnftl_params p = {
        between(16, 20), between(1, 3), between(1, 3), between(1, 3),
        between(1, 3), between(1, 3), 0, 0, RATED
    };

    if (p.gamma * p.beta * p.d == 1)
        p.gamma = 2;
    return with_sizes(p);
}

/* Small boards at one extreme of the parameters each. */
static struct cnftl_params extreme_board(void)
{
    static const uint32_t p256[5][3] = {
        { 16, 16, 1 }, { 16, 1, 16 }, { 1, 16, 16 }, { 4, 8, 8 }, { 2, 16, 8 }
    };
    const uint32_t *abd = p256[below(5)];
    struct cnftl_params p = { 16, 1, 1, 1, 1, 1, 0, 0, RATED };

    switch (below(9)) {
    case 0: /* both frames of a cluster in one segment */
        p.alpha = between(1, 2);
        p.beta = 2;
        p.mu = between(1, 2);
        p.gamma = between(1, 3);
        break;
    case 1: /* P = 1 */
        p.mu = between(1, 4);
        p.gamma = between(2, 6);
        break;
    case 2: /* gamma = 1 */
        p.alpha = between(1, 2);
        p.beta = between(2, 4);
        p.mu = between(1, 5);
        break;
    case 3: /* C < mu: some regions have no cluster */
        p.beta = between(1, 2);
        p.gamma = 2;
        p.mu = between(2, 8);
        p = with_sizes(p);
        p.c = between(1, p.mu - 1);
        return p;
    case 4: /* gamma = 16 */
        p.alpha = between(1, 2);
        p.gamma = 16;
        break;
    case 5: /* P = 256 */
        p.alpha = abd[0];
        p.beta = abd[1];
        p.d = abd[2];
        p.gamma = between(1, 2);
        break;
    case 6: /* the largest clusters */
        p.s = 512;
        p.alpha = 16;
        p.d = 2;
        break;
    case 7: /* cluster numbers above 255 */
        p.d = 2;
        p.mu = 16;
        p.gamma = 16;
        p.c = 16 * 31;
        p.n = 16 * 16 + between(1, 3);
        p.e = some_rated();
        return p;
    default: /* one region */
        p.alpha = between(1, 4);
        p.beta = between(1, 4);
        p.d = between(1, 4);
        p.gamma = between(2, 4);
        break;
    }
    return with_sizes(p);
}

/* One region with marks in all four words, and few frames more than clusters,
   so that the victim changes with every few writes. */
static struct cnftl_params large_block_board(void)
{
    struct cnftl_params p = { 16, 1, 16, 0, 1, 0, 0, 0, RATED };

    p.d = between(13, 16);
    p.gamma = between(2, 3);
    p.c = p.gamma * p.beta * p.d - between(1, 8);
    p.n = p.gamma + between(1, 4);
    p.e = some_rated();
    return p;
}

/* The large extremes, each in its turn. */
static void run_large_board(uint64_t turn)
{
    uint32_t e = some_rated();
    const struct cnftl_params most_regions =
        { 16, 1, 2, 1, 1024, 1, 1024, 1026, e };
    const struct cnftl_params most_blocks =
        { 16, 1, 1, 1, 2, 2, 2, 65535, e };
    const struct cnftl_params most_clusters =
        { 16, 1, 16, 16, 17, 16, 17 * 4095, 17 * 16 + 4, e };

    switch (turn % 4) {
    case 0:
        run_board(most_clusters, 20);
        break;
    case 1:
        run_board(most_regions, 40);
        break;
    case 2:
        run_board(most_blocks, 20);
        break;
    default:
        run_wrapped_board();
        break;
    }
}

/* Figures, and boards until the calls are made. */
static void run_all(void)
{
    for (uint64_t i = 0; calls < limit; i++) {
        compare_some_figures();
        if (i % 16 == 15)
            run_large_board(i / 16);
        else if (i % 8 == 3)
            run_board(large_block_board(), 1200);
        else if (i % 2 == 0)
            run_board(small_board(), 1200);
        else
            run_board(extreme_board(), 1200);
    }
}

/* ==== The program ====================================================== */

/* The replies that items of a queue get. */
static const int item_replies[] = {
    CNFTL_ACCEPTED, CNFTL_BAD_COUNT, CNFTL_BAD_ADDRESS, CNFTL_WRONG_DATA,
    CNFTL_NOT_ORDERLY, CNFTL_NO_STAMP_LEFT, CNFTL_NO_BLOCK_LEFT
};
enum { ITEM_REPLIES = sizeof item_replies / sizeof *item_replies };

/* The replies that a start gets. */
static const int start_replies[] = {
    CNFTL_ACCEPTED, CNFTL_BAD_PARAMETER, CNFTL_WRONG_LENGTH, CNFTL_NOT_ORDERLY
};
enum { START_REPLIES = sizeof start_replies / sizeof *start_replies };

/* Prints what was seen of budgets; false if something never was. */
static bool report_cuts(void)
{
    bool all = restart_erases > 0 && came_old > 0 && came_new > 0
            && kept_items > 0;

    printf("fuzz: calls with a budget, cut and not:");
    for (int i = 0; call_kinds[i]; i++) {
        if (strchr("FWQS", call_kinds[i]) == NULL)
            continue;
        printf(" %c %" PRIu64 " and %" PRIu64, call_kinds[i], cut[i], whole[i]);
        all = all && cut[i] > 0 && whole[i] > 0;
    }
    printf("\nfuzz: %" PRIu64 " starts after a cut (%" PRIu64 " erases), "
           "writes cut short: %" PRIu64 " came back old, %" PRIu64 " new; %"
           PRIu64 " items of queues were finished before a cut\n", restarts,
           restart_erases, came_old, came_new, kept_items);
    return all;
}

/* Prints what was seen of worn blocks; false if something never was. */
static bool report_wear(void)
{
    bool all = unmarked > 0 && worn_formats > 0 && short_writes > 0
            && short_reads > 0;

    printf("fuzz: blocks worn out");
    for (int i = 0; call_kinds[i]; i++) {
        if (strchr("FWQS", call_kinds[i]) == NULL)
            continue;
        printf(" by %c %" PRIu64, call_kinds[i], worn_out[i]);
        all = all && worn_out[i] > 0;
    }
    printf(", cuts before the mark of one %" PRIu64 "; formats refused for wear"
           " alone %" PRIu64 "\n", unmarked, worn_formats);
    printf("fuzz: with mu*gamma blocks or fewer not reserved: %" PRIu64
           " writes accepted, %" PRIu64 " reads compared with the bytes last"
           " accepted\n", short_writes, short_reads);
    return all;
}

/* Prints what was seen; false if something never was. */
static bool report(void)
{
    bool all = reclaims > 0 && shadow_reads > 0 && kinds[3] > 0
            && held_reads > 0 && stampless > 0 && blockless > 0;

    for (int r = 0; r < REPLIES; r++) {
        printf("fuzz: reply %d: %" PRIu64 " calls\n", r, seen[r]);
        all = all && seen[r] > 0;
    }
    printf("fuzz: %" PRIu64 " formats, %" PRIu64 " reads (%" PRIu64
           " compared with the bytes last accepted), %" PRIu64 " writes, %"
           PRIu64 " reclaims, %" PRIu64 " releases\n", kinds[0], kinds[1],
           shadow_reads, kinds[2], reclaims, kinds[3]);
    printf("fuzz: %" PRIu64 " queues, their items by reply:", kinds[5]);
    for (int r = 0; r < REPLIES; r++)
        printf(" %d: %" PRIu64, r, items_seen[r]);
    printf("\n");
    for (int i = 0; i < ITEM_REPLIES; i++)
        all = all && items_seen[item_replies[i]] > 0;
    printf("fuzz: %" PRIu64 " starts (%" PRIu64 " with an erase, %" PRIu64
           " released clusters came back), by reply:", kinds[6], sweeps,
           came_back);
    for (int i = 0; i < START_REPLIES; i++)
        printf(" %d: %" PRIu64, start_replies[i],
               starts_seen[start_replies[i]]);
    printf("\n");
    for (int i = 0; i < START_REPLIES; i++)
        all = all && starts_seen[start_replies[i]] > 0;
    all = all && sweeps > 0 && came_back > 0;
    all = all && starts_seen[CNFTL_TOO_FEW_BLOCKS] == 0;
    all = report_cuts() && all;
    all = report_wear() && all;
    printf("fuzz: %" PRIu64 " whys, %" PRIu64 " read as told, written as told:"
           " %" PRIu64 " continued, %" PRIu64 " opened, %" PRIu64
           " reclaimed, %" PRIu64 " had no stamp left, %" PRIu64
           " no block\n", kinds[4], held_reads, forecasts[1], forecasts[2],
           forecasts[3], stampless, blockless);
    for (int i = 1; i < 4; i++)
        all = all && forecasts[i] > 0;
    printf("fuzz: spare areas looked at, as told: none %" PRIu64 " times, one %"
           PRIu64 " times, more %" PRIu64 " times\n", looks_told[0],
           looks_told[1], looks_told[2]);
    all = all && looks_told[0] > 0 && looks_told[1] > 0 && looks_told[2] > 0;
    printf("fuzz: figures of %" PRIu64 " regions for %" PRIu64
           " sets of parameters, %" PRIu64 " of them 1, %" PRIu64
           " of regions without a cluster\n", figures, figures_of,
           worst_figures, empty_figures);
    all = all && worst_figures > 0 && empty_figures > 0;
    for (int i = 1; i < RULES; i++) {
        printf("fuzz: rule %d told broken: %" PRIu64 " times\n", i, broken[i]);
        all = all && (broken[i] > 0) == (i != CNFTL_RULE_ENOUGH);
    }
    return all;
}

/* The model's mutants that calls from C show, one a line: number, tab, name. */
static int list_mutants(void)
{
    for (int i = 1; i < MODEL_SEEN_FROM_C; i++)
        printf("%d\t%s\n", i, MODEL_MUTANTS[i]);
    return 0;
}

/* Says how to use the program. */
static int usage(void)
{
    fprintf(stderr, "use: fuzz [--calls N] [--seed S] [--mutant K]\n"
                    "     fuzz --mutants\n");
    return 2;
}

/* Reads the options, runs, and reports. */
int main(int argc, char **argv)
{
    uint64_t mutant = MODEL_RIGHT;

    if (argc == 2 && strcmp(argv[1], "--mutants") == 0)
        return list_mutants();
    for (int i = 1; i < argc; i += 2) {
        uint64_t *value = strcmp(argv[i], "--calls") == 0 ? &limit
                        : strcmp(argv[i], "--seed") == 0 ? &seed
                        : strcmp(argv[i], "--mutant") == 0 ? &mutant : NULL;

        if (value == NULL || !number(argv[i + 1], value))
            return usage();
    }
    if (mutant >= MODEL_MUTANT_COUNT)
        return usage();
    model_mutant = (int)mutant;
    rnd_state = seed;
    printf("fuzz: seed %" PRIu64 ", %" PRIu64 " calls, %s\n", seed, limit,
           MODEL_MUTANTS[model_mutant]);
    run_all();
    if (!report()) {
        printf("fuzz: something was never seen (seed %" PRIu64 ")\n", seed);
        return 1;
    }
    printf("fuzz: %" PRIu64 " calls agree (seed %" PRIu64 ")\n", calls, seed);
    return 0;
}
