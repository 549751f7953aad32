/*
 * speed.c - times cnftl_* of the linked archive against fast_*, in one run.
 *
 * Each side has its own copy of a board, and the same calls go to both in
 * turn, so that both meet the same load of the machine.  Printed are the
 * median time of a call, the ratio product/C of the medians, and the ratio of
 * the best times, which other work on the machine disturbs less.  Answers and
 * boards must be equal in the end.
 *
 * Two rows are of a batch of 1,000 writes: as one queue, for which both sides
 * check the state once, and as single writes, of which there is one batch only.
 * Two are of a start: on a full board, and with a block left over besides.
 *
 * One row of the last board, of the largest blocks and regions, F = 256 and
 * gamma = 16, is the work of a write with reclaim without the check of the
 * state.
 */
#undef NDEBUG
#include "boards.h"
#include "model_fast.h"

#include <assert.h>
#include <stdio.h>
#include <stdlib.h>
#include <string.h>

enum { MOST_CALLS = 20000, FEWEST_CALLS = 15, BATCH = 1000 };
static const double row_seconds = 0.6; /* time for one row, if calls allow */

/* ==== Time ============================================================= */

/* The times of one sort of call on one side. */
struct times {
    size_t calls;
    double seconds[MOST_CALLS];
};

/* Order of two times, for qsort. */
static int by_time(const void *a, const void *b)
{
    double x = *(const double *)a, y = *(const double *)b;

    return (x > y) - (x < y);
}

/* The median of the times. */
static double median(struct times *t)
{
    qsort(t->seconds, t->calls, sizeof t->seconds[0], by_time);
    return t->seconds[t->calls / 2];
}

/* Keeps one more time. */
static void add_time(struct times *t, double seconds)
{
    if (t->calls < MOST_CALLS)
        t->seconds[t->calls++] = seconds;
}

/* What it costs to look at the clock: the median of many looks. */
static double clock_cost(void)
{
    static struct times t;

    while (t.calls < MOST_CALLS) {
        double start = now();

        add_time(&t, now() - start);
    }
    return median(&t);
}

/* ==== The calls of both sides ========================================== */

static struct cnftl_board product, plain;
static struct times of_product[3], of_plain[3];
static uint8_t data[2][16 * 512];

/* What one call on both sides took, and the erases that it reported. */
struct timed {
    double product, plain;
    uint32_t erases;
};

/* One call on both sides, timed. */
static struct timed timed_call(char kind, uint32_t lba)
{
    size_t len = product.params.s;
    double start = now(), middle, end;
    uint64_t a, b;

    a = kind == 'F' ? cnftl_board_format(&product)
      : kind == 'S' ? cnftl_board_start(&product)
      : kind == 'R' ? cnftl_board_read(&product, lba, 1, data[0], len)
                    : cnftl_board_write(&product, lba, 1, data[0], len);
    middle = now();
    b = kind == 'F' ? fast_format(CNFTL_BOARD(&plain))
      : kind == 'S' ? fast_start(CNFTL_BOARD(&plain))
      : kind == 'R' ? fast_read(CNFTL_BOARD(&plain), lba, 1, data[1], len)
                    : fast_write(CNFTL_BOARD(&plain), lba, 1, data[1], len);
    end = now();
    assert(a == b && cnftl_reply_of(a) == CNFTL_ACCEPTED);
    assert(memcmp(data[0], data[1], len) == 0);
    return (struct timed){ middle - start, end - middle, cnftl_erases_of(a) };
}

/* The same, for a row; writes with a reclaim are kept apart. */
static void time_call(char kind, uint32_t lba)
{
    struct timed t = timed_call(kind, lba);

    add_time(&of_product[kind == 'W' && t.erases], t.product);
    add_time(&of_plain[kind == 'W' && t.erases], t.plain);
}

/* ==== The boards ======================================================= */

/* Formats and fills both boards, with this many frames in each region's last
   block. */
static void fill_boards(uint32_t last)
{
    fast_format(CNFTL_BOARD(&product));
    fast_format(CNFTL_BOARD(&plain));
    for (uint32_t r = 0; r < product.params.mu; r++) {
        fill_region(&product, r, last);
        fill_region(&plain, r, last);
    }
}

/* Whether both sides hold the same board. */
static int same_boards(void)
{
    const struct cnftl_params *p = &product.params;

    return memcmp(product.chip, plain.chip, cnftl_chip_bytes(p)) == 0
        && memcmp(product.ct, plain.ct, cnftl_ct_entries(p) * 2) == 0
        && memcmp(product.bt, plain.bt, cnftl_bt_entries(p) * 2) == 0
        && memcmp(product.fst, plain.fst, cnftl_fst_entries(p) * 2) == 0
        && memcmp(product.bst, plain.bst, cnftl_bst_entries(p)) == 0
        && memcmp(product.wear, plain.wear, cnftl_wear_entries(p) * 4) == 0
        && memcmp(product.marks, plain.marks, cnftl_marks_entries(p) * 8) == 0
        && memcmp(product.stamps, plain.stamps, cnftl_stamps_entries(p) * 4)
               == 0;
}

/* ==== Rows ============================================================= */

static uint64_t rnd_state = 1;

/* A random number below n. */
static uint32_t below(uint32_t n)
{
    rnd_state = rnd_state * UINT64_C(6364136223846793005)
              + UINT64_C(1442695040888963407);
    return (uint32_t)((rnd_state >> 32) * n >> 32);
}

/* A random sector of a region. */
static uint32_t some_sector(uint32_t region)
{
    const struct cnftl_params *p = &product.params;
    uint32_t clusters = (p->c - region - 1) / p->mu + 1;

    return (region + p->mu * below(clusters)) * p->alpha + below(p->alpha);
}

/* Prints one row of the table. */
static void print_row(const char *board, const char *call, int sort,
                      double look)
{
    double a = median(&of_product[sort]) - look;
    double b = median(&of_plain[sort]) - look;

    double best_a = of_product[sort].seconds[0] - look;
    double best_b = of_plain[sort].seconds[0] - look;

    printf("%-8s  %-22s  %12.3f us  %12.3f us  %7.2f  %7.2f  %7lu\n", board,
           call, 1e6 * a, 1e6 * b, a / b, best_a / best_b,
           (unsigned long)of_product[sort].calls);
    fflush(stdout);
}

/* Begins a row. */
static double begin_row(void)
{
    for (int i = 0; i < 3; i++)
        of_product[i].calls = of_plain[i].calls = 0;
    return now() + row_seconds;
}

/* Whether a row that ends at this time needs more calls of its sort. */
static int goes_on(int sort, double end)
{
    size_t calls = of_product[sort].calls;

    return calls < FEWEST_CALLS || (calls < MOST_CALLS && now() < end);
}

/* One call with new data in a region. */
static void call_in_region(char kind, uint32_t region)
{
    memset(data, (int)below(256), sizeof data);
    time_call(kind, some_sector(region));
}

/* A row of formats or reads. */
static void time_plain_calls(char kind)
{
    double end = begin_row();

    while (goes_on(0, end))
        call_in_region(kind, below(product.params.mu));
}

/* A row of writes that find room: all regions in turn, filled anew when their
   last blocks are full. */
static void time_writes(void)
{
    const struct cnftl_params *p = &product.params;
    double end = begin_row();

    for (uint32_t left = 0; goes_on(0, end); left--) {
        if (left == 0) {
            fill_boards(1);
            left = p->mu * (p->beta * p->d - 1);
        }
        call_in_region('W', left % p->mu);
    }
    assert(of_product[1].calls == 0);
}

/* A row of writes that reclaim, in the first two regions; others among them
   are not looked at. */
static void time_reclaims(void)
{
    double end = begin_row();

    fill_boards(product.params.beta * product.params.d);
    while (goes_on(1, end))
        call_in_region('W', below(product.params.mu < 2 ? 1 : 2));
}

static struct cnftl_request batch[BATCH];
static uint8_t batch_data[BATCH * 512];
static uint64_t answers[2][BATCH];

/* Another batch of writes of one sector each, all over the board. */
static void make_batch(void)
{
    uint32_t s = product.params.s;

    for (uint32_t i = 0; i < BATCH; i++) {
        batch[i].lba = some_sector(below(product.params.mu));
        batch[i].count = 1;
        batch[i].first = i * s;
        memset(batch_data + (size_t)i * s, (int)below(256), s);
    }
}

/* A batch as one queue on both sides. */
static void time_queue(void)
{
    size_t len = (size_t)BATCH * product.params.s;
    double start = now(), middle, end;
    uint64_t a, b;

    a = cnftl_board_queue(&product, batch, BATCH, batch_data, len, answers[0]);
    middle = now();
    b = fast_queue(CNFTL_BOARD(&plain), &batch->lba, 3 * BATCH, batch_data,
                   len, answers[1], BATCH);
    end = now();
    assert(a == b && cnftl_reply_of(a) == CNFTL_ACCEPTED);
    assert(memcmp(answers[0], answers[1], sizeof answers[0]) == 0);
    add_time(&of_product[0], middle - start);
    add_time(&of_plain[0], end - middle);
}

/* The same as single writes. */
static void time_singles(void)
{
    uint32_t s = product.params.s;
    double start = now(), middle, end;

    for (uint32_t i = 0; i < BATCH; i++)
        answers[0][i] = cnftl_board_write(&product, batch[i].lba, 1,
                                          batch_data + (size_t)i * s, s);
    middle = now();
    for (uint32_t i = 0; i < BATCH; i++)
        answers[1][i] = fast_write(CNFTL_BOARD(&plain), batch[i].lba, 1,
                                   batch_data + (size_t)i * s, s);
    end = now();
    assert(memcmp(answers[0], answers[1], sizeof answers[0]) == 0);
    add_time(&of_product[0], middle - start);
    add_time(&of_plain[0], end - middle);
}

/* The rows of a batch, from full boards on. */
static void time_batches(const char *name, double look)
{
    double end = begin_row();

    fill_boards(product.params.beta * product.params.d);
    while (goes_on(0, end)) {
        make_batch();
        time_queue();
    }
    print_row(name, "queue of 1,000 writes", 0, look);
    begin_row();
    make_batch();
    time_singles();
    print_row(name, "1,000 single writes", 0, look);
}

/* Puts the first half of a full block's pages into a free block of both
   boards, as a reclaim that was cut short leaves them. */
static void leave_over(void)
{
    const struct cnftl_params *p = &product.params;
    size_t block = cnftl_pages_per_block(p) * cnftl_page_bytes(p);
    size_t free_block = (size_t)p->mu * p->gamma * block;

    memcpy(product.chip + free_block, product.chip, block / 2);
    memcpy(plain.chip + free_block, plain.chip, block / 2);
}

/* The rows of a start on a full board, and of one that also has a block left
   over. */
static void time_starts(const char *name, double look)
{
    double end = begin_row();

    fill_boards(product.params.beta * product.params.d);
    while (goes_on(0, end))
        time_call('S', 0);
    print_row(name, "start", 0, look);
    end = begin_row();
    while (goes_on(0, end)) {
        leave_over();
        time_call('S', 0);
    }
    print_row(name, "start, a block left", 0, look);
}

/* All rows of one board. */
static void time_board(const char *name, const struct cnftl_params *p,
                       double look)
{
    product = new_board(p);
    plain = new_board(p);
    time_plain_calls('F');
    print_row(name, "format", 0, look);
    fill_boards(p->beta * p->d);
    time_plain_calls('R');
    print_row(name, "read", 0, look);
    time_writes();
    print_row(name, "write without reclaim", 0, look);
    time_reclaims();
    print_row(name, "write with reclaim", 1, look);
    if (p->mu > 2)
        time_batches(name, look);
    time_starts(name, look);
    assert(same_boards());
    free_board(&product);
    free_board(&plain);
}

/* A read, and then a write with reclaim on the same state.  Both check the
   whole state first, and a read does next to nothing else.  So the difference
   of the two, the third time, is the work of a write on a state known to be
   orderly. */
static void time_work(void)
{
    uint32_t lba = some_sector(0);
    struct timed read = timed_call('R', lba), write;

    memset(data, (int)below(256), sizeof data);
    write = timed_call('W', lba);
    assert(write.erases == 1);
    add_time(&of_product[0], read.product);
    add_time(&of_plain[0], read.plain);
    add_time(&of_product[1], write.product);
    add_time(&of_plain[1], write.plain);
    add_time(&of_product[2], write.product - read.product);
    add_time(&of_plain[2], write.plain - read.plain);
}

/* The row of the work: the medians of the differences, which a look at the
   clock drops out of.  The smallest difference is that of the slowest read and
   says nothing. */
static void print_work(const char *board)
{
    double a = median(&of_product[2]), b = median(&of_plain[2]);

    printf("%-8s  %-22s  %12.3f us  %12.3f us  %7.2f  %7s  %7lu\n", board,
           "work of such a write", 1e6 * a, 1e6 * b, a / b, "-",
           (unsigned long)of_product[2].calls);
}

/* The board of the largest blocks and regions, with as many clusters as
   allowed: each write reclaims a block of F - 1 valid frames. */
static void time_largest(const char *name, double look)
{
    struct cnftl_params p = { 16, 1, 16, 16, 1, 16, 16 * 256 - 1, 17, RATED };
    double end;

    product = new_board(&p);
    plain = new_board(&p);
    fill_boards(p.beta * p.d);
    end = begin_row() + 2 * row_seconds;
    while (goes_on(2, end))
        time_work();
    print_row(name, "read", 0, look);
    print_row(name, "write with reclaim", 1, look);
    print_work(name);
    time_starts(name, look);
    assert(same_boards());
    free_board(&product);
    free_board(&plain);
}

/* A board of at most this many bytes of chip, with as many regions as fit and
   seven eighths of their frames for clusters. */
static struct cnftl_params board_of(size_t bytes)
{
    struct cnftl_params p = { 512, 4, 4, 2, 1, 16, 1, 1, RATED };

    p.n = (uint32_t)(bytes / cnftl_chip_bytes(&p));
    p.mu = (p.n - 1) / p.gamma;
    p.c = p.mu * (p.gamma * p.beta * p.d * 7 / 8);
    return p;
}

/* The table, board by board. */
int main(void)
{
    struct cnftl_params t = { 16, 2, 1, 2, 2, 2, 6, 5, RATED };
    struct cnftl_params one = board_of((size_t)1 << 20);
    struct cnftl_params large = board_of((size_t)64 << 20);
    double look = clock_cost();

    printf("%-8s  %-22s  %15s  %15s  %7s  %7s  %7s\n", "board", "call",
           "product", "C", "ratio", "best", "calls");
    time_board("Board T", &t, look);
    time_board("1 MiB", &one, look);
    time_board("64 MiB", &large, look);
    time_largest("F = 256", look);
    return 0;
}
