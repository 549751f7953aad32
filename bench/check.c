/*
 * check.c - how fast the check of a state passes over the chip, in one run
 * beside plain C, the fastest loop that we know for the same bytes, and memcmp.
 *
 * A read of one sector checks the whole state first.  On an erased board that
 * is the test for all ones over the whole chip; on a full one it reads spare
 * bytes alone.  GB/s are bytes of chip passed, read or not.
 */
#undef NDEBUG
#include "all_ones.h"
#include "boards.h"
#include "model_fast.h"

#include <assert.h>
#include <stdio.h>
#include <string.h>

enum { TURNS = 40 };

static uint8_t sector[512];

static uint64_t product_read(struct cnftl_board *b)
{
    return cnftl_board_read(b, 0, 1, sector, b->params.s);
}

static uint64_t c_read(struct cnftl_board *b)
{
    return fast_read(CNFTL_BOARD(b), 0, 1, sector, b->params.s);
}

/* The limit: the fastest loop, block by block. */
static uint64_t best_loop(struct cnftl_board *b)
{
    const struct cnftl_params *p = &b->params;
    size_t w = cnftl_chip_bytes(p) / p->n;

    for (size_t i = 0; i < p->n; i++)
        if (!all_ones(b->chip + i * w, w))
            return 1;
    return 0;
}

/* The same by memcmp of each block with itself, one byte further on. */
static uint64_t by_memcmp(struct cnftl_board *b)
{
    const struct cnftl_params *p = &b->params;
    size_t w = cnftl_chip_bytes(p) / p->n;

    for (size_t i = 0; i < p->n; i++) {
        const uint8_t *block = b->chip + i * w;

        if (block[0] != 255 || memcmp(block, block + 1, w - 1) != 0)
            return 1;
    }
    return 0;
}

/* Takes the better of a time so far and of one more run. */
static void run(double *best, int calls, uint64_t (*f)(struct cnftl_board *),
                struct cnftl_board *b)
{
    double t = now();

    for (int i = 0; i < calls; i++)
        assert(f(b) == 0);
    t = (now() - t) / calls;
    if (t < *best)
        *best = t;
}

/* The check of a board of which this many regions are full, beside the limits
   where none is. */
static void state_check(const char *name, struct cnftl_params p, uint32_t full,
                        int calls)
{
    struct cnftl_board b = new_board(&p);
    double g = (double)cnftl_chip_bytes(&p) * 1e-9;
    double product = 1e9, plain = 1e9, loop = 1e9, cmp = 1e9;

    cnftl_board_format(&b);
    for (uint32_t r = 0; r < full; r++)
        fill_region(&b, r, p.beta * p.d);
    for (int i = 0; i < TURNS; i++) {
        run(&product, calls, product_read, &b);
        run(&plain, calls, c_read, &b);
        if (full == 0) {
            run(&loop, calls, best_loop, &b);
            run(&cmp, calls, by_memcmp, &b);
        }
    }
    printf("%-18s  product %6.1f GB/s, plain C %6.1f (ratio of times %.2f)",
           name, g / product, g / plain, product / plain);
    if (full == 0)
        printf("; limits: best loop %5.1f (the product has %.2f of it), memcmp "
               "%5.1f", g / loop, loop / product, g / cmp);
    printf("\n");
    b.marks[0] ^= 1;
    assert(product_read(&b) == CNFTL_NOT_ORDERLY);
    assert(c_read(&b) == CNFTL_NOT_ORDERLY);
    b.marks[0] ^= 1;
    b.chip[cnftl_chip_bytes(&p) - 1] ^= 1;
    assert(product_read(&b) == CNFTL_NOT_ORDERLY);
    assert(c_read(&b) == CNFTL_NOT_ORDERLY);
    free_board(&b);
}

int main(void)
{
    static const struct cnftl_params
        small = { 512, 4, 4, 2, 3, 16, 3 * 127, 62, RATED },
        large = { 512, 4, 4, 2, 248, 16, 248 * 127, 3971, RATED };

    state_check("1 MiB, erased", small, 0, 200);
    state_check("1 MiB, full", small, small.mu, 200);
    state_check("64 MiB, erased", large, 0, 2);
    state_check("64 MiB, half full", large, large.mu / 2, 2);
    state_check("64 MiB, full", large, large.mu, 2);
    return 0;
}
