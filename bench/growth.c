/*
 * growth.c - what a read of one sector takes as the chip grows from 64 KiB to
 * 1 GiB: on an empty board, where the check reads every byte of the chip; on a
 * full one, where it reads the spare bytes; and the fastest loop that we know
 * over the same bytes as on the empty one.  A line a size: bytes of chip, and
 * the three times in microseconds, each the best of many.
 */
#undef NDEBUG
#include "all_ones.h"
#include "boards.h"

#include <assert.h>
#include <stdio.h>

static uint8_t sector[512];

static bool read_one(const struct cnftl_board *b)
{
    return cnftl_board_read(b, 0, 1, sector, b->params.s) == CNFTL_ACCEPTED;
}

static bool pass_over(const struct cnftl_board *b)
{
    const struct cnftl_params *p = &b->params;
    size_t w = cnftl_chip_bytes(p) / p->n;
    bool erased = true;

    for (size_t i = 0; i < p->n; i++)
        erased &= all_ones(b->chip + i * w, w);
    return erased;
}

/* The best time of one call, in microseconds: at least five calls, and a fifth
   of a second of them. */
static double best_of(bool (*call)(const struct cnftl_board *),
                      const struct cnftl_board *b)
{
    double best = 1e9, end = now() + 0.2;

    for (int i = 0; i < 5 || now() < end; i++) {
        double start = now(), t;

        assert(call(b));
        t = now() - start;
        if (t < best)
            best = t;
    }
    return 1e6 * best;
}

/* A board of at most this many bytes of chip, with blocks of 32 pages of 528
   bytes, of 128 pages where the chip is large, as many regions as fit, and
   clusters for seven eighths of their frames. */
static struct cnftl_params board_of(size_t bytes)
{
    struct cnftl_params p = { 512, 4, 4, 2, 1, 16, 1, 1, RATED };

    if (bytes > (size_t)128 << 20)
        p.d = 8;
    p.n = (uint32_t)(bytes / cnftl_chip_bytes(&p));
    while (p.gamma > 1 && p.n / p.gamma < 4)
        p.gamma /= 2;
    p.mu = (p.n - 1) / p.gamma;
    p.c = p.mu * (p.gamma * p.beta * p.d * 7 / 8);
    return p;
}

int main(void)
{
    for (size_t bytes = (size_t)64 << 10; bytes <= (size_t)1 << 30;
         bytes *= 2) {
        struct cnftl_params p = board_of(bytes);
        struct cnftl_board b = new_board(&p);
        double empty, limit;

        assert(cnftl_reply_of(cnftl_board_format(&b)) == CNFTL_ACCEPTED);
        empty = best_of(read_one, &b);
        limit = best_of(pass_over, &b);
        for (uint32_t r = 0; r < p.mu; r++)
            fill_region(&b, r, p.beta * p.d);
        printf("%zu\t%.1f\t%.1f\t%.1f\n", cnftl_chip_bytes(&p), empty,
               best_of(read_one, &b), limit);
        fflush(stdout);
        free_board(&b);
    }
    return 0;
}
