/*
 * count.c - makes a board and then so many calls of one sort on one side, so
 * that whoever counts the instructions of the run with and without the calls
 * has those of the calls.
 *
 *   count product|plain format|read|write|reclaim T|1 CALLS
 */
#undef NDEBUG
#include "boards.h"
#include "model_fast.h"

#include <assert.h>
#include <stdbool.h>
#include <stdlib.h>
#include <string.h>

static uint8_t data[512];

/* One call of a sort; writes go to the regions in turn. */
static uint64_t call(const struct cnftl_board *b, bool product, char sort,
                     uint32_t i)
{
    uint32_t lba = i % b->params.mu * b->params.alpha;
    size_t len = b->params.s;

    if (sort == 'f')
        return product ? cnftl_board_format(b) : fast_format(CNFTL_BOARD(b));
    if (sort == 'r')
        return product ? cnftl_board_read(b, lba, 1, data, len)
                       : fast_read(CNFTL_BOARD(b), lba, 1, data, len);
    return product ? cnftl_board_write(b, lba, 1, data, len)
                   : fast_write(CNFTL_BOARD(b), lba, 1, data, len);
}

int main(int argc, char **argv)
{
    static const struct cnftl_params
        t = { 16, 2, 1, 2, 2, 2, 6, 5, RATED },
        one = { 512, 4, 4, 2, 3, 16, 336, 62, RATED };
    const struct cnftl_params *p;
    struct cnftl_board b;
    char sort;

    assert(argc == 5);
    p = argv[3][0] == 'T' ? &t : &one;
    b = new_board(p);
    sort = strcmp(argv[2], "reclaim") == 0 ? 'c' : argv[2][0];
    assert(cnftl_reply_of(fast_format(CNFTL_BOARD(&b))) == CNFTL_ACCEPTED);
    for (uint32_t r = 0; r < p->mu; r++)
        fill_region(&b, r, sort == 'c' ? p->beta * p->d : 1);
    for (uint32_t i = 0; i < (uint32_t)atoi(argv[4]); i++) {
        uint64_t a = call(&b, strcmp(argv[1], "product") == 0, sort, i);

        assert(cnftl_reply_of(a) == CNFTL_ACCEPTED);
        assert(cnftl_erases_of(a) == (sort == 'c') || sort == 'f');
    }
    free_board(&b);
    return 0;
}
