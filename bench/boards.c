/* boards.c - see boards.h. */
#define _POSIX_C_SOURCE 200809L
#include "boards.h"

#include <stdio.h>
#include <stdlib.h>
#include <string.h>
#include <time.h>

double now(void)
{
    struct timespec t;

    clock_gettime(CLOCK_MONOTONIC, &t);
    return (double)t.tv_sec + 1e-9 * (double)t.tv_nsec;
}

/* Memory or the end of the run. */
static void *get_memory(size_t bytes)
{
    void *p = malloc(bytes);

    if (p == NULL) {
        fprintf(stderr, "bench: no memory for %lu bytes\n",
                (unsigned long)bytes);
        exit(2);
    }
    return p;
}

struct cnftl_board new_board(const struct cnftl_params *p)
{
    struct cnftl_board b = { .params = *p };

    b.chip = get_memory(cnftl_chip_bytes(p));
    b.ct = get_memory(cnftl_ct_entries(p) * sizeof *b.ct);
    b.bt = get_memory(cnftl_bt_entries(p) * sizeof *b.bt);
    b.fst = get_memory(cnftl_fst_entries(p) * sizeof *b.fst);
    b.bst = get_memory(cnftl_bst_entries(p));
    b.wear = get_memory(cnftl_wear_entries(p) * sizeof *b.wear);
    b.marks = get_memory(cnftl_marks_entries(p) * sizeof *b.marks);
    b.stamps = get_memory(cnftl_stamps_entries(p) * sizeof *b.stamps);
    memset(b.chip, 255, cnftl_chip_bytes(p));
    memset(b.wear, 0, cnftl_wear_entries(p) * sizeof *b.wear);
    return b;
}

void free_board(struct cnftl_board *b)
{
    free(b->chip);
    free(b->ct);
    free(b->bt);
    free(b->fst);
    free(b->bst);
    free(b->wear);
    free(b->marks);
    free(b->stamps);
}

/* Programs one frame of a formatted board for a virtual block. */
static void put_frame(const struct cnftl_board *b, uint32_t block,
                      uint32_t frame, uint32_t cluster, uint32_t stamp,
                      uint32_t virtual_block)
{
    const struct cnftl_params *p = &b->params;
    size_t at = block * cnftl_pages_per_block(p) + (size_t)frame * p->alpha;

    for (uint32_t place = 0; place < p->alpha; place++) {
        uint8_t *page = b->chip + (at + place) * cnftl_page_bytes(p);
        uint8_t *spare = page + p->s;

        memset(page, (int)(cluster & 255), p->s);
        for (int i = 0; i < 4; i++) {
            spare[i] = (uint8_t)(cluster >> 8 * i);
            spare[7 + i] = (uint8_t)(stamp >> 8 * i);
        }
        spare[4] = (uint8_t)place;
        spare[6] = 0;
        spare[11] = (uint8_t)virtual_block;
    }
}

/* Marks a frame of a BT entry as valid. */
static void put_mark(const struct cnftl_board *b, uint32_t entry,
                     uint32_t frame)
{
    b->marks[CNFTL_MARK_WORDS * (size_t)entry + frame / 64]
        |= UINT64_C(1) << frame % 64;
}

void fill_region(const struct cnftl_board *b, uint32_t region,
                 uint32_t last)
{
    const struct cnftl_params *p = &b->params;
    uint32_t frames = p->beta * p->d, all = (p->gamma - 1) * frames + last;
    uint32_t clusters = (p->c - region - 1) / p->mu + 1;

    for (uint32_t i = 0; i < all; i++) {
        uint32_t block = region * p->gamma + i / frames;
        uint32_t cluster = region + p->mu * (i % clusters);

        put_frame(b, block, i % frames, cluster, i + 1, i / frames);
        b->ct[cluster] = (uint16_t)(i / p->beta);
        b->bt[block] = (uint16_t)block;
        b->bst[block] = CNFTL_BLOCK_USED;
        if (i + clusters >= all)
            put_mark(b, block, i % frames);
    }
    b->fst[region] = (uint16_t)((all - 1) / p->beta);
    b->stamps[region] = all;
}
