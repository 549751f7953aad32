/*
 * sizes.c - what fewer clusters buy on the small board of the README: pages
 * programmed and blocks erased for each write, counted from the answers, and
 * how many writes the board takes until one is refused with 10 for want of a
 * block.
 *
 *   sizes [WRITES]
 *
 * For each C the board is formatted and filled; then single sectors are written
 * at random, every sector as likely as another, in queues of 1,000.  For its
 * life the same is done on a board whose blocks are rated for 1,000 erases.
 * The counts are of the layer and not of the machine, so they are the same
 * under an emulator.  The random numbers are always the same.
 */
#include "image.h"

#include <stdio.h>
#include <stdlib.h>
#include <string.h>

enum { BATCH = 1000, SECTOR = 512, MOST_WRITES = 10000000 };
enum { RATED = 1000000, FEW = 1000 };

static struct cnftl_request requests[BATCH];
static uint64_t answers[BATCH];
static uint8_t data[4 * SECTOR];
static uint64_t state = 1;

/* A number below n. */
static uint32_t below(uint32_t n)
{
    state = state * 6364136223846793005u + 1442695040888963407u;
    return (uint32_t)((state >> 33) % n);
}

/* The README's small board with c clusters and e rated erases, all ones and
   never erased. */
static struct cnftl_board new_board(uint32_t c, uint32_t e)
{
    const struct cnftl_params p = { .s = SECTOR, .alpha = 4, .beta = 4, .d = 4,
                                    .mu = 4, .gamma = 4, .c = c, .n = 20,
                                    .e = e };
    struct cnftl_board b;
    struct image_result made = image_new_board(&b, &p);

    if (made.fault != IMAGE_FINE) {
        fprintf(stderr, "sizes: %s\n", made.message);
        exit(1);
    }
    memset(b.chip, 255, cnftl_chip_bytes(&p));
    memset(b.wear, 0, cnftl_wear_entries(&p) * sizeof *b.wear);
    return b;
}

/* Ends the program unless a call was accepted. */
static uint64_t accepted(uint64_t answer)
{
    if (cnftl_reply_of(answer) != CNFTL_ACCEPTED) {
        fprintf(stderr, "sizes: refused with reply %u\n",
                (unsigned)cnftl_reply_of(answer));
        exit(1);
    }
    return answer;
}

/* Writes every cluster once. */
static void fill(const struct cnftl_board *b)
{
    for (uint32_t c = 0; c < b->params.c; c++)
        accepted(cnftl_board_write(b, 4 * c, 4, data, sizeof data));
}

/* A batch of writes of one sector. */
static void write_batch(const struct cnftl_board *b)
{
    for (int i = 0; i < BATCH; i++)
        requests[i] = (struct cnftl_request){
            below(cnftl_sectors(&b->params)), 1, 0 };
    accepted(cnftl_board_queue(b, requests, BATCH, data, SECTOR, answers));
}

/* Adds up what the writes of a batch report. */
static void add_up(uint64_t *programs, uint64_t *erases)
{
    for (int i = 0; i < BATCH; i++) {
        *programs += cnftl_programs_of(accepted(answers[i]));
        *erases += cnftl_erases_of(answers[i]);
    }
}

/* How many writes are accepted before the first that is refused with 10.  The
   random numbers of the table go on as if it had taken none. */
static uint64_t life(uint32_t c)
{
    struct cnftl_board b = new_board(c, FEW);
    uint64_t writes = 0, before = state;
    int i;

    accepted(cnftl_board_format(&b));
    fill(&b);
    do {
        write_batch(&b);
        for (i = 0; i < BATCH; i++, writes++)
            if (cnftl_reply_of(answers[i]) == CNFTL_NO_BLOCK_LEFT)
                break;
    } while (i == BATCH);
    image_free_board(&b);
    state = before;
    return writes;
}

/* One line of the table. */
static void measure(uint32_t c, uint64_t writes)
{
    struct cnftl_board b = new_board(c, RATED);
    uint64_t programs = 0, erases = 0;

    accepted(cnftl_board_format(&b));
    fill(&b);
    for (uint64_t done = 0; done < writes; done += BATCH) {
        write_batch(&b);
        add_up(&programs, &erases);
    }
    printf("%5lu  %16lu  %12lu  %17.1f  %18.2f  %14lu\n", (unsigned long)c,
           (unsigned long)(cnftl_sectors(&b.params) * SECTOR),
           (unsigned long)cnftl_writes_per_erase(&b.params, 0),
           (double)programs / (double)writes, (double)erases / (double)writes,
           (unsigned long)life(c));
    image_free_board(&b);
}

int main(int argc, char **argv)
{
    static const uint32_t clusters[] = { 252, 240, 224, 192, 160, 128 };
    uint64_t writes = argc > 1 ? strtoull(argv[1], NULL, 10) : 20 * BATCH;

    if (writes == 0 || writes % BATCH != 0 || writes > MOST_WRITES) {
        fprintf(stderr, "use: sizes [WRITES], a multiple of 1,000\n");
        return 2;
    }
    printf("    C  bytes of sectors  writes/erase  pages for a write  "
           "erases for a write  life, E 1,000\n");
    for (size_t i = 0; i < sizeof clusters / sizeof clusters[0]; i++)
        measure(clusters[i], writes);
    return 0;
}
