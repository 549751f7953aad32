/*
 * queue.c - compares the queue of write requests as the layer itself has it,
 * a list of structs, with the model.
 *
 * C lends no such list, so the archive of crate queue_test makes one of two
 * requests.  Each pair of writes goes to a copy of one board on both sides;
 * then the answers with their third counts, which C gets nowhere else, and
 * every byte of chip and tables, and past their ends, must be equal.
 *
 *   queue PAIRS SEED [MUTANT]    compare
 *   queue --mutants              list the model's mutants of the third count
 *
 * Exit status: 0 all agree, 1 a difference or something never seen, 2 wrong
 * use, 3 a difference while a mutant is on.
 */
#include "model.h"

#include <assert.h>
#include <inttypes.h>
#include <stdbool.h>
#include <stdio.h>
#include <stdlib.h>
#include <string.h>

/* Two writes as one queue: returns the queue's own answer, and puts those of
   the writes, and then their third counts, into a list of four places or
   more. */
uint64_t cnftl_queue_two(uint32_t s, uint32_t alpha, uint32_t beta, uint32_t d,
                         uint32_t mu, uint32_t gamma, uint32_t c, uint32_t n,
                         uint32_t e,
                         uint8_t *chip, size_t chip_len,
                         uint16_t *ct, size_t ct_len,
                         uint16_t *bt, size_t bt_len,
                         uint16_t *fst, size_t fst_len,
                         uint8_t *bst, size_t bst_len,
                         uint32_t *wear, size_t wear_len,
                         uint64_t *marks, size_t marks_len,
                         uint32_t *stamps, size_t stamps_len,
                         uint32_t lba, uint32_t count, uint32_t first,
                         uint32_t lba2, uint32_t count2, uint32_t first2,
                         const uint8_t *data, size_t data_len,
                         uint64_t *answers, size_t answers_len);

enum { CHIP, CT, BT, FST, BST, WEAR, MARKS, STAMPS, TABLES };
enum { ROOM = 1 << 16, REPLIES = 11, PLACES = 6, FILLED = 4, MOST_DATA = 200 };

static const size_t width[TABLES] = { 1, 2, 2, 2, 1, 4, 8, 4 };
/* Both sides' chip and tables: the product's, and the model's. */
static uint64_t lent[2][TABLES][ROOM / 8];
static uint8_t data[MOST_DATA];
static struct cnftl_params p;
static size_t len[TABLES];
static uint64_t own_seen[REPLIES], seen[REPLIES], reclaims;
/* Writes that looked at two or more spare areas; that looked and reclaimed. */
static uint64_t long_looks, reclaim_looks;

static uint64_t rnd_state;

/* A random number below n, which is not 0 (splitmix64). */
static uint32_t below(uint32_t n)
{
    uint64_t z = rnd_state += UINT64_C(0x9e3779b97f4a7c15);

    z = (z ^ z >> 30) * UINT64_C(0xbf58476d1ce4e5b9);
    z = (z ^ z >> 27) * UINT64_C(0x94d049bb133111eb);
    return (uint32_t)((z >> 33) % n);
}

#define LENT(i)                                                                \
    p.s, p.alpha, p.beta, p.d, p.mu, p.gamma, p.c, p.n, p.e,                   \
    (uint8_t *)lent[i][CHIP], len[CHIP], (uint16_t *)lent[i][CT], len[CT],     \
    (uint16_t *)lent[i][BT], len[BT], (uint16_t *)lent[i][FST], len[FST],      \
    (uint8_t *)lent[i][BST], len[BST], (uint32_t *)lent[i][WEAR], len[WEAR],   \
    lent[i][MARKS], len[MARKS], (uint32_t *)lent[i][STAMPS], len[STAMPS]

/* A new board of some small size, formatted, and the same on both sides.  A
   region has a few stamps left only, at times, or all blocks few erases. */
static void new_board(void)
{
    static const uint32_t few[] = { 2, 3, 5 };
    uint32_t e = below(3) == 0 ? few[below(3)] : 1000000;

    p = (struct cnftl_params){ 16 + below(3), 1 + below(3), 1 + below(3),
                               1 + below(3), 1 + below(3), 2 + below(2), 0, 0,
                               e };
    p.c = p.mu * (1 + below(p.gamma * p.beta * p.d - 1));
    p.n = p.mu * p.gamma + 1 + below(3);
    len[CHIP] = cnftl_chip_bytes(&p);
    len[CT] = cnftl_ct_entries(&p);
    len[BT] = cnftl_bt_entries(&p);
    len[FST] = cnftl_fst_entries(&p);
    len[BST] = cnftl_bst_entries(&p);
    len[WEAR] = cnftl_wear_entries(&p);
    len[MARKS] = cnftl_marks_entries(&p);
    len[STAMPS] = cnftl_stamps_entries(&p);
    assert(len[CHIP] <= ROOM);
    memset(lent[1], 255, sizeof lent[1]);
    memset(lent[1][WEAR], 0, sizeof lent[1][WEAR]);
    assert(cnftl_reply_of(model_format(LENT(1))) == CNFTL_ACCEPTED);
    for (uint32_t r = 0; r < p.mu; r++)
        if (below(6) == 0)
            ((uint32_t *)lent[1][STAMPS])[r] = UINT32_MAX - below(40);
    memcpy(lent[0], lent[1], sizeof lent[0]);
}

/* Changes one byte of chip or tables, on both sides. */
static void disorder(void)
{
    uint32_t i = below(TABLES);
    size_t at = below((uint32_t)(len[i] * width[i]));
    uint8_t to = (uint8_t)below(256);

    ((uint8_t *)lent[0][i])[at] = ((uint8_t *)lent[1][i])[at] = to;
}

/* A request for the data's bytes from `first` on: a right one, or now and then
   one whose LBA, count or bytes are not. */
static void choose(uint32_t *request)
{
    request[0] = below(cnftl_sectors(&p) + (below(20) == 0));
    request[1] = 1 + below(p.alpha - request[0] % p.alpha + (below(20) == 0));
    request[2] = below(below(20) == 0 ? MOST_DATA : MOST_DATA - 3 * p.s);
    if (below(100) == 0)
        request[below(3)] = UINT32_MAX - below(3);
}

/* Makes a list as lent into the one that the model's queue leaves: the two
   answers and their third counts in front of four places or more. */
static void put_answers(uint64_t *list, size_t places,
                        const uint64_t *answers)
{
    if (places < FILLED)
        return;
    for (int i = 0; i < 2; i++) {
        list[i] = answers[i];
        list[2 + i] = model_item_looks[i];
    }
}

/* Counts what was seen of two writes. */
static void count_writes(const uint64_t *list)
{
    for (int i = 0; i < 2; i++) {
        bool reclaimed = cnftl_erases_of(list[i]) == 1;

        seen[cnftl_reply_of(list[i]) % REPLIES]++;
        reclaims += reclaimed;
        long_looks += list[2 + i] >= 2;
        reclaim_looks += reclaimed && list[2 + i] >= 1;
    }
}

/* One pair of writes on both sides. */
static void compare(uint64_t pair)
{
    uint32_t r[6], wrong = below(200);
    uint64_t by_product[PLACES], by_model[PLACES], answers[2] = { 0, 0 }, own;
    size_t data_len = below(20) == 0 ? below(MOST_DATA) : MOST_DATA;
    size_t places = below(10) == 0 ? below(FILLED)
                                   : FILLED + below(PLACES - FILLED + 1);
    struct cnftl_params right = p;
    size_t right_len[TABLES];
    bool same;

    memcpy(right_len, len, sizeof len);
    choose(r);
    choose(r + 3);
    for (int i = 0; i < MOST_DATA; i++)
        data[i] = (uint8_t)below(256);
    if (wrong == 0)
        p.alpha = 17 * below(2);
    if (wrong == 1)
        len[below(TABLES)]--;
    memset(by_product, 170, sizeof by_product);
    memset(by_model, 170, sizeof by_model);
    own = cnftl_queue_two(LENT(0), r[0], r[1], r[2], r[3], r[4], r[5],
                          data, data_len, by_product, places);
    same = own == model_queue(LENT(1), r, 6, data, data_len, answers, 2);
    put_answers(by_model, places, answers);
    if (!same || memcmp(by_product, by_model, sizeof by_model) != 0
        || memcmp(lent[0], lent[1], sizeof lent[0]) != 0) {
        printf("queue: difference at pair %" PRIu64 "\n", pair);
        exit(model_mutant == MODEL_RIGHT ? 1 : 3);
    }
    own_seen[cnftl_reply_of(own) % REPLIES]++;
    if (places >= FILLED && cnftl_reply_of(own) == CNFTL_ACCEPTED)
        count_writes(by_product);
    p = right;
    memcpy(len, right_len, sizeof len);
}

/* The model's mutants of T-08, one a line: number, tab, name. */
static int list_mutants(void)
{
    for (int i = 1; i < MODEL_MUTANT_COUNT; i++)
        if (strncmp(MODEL_MUTANTS[i], "looks: ", 7) == 0)
            printf("%d\t%s\n", i, MODEL_MUTANTS[i]);
    return 0;
}

int main(int argc, char **argv)
{
    uint64_t pairs, boards = 0;

    if (argc == 2 && strcmp(argv[1], "--mutants") == 0)
        return list_mutants();
    if (argc == 4)
        model_mutant = (int)strtoul(argv[3], NULL, 10);
    if (argc < 3 || argc > 4 || model_mutant >= MODEL_MUTANT_COUNT) {
        fprintf(stderr, "use: queue PAIRS SEED [MUTANT]\n"
                        "     queue --mutants\n");
        return 2;
    }
    pairs = strtoull(argv[1], NULL, 10);
    rnd_state = strtoull(argv[2], NULL, 10);
    for (uint64_t i = 0; i < pairs; i++) {
        if (i == 0 || below(60) == 0) {
            new_board();
            boards++;
        } else if (below(60) == 0) {
            disorder();
        }
        compare(i);
    }
    printf("queue: %" PRIu64 " pairs from seed %s on %" PRIu64 " boards, %"
           PRIu64 " reclaims\n", pairs, argv[2], boards, reclaims);
    for (int i = 0; i < REPLIES; i++)
        printf("  reply %d: %" PRIu64 " queues, %" PRIu64 " writes\n", i,
               own_seen[i], seen[i]);
    printf("  %" PRIu64 " writes looked at two spare areas or more, %" PRIu64
           " at one or more and reclaimed\n", long_looks, reclaim_looks);
    return !(own_seen[0] && own_seen[1] && own_seen[2] && seen[0] && seen[3]
             && seen[4] && seen[5] && seen[7] && seen[9] && seen[10]
             && reclaims && long_looks && reclaim_looks);
}
