/*
 * header.c - Board T of document 01 through cnftl.h, as C99 and as C++ (see
 * header.cc): the printed session and the marked cases that a call can show;
 * the calls with a budget, cut after each of their operations;
 * and what follows from the parameters alone: sizes, the sectors of each
 * region, and the writes per erase, with the figures of the README.
 */
#undef NDEBUG
#include "cnftl.h"

#include <assert.h>
#include <stdio.h>
#include <string.h>

/* One line of the printed session; a why tells its looks beforehand. */
struct line {
    char kind;
    uint32_t lba, count;
    uint8_t value;
    uint32_t reply, programs, erases, looks;
};

static const struct line session[] = {
    { 'W', 0, 2, 17, 0, 2, 0, 0 },
    { 'W', 4, 2, 18, 0, 2, 0, 0 },
    { 'W', 2, 1, 19, 0, 2, 0, 0 },
    { 'W', 8, 1, 20, 0, 2, 0, 0 },
    { 'W', 0, 1, 21, 0, 2, 0, 1 },
    { 'W', 5, 1, 22, 0, 4, 1, 1 },
    { 'W', 0, 2, 23, 0, 4, 1, 1 },
    { 'R', 4, 2, 0, 0, 0, 0, 1 },
    { 'R', 3, 1, 0, 0, 0, 0, 1 },
    { 'W', 12, 1, 5, 4, 0, 0, 0 },
    { 'R', 1, 2, 0, 3, 0, 0, 0 }
};

/* Room for Board T, and one CT entry more for case (d). */
static uint8_t chip[640], bst[5], data[32];
static uint16_t ct[7], bt[4], fst[2];
static uint32_t wear[5];
static uint64_t marks[16];
static uint32_t stamps[2];

enum { RATED = 1000000 }; /* the rated erases of a block of each board */

static struct cnftl_board board = {
    { 16, 2, 1, 2, 2, 2, 6, 5, RATED }, chip, ct, bt, fst, bst, wear, marks,
    stamps
};

/* Whether an answer has this reply and these counts. */
static int is(uint64_t answer, uint32_t reply, uint32_t programs,
              uint32_t erases)
{
    return cnftl_reply_of(answer) == reply
        && cnftl_programs_of(answer) == programs
        && cnftl_erases_of(answer) == erases;
}

/* A new Board T, not yet formatted; its marks and stamps are anything. */
static void new_board(void)
{
    memset(chip, 255, sizeof chip);
    memset(wear, 0, sizeof wear);
    memset(marks, 85, sizeof marks);
    memset(stamps, 85, sizeof stamps);
    board.params.beta = 1;
    board.params.d = 2;
    board.params.c = 6;
    board.params.n = 5;
    board.params.e = RATED;
}

/* Whether a why of this sector is accepted and tells so many looks. */
static int looks_are(uint32_t lba, uint32_t looks)
{
    uint32_t list[CNFTL_WHY_ENTRIES];

    return is(cnftl_board_why(&board, lba, list), CNFTL_ACCEPTED, 0, 0)
        && list[CNFTL_WHY_LOOKS] == looks;
}

/* Makes one line's call and checks its answer and, if it is accepted, that its
   looks were told. */
static void run_line(const struct line *l)
{
    size_t len = (size_t)l->count * 16;

    if (l->reply == CNFTL_ACCEPTED)
        assert(looks_are(l->lba, l->looks));
    memset(data, l->value, sizeof data);
    if (l->kind == 'W')
        assert(is(cnftl_board_write(&board, l->lba, l->count, data, len),
                  l->reply, l->programs, l->erases));
    else
        assert(is(cnftl_board_read(&board, l->lba, l->count, data, len),
                  l->reply, l->programs, l->erases));
}

/* Whether 16 bytes of data from a sector on are all this byte. */
static int sector_is(int sector, uint8_t value)
{
    for (int i = 0; i < 16; i++)
        if (data[sector * 16 + i] != value)
            return 0;
    return 1;
}

/* Whether the first words of the four virtual blocks are these, and all other
   words 0. */
static int marks_are(uint64_t r0v0, uint64_t r0v1, uint64_t r1v0,
                     uint64_t r1v1)
{
    const uint64_t first[4] = { r0v0, r0v1, r1v0, r1v1 };

    for (int i = 0; i < 16; i++)
        if (marks[i] != (i % 4 == 0 ? first[i / 4] : 0))
            return 0;
    return 1;
}

/* Whether the spare bytes of both pages of a frame are those of a cluster, with
   this stamp and virtual block. */
static int frame_is(int block, int frame, uint8_t cluster, uint8_t stamp,
                    uint8_t virtual_block)
{
    for (int place = 0; place < 2; place++) {
        const uint8_t right[CNFTL_SPARE_BYTES] = {
            cluster, 0, 0, 0, (uint8_t)place, 255, 0, stamp, 0, 0, 0,
            virtual_block, 255, 255, 255, 255
        };

        if (memcmp(chip + block * 128 + (frame * 2 + place) * 32 + 16, right,
                   sizeof right) != 0)
            return 0;
    }
    return 1;
}

/* The session, its two reads, the marked cases (a) to (c), and a stamp for each
   accepted write, which a copy keeps. */
static void check_session(void)
{
    new_board();
    assert(is(cnftl_board_format(&board), CNFTL_ACCEPTED, 0, 5));
    assert(marks_are(0, 0, 0, 0) && stamps[0] == 0 && stamps[1] == 0);
    for (size_t i = 0; i < sizeof session / sizeof session[0]; i++) {
        run_line(&session[i]);
        if (i == 4)
            assert(marks_are(2, 3, 1, 0));
        if (i == 5)
            assert(bt[0] == 3 && bst[0] == CNFTL_BLOCK_FREE
                   && frame_is(3, 0, 2, 2, 0) && frame_is(3, 1, 2, 5, 0));
        if (i == 6)
            assert(bt[0] == 4 && bst[3] == CNFTL_BLOCK_FREE
                   && frame_is(4, 0, 2, 5, 0) && frame_is(4, 1, 0, 6, 0));
        if (i == 7)
            assert(sector_is(0, 0x12) && sector_is(1, 0x16));
        if (i == 8)
            assert(sector_is(0, 0xff));
    }
    assert(ct[0] == 1 && ct[2] == 0 && ct[4] == 2);
    assert(marks_are(3, 1, 1, 0));
    assert(stamps[0] == 6 && stamps[1] == 1 && frame_is(1, 0, 1, 1, 0)
           && frame_is(2, 0, 4, 3, 1) && frame_is(2, 1, 0, 4, 1));
}

/* The marked cases (d) to (i); (f) with the mark on each page, of which the
   first two count. */
static void check_cases(void)
{
    new_board();
    board.params.c = 7;
    assert(is(cnftl_board_format(&board), CNFTL_BAD_PARAMETER, 0, 0));
    assert(!cnftl_params_allowed(&board.params));
    new_board();
    board.params.n = 4;
    assert(is(cnftl_board_format(&board), CNFTL_TOO_FEW_BLOCKS, 0, 0));
    for (int page = 0; page < 4; page++) {
        new_board();
        chip[2 * 128 + page * 32 + 16 + 5] = 0;
        if (page < 2)
            assert(is(cnftl_board_format(&board), CNFTL_TOO_FEW_BLOCKS, 0, 0));
        else
            assert(is(cnftl_board_format(&board), CNFTL_ACCEPTED, 0, 5));
    }
    new_board();
    assert(is(cnftl_board_format(&board), CNFTL_ACCEPTED, 0, 5));
    assert(is(cnftl_board_write(&board, 11, 1, data, 16), CNFTL_ACCEPTED,
              2, 0));
    assert(is(cnftl_board_write(&board, 13, 2, data, 32), CNFTL_BAD_COUNT,
              0, 0));
    assert(is(cnftl_board_write(&board, 0, 0, data, 0), CNFTL_BAD_COUNT,
              0, 0));
}

/* The rated erases: 1 to 1,000,000, and reply 1 from every call for others. */
static void check_rated(void)
{
    static const uint32_t refused[] = { 0, 1000001, 1048576, UINT32_MAX };
    static const struct cnftl_request request = { 0, 1, 0 };
    uint32_t list[CNFTL_WHY_ENTRIES];
    uint64_t answer;

    new_board();
    assert(is(cnftl_board_format(&board), CNFTL_ACCEPTED, 0, 5));
    for (size_t i = 0; i < sizeof refused / sizeof refused[0]; i++) {
        board.params.e = refused[i];
        assert(!cnftl_params_allowed(&board.params));
        assert(is(cnftl_board_format(&board), CNFTL_BAD_PARAMETER, 0, 0));
        assert(is(cnftl_board_start(&board), CNFTL_BAD_PARAMETER, 0, 0));
        assert(is(cnftl_board_read(&board, 0, 1, data, 16),
                  CNFTL_BAD_PARAMETER, 0, 0));
        assert(is(cnftl_board_write(&board, 0, 1, data, 16),
                  CNFTL_BAD_PARAMETER, 0, 0));
        assert(is(cnftl_board_queue(&board, &request, 1, data, 16, &answer),
                  CNFTL_BAD_PARAMETER, 0, 0));
        assert(is(cnftl_board_release(&board, 0), CNFTL_BAD_PARAMETER, 0, 0));
        assert(is(cnftl_board_why(&board, 0, list), CNFTL_BAD_PARAMETER, 0,
                  0));
    }
    for (uint32_t e = 1; e <= RATED; e += RATED - 1) {
        board.params.e = e;
        assert(cnftl_params_allowed(&board.params));
        assert(is(cnftl_board_read(&board, 0, 1, data, 16), CNFTL_ACCEPTED, 0,
                  0));
    }
}

/* A release: the cluster reads as 255, and the others as before. */
static void check_release(void)
{
    new_board();
    assert(is(cnftl_board_format(&board), CNFTL_ACCEPTED, 0, 5));
    memset(data, 7, sizeof data);
    assert(is(cnftl_board_write(&board, 4, 2, data, 32), CNFTL_ACCEPTED,
              2, 0));
    assert(is(cnftl_board_write(&board, 6, 1, data, 16), CNFTL_ACCEPTED,
              2, 0));
    assert(is(cnftl_board_release(&board, 2), CNFTL_ACCEPTED, 0, 0));
    assert(is(cnftl_board_release(&board, 2), CNFTL_ACCEPTED, 0, 0));
    assert(ct[2] == CNFTL_NONE);
    assert(is(cnftl_board_read(&board, 4, 2, data, 32), CNFTL_ACCEPTED,
              0, 0));
    assert(sector_is(0, 255) && sector_is(1, 255));
    assert(is(cnftl_board_read(&board, 6, 1, data, 16), CNFTL_ACCEPTED,
              0, 0));
    assert(sector_is(0, 7));
    assert(is(cnftl_board_release(&board, 6), CNFTL_BAD_ADDRESS, 0, 0));
    fst[0] = 1;
    assert(is(cnftl_board_release(&board, 6), CNFTL_BAD_ADDRESS, 0, 0));
    assert(is(cnftl_board_release(&board, 5), CNFTL_NOT_ORDERLY, 0, 0));
}

/* The items of the queues below, over 32 bytes of data: the first and the last
   are good, and between them each is refused for a reason of its own. */
static const struct cnftl_request requests[5] = {
    { 0, 2, 0 }, { 1, 2, 0 }, { 12, 1, 0 }, { 4, 1, 17 }, { 4, 1, 16 }
};

/* A queue: each item as a single write in its turn, the replies that the call
   itself has, and a queue of no items. */
static void check_queue(void)
{
    uint64_t answers[6] = { 9, 9, 9, 9, 9, 9 };

    new_board();
    assert(is(cnftl_board_format(&board), CNFTL_ACCEPTED, 0, 5));
    memset(data, 17, 16);
    memset(data + 16, 18, 16);
    assert(is(cnftl_board_queue(&board, requests, 5, data, 32, answers),
              CNFTL_ACCEPTED, 0, 0));
    assert(is(answers[0], CNFTL_ACCEPTED, 2, 0));
    assert(is(answers[1], CNFTL_BAD_COUNT, 0, 0));
    assert(is(answers[2], CNFTL_BAD_ADDRESS, 0, 0));
    assert(is(answers[3], CNFTL_WRONG_DATA, 0, 0));
    assert(is(answers[4], CNFTL_ACCEPTED, 2, 0));
    assert(answers[5] == 9);
    assert(is(cnftl_board_read(&board, 4, 1, data, 16), CNFTL_ACCEPTED, 0, 0));
    assert(sector_is(0, 18));
    assert(is(cnftl_queue(CNFTL_BOARD(&board), &requests->lba, 15, data, 32,
                          answers + 5, 1), CNFTL_TOO_FEW_ANSWERS, 0, 0));
    assert(is(cnftl_queue(CNFTL_BOARD(&board), &requests->lba, 14, data, 32,
                          answers + 5, 1), CNFTL_WRONG_LENGTH, 0, 0));
    assert(answers[5] == 9);
    assert(is(cnftl_board_queue(&board, requests, 0, data, 0, answers + 5),
              CNFTL_ACCEPTED, 0, 0));
    assert(answers[5] == 9);
}

/* A queue on a board that is not orderly: the call itself answers 0, and each
   item has an answer, 7 unless it is refused before that. */
static void check_disordered_queue(void)
{
    static const uint32_t replies[5] = {
        CNFTL_NOT_ORDERLY, CNFTL_BAD_COUNT, CNFTL_BAD_ADDRESS,
        CNFTL_WRONG_DATA, CNFTL_NOT_ORDERLY
    };
    uint64_t answers[5] = { 9, 9, 9, 9, 9 };

    new_board();
    assert(is(cnftl_board_format(&board), CNFTL_ACCEPTED, 0, 5));
    fst[0] = 0;
    assert(is(cnftl_board_queue(&board, requests, 5, data, 32, answers),
              CNFTL_ACCEPTED, 0, 0));
    for (int i = 0; i < 5; i++)
        assert(is(answers[i], replies[i], 0, 0));
}

/* Why, on the way of a region of Board T through all that a write can do: it
   opens, continues and reclaims; then reply 4, and 7 with its rule. */
static void check_why(void)
{
    static const uint32_t never[CNFTL_WHY_ENTRIES] = {
        0, 0, 0, 0, 0, 0, 0, 0, CNFTL_WRITE_OPENS, 0, 0, 0, 0
    };
    static const uint32_t once[CNFTL_WHY_ENTRIES] = {
        0, 0, 1, 1, 0, 0, 0, 0, CNFTL_WRITE_CONTINUES, 0, 1, 0, 1
    };
    static const uint32_t full[CNFTL_WHY_ENTRIES] = {
        0, 0, 1, 1, 3, 1, 1, 1, CNFTL_WRITE_RECLAIMS, 0, 0, 0, 1
    };
    static const uint32_t broken[CNFTL_WHY_ENTRIES] = {
        CNFTL_NOT_ORDERLY, CNFTL_RULE_FST, 0, 0, 0, 0, 0, 0, 0, 0, 0, 0, 0
    };
    uint32_t list[CNFTL_WHY_ENTRIES];

    new_board();
    assert(is(cnftl_board_format(&board), CNFTL_ACCEPTED, 0, 5));
    assert(is(cnftl_board_why(&board, 3, list), CNFTL_ACCEPTED, 0, 0));
    assert(memcmp(list, never, sizeof list) == 0);
    assert(is(cnftl_board_write(&board, 3, 1, data, 16), CNFTL_ACCEPTED,
              2, 0));
    assert(is(cnftl_board_why(&board, 3, list), CNFTL_ACCEPTED, 0, 0));
    assert(memcmp(list, once, sizeof list) == 0);
    for (int i = 0; i < 3; i++)
        assert(is(cnftl_board_write(&board, 3, 1, data, 16), CNFTL_ACCEPTED,
                  2, 0));
    assert(is(cnftl_board_why(&board, 3, list), CNFTL_ACCEPTED, 0, 0));
    assert(memcmp(list, full, sizeof list) == 0);
    assert(is(cnftl_board_why(&board, 12, list), CNFTL_BAD_ADDRESS, 0, 0));
    assert(memcmp(list, full, sizeof list) == 0);
    fst[1] = CNFTL_NONE;
    assert(is(cnftl_board_why(&board, 3, list), CNFTL_NOT_ORDERLY, 0, 0));
    assert(memcmp(list, broken, sizeof list) == 0);
}

/* A list of another length is reply 2, after 1 and before 4, and stays as it
   was. */
static void check_list_length(void)
{
    uint32_t list[CNFTL_WHY_ENTRIES + 1] = { 9 }, before[CNFTL_WHY_ENTRIES + 1];

    memcpy(before, list, sizeof list);
    new_board();
    assert(is(cnftl_board_format(&board), CNFTL_ACCEPTED, 0, 5));
    for (size_t len = 0; len <= CNFTL_WHY_ENTRIES + 1; len++)
        if (len != CNFTL_WHY_ENTRIES)
            assert(is(cnftl_why(CNFTL_BOARD(&board), 12, list, len),
                      CNFTL_WRONG_LENGTH, 0, 0));
    board.params.c = 7;
    assert(is(cnftl_why(CNFTL_BOARD(&board), 12, list, 0),
              CNFTL_BAD_PARAMETER, 0, 0));
    assert(memcmp(list, before, sizeof list) == 0);
}

/* The looks, on Board T with both frames of a block in one segment: none before
   a write and after a release, else from the last programmed frame down. */
static void check_looks(void)
{
    new_board();
    board.params.beta = 2;
    board.params.d = 1;
    assert(is(cnftl_board_format(&board), CNFTL_ACCEPTED, 0, 5));
    assert(looks_are(0, 0));
    assert(is(cnftl_board_write(&board, 0, 2, data, 32), CNFTL_ACCEPTED,
              2, 0));
    assert(looks_are(0, 1) && looks_are(1, 1) && looks_are(4, 0));
    assert(is(cnftl_board_write(&board, 4, 1, data, 16), CNFTL_ACCEPTED,
              2, 0));
    assert(looks_are(0, 2) && looks_are(4, 1) && looks_are(2, 0));
    assert(is(cnftl_board_release(&board, 2), CNFTL_ACCEPTED, 0, 0));
    assert(looks_are(0, 2) && looks_are(4, 0));
    assert(is(cnftl_board_write(&board, 0, 1, data, 16), CNFTL_ACCEPTED,
              2, 0));
    assert(looks_are(0, 1));
}

/* The marks: a write sets one and clears one, a release clears one, and a call
   on a wrong one is refused with 7 and rule 10. */
static void check_marks(void)
{
    uint32_t list[CNFTL_WHY_ENTRIES];

    new_board();
    assert(is(cnftl_board_format(&board), CNFTL_ACCEPTED, 0, 5));
    assert(is(cnftl_board_write(&board, 3, 1, data, 16), CNFTL_ACCEPTED,
              2, 0));
    assert(marks_are(0, 0, 1, 0));
    assert(is(cnftl_board_write(&board, 2, 1, data, 16), CNFTL_ACCEPTED,
              2, 0));
    assert(marks_are(0, 0, 2, 0));
    assert(is(cnftl_board_write(&board, 6, 1, data, 16), CNFTL_ACCEPTED,
              2, 0));
    assert(marks_are(0, 0, 2, 1));
    assert(is(cnftl_board_release(&board, 1), CNFTL_ACCEPTED, 0, 0));
    assert(marks_are(0, 0, 0, 1));
    for (int i = 0; i < 16; i++) {
        marks[i] ^= 1;
        assert(is(cnftl_board_read(&board, 6, 1, data, 16),
                  CNFTL_NOT_ORDERLY, 0, 0));
        assert(is(cnftl_board_write(&board, 6, 1, data, 16),
                  CNFTL_NOT_ORDERLY, 0, 0));
        assert(is(cnftl_board_release(&board, 3), CNFTL_NOT_ORDERLY, 0, 0));
        assert(is(cnftl_board_why(&board, 6, list), CNFTL_NOT_ORDERLY, 0, 0));
        assert(list[CNFTL_WHY_RULE] == CNFTL_RULE_MARKS);
        marks[i] ^= 1;
    }
    assert(marks_are(0, 0, 0, 1));
    assert(is(cnftl_board_release(&board, 3), CNFTL_ACCEPTED, 0, 0));
}

/* The last stamp of a region, and then none left: reply 9 for a write and an
   item of a queue, the same number in the forecast of a why with nothing behind
   it, and no other call refused. */
static void check_stamps(void)
{
    static const struct cnftl_request items[3] = {
        { 0, 1, 0 }, { 2, 1, 0 }, { 4, 1, 1 }
    };
    static const uint32_t told[CNFTL_WHY_ENTRIES] = {
        0, 0, 1, 0, 0, 0, 0, 0, CNFTL_NO_STAMP_LEFT, 0, 0, 0, 1
    };
    uint32_t list[CNFTL_WHY_ENTRIES];
    uint64_t answers[3];

    new_board();
    assert(is(cnftl_board_format(&board), CNFTL_ACCEPTED, 0, 5));
    stamps[0] = 4294967294u;
    assert(is(cnftl_board_write(&board, 0, 1, data, 16), CNFTL_ACCEPTED, 2, 0));
    assert(stamps[0] == 4294967295u && stamps[1] == 0);
    assert(is(cnftl_board_write(&board, 4, 1, data, 16), CNFTL_NO_STAMP_LEFT,
              0, 0));
    assert(is(cnftl_board_queue(&board, items, 3, data, 16, answers),
              CNFTL_ACCEPTED, 0, 0));
    assert(is(answers[0], CNFTL_NO_STAMP_LEFT, 0, 0));
    assert(is(answers[1], CNFTL_ACCEPTED, 2, 0));
    assert(is(answers[2], CNFTL_WRONG_DATA, 0, 0));
    assert(is(cnftl_board_why(&board, 1, list), CNFTL_ACCEPTED, 0, 0));
    assert(memcmp(list, told, sizeof list) == 0);
    assert(is(cnftl_board_read(&board, 0, 1, data, 16), CNFTL_ACCEPTED, 0, 0));
    assert(is(cnftl_board_release(&board, 0), CNFTL_ACCEPTED, 0, 0));
    assert(stamps[0] == 4294967295u && stamps[1] == 1);
    fst[0] = CNFTL_NONE;
    assert(is(cnftl_board_write(&board, 0, 1, data, 16), CNFTL_NOT_ORDERLY,
              0, 0));
    assert(is(cnftl_board_format(&board), CNFTL_ACCEPTED, 0, 5));
    assert(stamps[0] == 0 && stamps[1] == 0);
}

/* Whether every call that needs an orderly board is refused, and a why tells
   this rule. */
static int breaks(uint32_t rule)
{
    uint32_t list[CNFTL_WHY_ENTRIES];

    return is(cnftl_board_read(&board, 0, 1, data, 16), CNFTL_NOT_ORDERLY, 0, 0)
        && is(cnftl_board_write(&board, 0, 1, data, 16), CNFTL_NOT_ORDERLY,
              0, 0)
        && is(cnftl_board_release(&board, 0), CNFTL_NOT_ORDERLY, 0, 0)
        && is(cnftl_board_why(&board, 0, list), CNFTL_NOT_ORDERLY, 0, 0)
        && list[CNFTL_WHY_RULE] == rule;
}

/* The spare bytes from 7 on: each of them wrong breaks rule 7 on either page of
   a frame, but for the stamp of a whole frame, which may be any up to the
   region's last one; a larger one breaks rule 11, of a begun frame too. */
static void check_spares(void)
{
    uint8_t *first = chip + 16, *second = first + 32;

    new_board();
    assert(is(cnftl_board_format(&board), CNFTL_ACCEPTED, 0, 5));
    assert(is(cnftl_board_write(&board, 0, 1, data, 16), CNFTL_ACCEPTED, 2, 0));
    for (int i = 7; i < 16; i++) {
        first[i] ^= 1;
        assert(breaks(CNFTL_RULE_USED_BLOCK));
        first[i] ^= 1;
        second[i] ^= 1;
        assert(breaks(CNFTL_RULE_USED_BLOCK));
        second[i] ^= 1;
    }
    first[7] = second[7] = 0;
    assert(looks_are(0, 1));
    first[7] = second[7] = 2;
    assert(breaks(CNFTL_RULE_STAMPS));
    marks[0] = 0;
    assert(breaks(CNFTL_RULE_MARKS));
    ct[0] = CNFTL_NONE;
    memset(second - 16, 255, 32);
    assert(breaks(CNFTL_RULE_STAMPS));
    stamps[0] = 2;
    assert(is(cnftl_board_write(&board, 0, 1, data, 16), CNFTL_ACCEPTED, 2, 0));
    assert(frame_is(0, 1, 0, 3, 0));
}

/* The replies that the cases above do not give, through the long calls. */
static void check_replies(void)
{
    new_board();
    assert(is(cnftl_format(16, 2, 1, 2, 2, 2, 6, 5, RATED, chip, 639, ct, 6,
                           bt, 4, fst, 2, bst, 5, wear, 5, marks, 16,
                           stamps, 2),
              CNFTL_WRONG_LENGTH, 0, 0));
    assert(is(cnftl_format(16, 2, 1, 2, 2, 2, 6, 5, RATED, chip, 640, ct, 6,
                           bt, 4, fst, 2, bst, 5, wear, 5, marks, 15,
                           stamps, 2),
              CNFTL_WRONG_LENGTH, 0, 0));
    assert(is(cnftl_format(16, 2, 1, 2, 2, 2, 6, 5, RATED, chip, 640, ct, 6,
                           bt, 4, fst, 2, bst, 5, wear, 5, marks, 16,
                           stamps, 1),
              CNFTL_WRONG_LENGTH, 0, 0));
    assert(is(cnftl_format(16, 2, 1, 2, 2, 2, 6, 5, RATED, chip, 640, ct, 6,
                           bt, 4, fst, 2, bst, 5, wear, 5, marks, 16,
                           stamps, 2),
              CNFTL_ACCEPTED, 0, 5));
    assert(is(cnftl_write(16, 2, 1, 2, 2, 2, 6, 5, RATED, chip, 640, ct, 6,
                          bt, 4, fst, 2, bst, 5, wear, 5, marks, 16, stamps, 2,
                          0, 1, data, 17),
              CNFTL_WRONG_DATA, 0, 0));
    bst[0] = 3;
    assert(is(cnftl_read(16, 2, 1, 2, 2, 2, 6, 5, RATED, chip, 640, ct, 6,
                         bt, 4, fst, 2, bst, 5, wear, 5, marks, 16, stamps, 2,
                         0, 1, data, 16),
              CNFTL_NOT_ORDERLY, 0, 0));
}

/* Board T after the fifth write. */
static void five_writes(void)
{
    new_board();
    assert(is(cnftl_board_format(&board), CNFTL_ACCEPTED, 0, 5));
    for (int i = 0; i < 5; i++)
        run_line(&session[i]);
}

/* The same with its tables lost and wear 1 throughout. */
static void lose_tables(void)
{
    five_writes();
    memset(ct, 255, sizeof ct);
    memset(bt, 255, sizeof bt);
    memset(fst, 255, sizeof fst);
    memset(bst, 255, sizeof bst);
    memset(marks, 255, sizeof marks);
    memset(stamps, 255, sizeof stamps);
}

/* Whether a start has found what there is after the fifth write. */
static int is_found(void)
{
    static const uint16_t found_ct[6] = {
        3, 0, 1, CNFTL_NONE, 2, CNFTL_NONE
    };
    static const uint16_t found_bt[4] = { 0, 2, 1, CNFTL_NONE };
    static const uint8_t found_bst[5] = { 1, 1, 1, 0, 0 };

    return memcmp(ct, found_ct, sizeof found_ct) == 0
        && memcmp(bt, found_bt, sizeof found_bt) == 0
        && fst[0] == 1 && fst[1] == 0
        && memcmp(bst, found_bst, sizeof found_bst) == 0
        && marks_are(2, 3, 1, 0) && stamps[0] == 4 && stamps[1] == 1;
}

/* A start: from the chip alone; again, which changes nothing; with a block left
   over, which is erased; with the bytes of a page wrong, which is refused and
   changes nothing; and its other replies. */
static void check_start(void)
{
    static uint8_t before[640];

    lose_tables();
    assert(is(cnftl_board_release(&board, 0), CNFTL_NOT_ORDERLY, 0, 0));
    memcpy(before, chip, sizeof chip);
    assert(is(cnftl_board_start(&board), CNFTL_ACCEPTED, 0, 0) && is_found());
    assert(memcmp(before, chip, sizeof chip) == 0);
    assert(is(cnftl_board_start(&board), CNFTL_ACCEPTED, 0, 0) && is_found());
    assert(is(cnftl_board_read(&board, 0, 2, data, 32), CNFTL_ACCEPTED, 0, 0)
           && sector_is(0, 21) && sector_is(1, 17));

    memcpy(chip + 3 * 128, chip, 64);
    assert(is(cnftl_board_start(&board), CNFTL_ACCEPTED, 0, 1) && is_found());
    assert(memcmp(before, chip, sizeof chip) == 0 && wear[3] == 2);

    assert(is(cnftl_board_release(&board, 0), CNFTL_ACCEPTED, 0, 0));
    assert(ct[0] == CNFTL_NONE);
    assert(is(cnftl_board_start(&board), CNFTL_ACCEPTED, 0, 0) && is_found());

    lose_tables();
    chip[27] = 1;
    memcpy(before, chip, sizeof chip);
    assert(is(cnftl_board_start(&board), CNFTL_NOT_ORDERLY, 0, 0));
    assert(memcmp(before, chip, sizeof chip) == 0 && bst[0] == 255
           && ct[0] == CNFTL_NONE && stamps[0] == UINT32_MAX);
    chip[21] = 0;
    assert(is(cnftl_board_start(&board), CNFTL_ACCEPTED, 0, 0)
           && bst[0] == CNFTL_BLOCK_RESERVED);
    board.params.gamma = 17;
    assert(is(cnftl_board_start(&board), CNFTL_BAD_PARAMETER, 0, 0));
    board.params.gamma = 2;
}

/* Whether a call was cut: all ones in all tables but the wear. */
static int lost(void)
{
    const struct {
        const void *table;
        size_t bytes;
    } tables[6] = {
        { ct, 12 }, { bt, sizeof bt }, { fst, sizeof fst },
        { bst, sizeof bst }, { marks, sizeof marks }, { stamps, sizeof stamps }
    };

    for (int i = 0; i < 6; i++)
        for (size_t j = 0; j < tables[i].bytes; j++)
            if (((const uint8_t *)tables[i].table)[j] != 255)
                return 0;
    return cnftl_board_is_cut(&board)
        && is(cnftl_board_read(&board, 0, 1, data, 16), CNFTL_NOT_ORDERLY,
              0, 0);
}

/* The sixth write, cut after each of its operations, and the start after it:
   two pages of a copy, the erase of block 0, and two pages of the new frame.
   With the last of them sector 5 is the new one; the copy that stands beside
   block 0 is erased.  A budget of six is not spent. */
static void check_cut_write(void)
{
    for (uint32_t budget = 0; budget <= 6; budget++) {
        uint64_t a;

        five_writes();
        memset(data, 22, sizeof data);
        a = cnftl_board_write_cut(&board, 5, 1, data, 16, budget);
        if (budget == 6) {
            assert(is(a, CNFTL_ACCEPTED, 4, 1) && !cnftl_board_is_cut(&board));
            assert(bt[0] == 3 && frame_is(3, 1, 2, 5, 0));
            continue;
        }
        assert(is(a, CNFTL_ACCEPTED, 0, 0) && lost());
        assert(wear[0] == (budget < 3 ? 1u : 2u) && wear[3] == 1);
        assert(is(cnftl_board_start(&board), CNFTL_ACCEPTED, 0,
                  budget == 1 || budget == 2));
        assert(wear[3] == (budget == 1 || budget == 2 ? 2u : 1u));
        assert(is(cnftl_board_read(&board, 4, 2, data, 32), CNFTL_ACCEPTED,
                  0, 0));
        assert(sector_is(0, 18) && sector_is(1, budget < 5 ? 18 : 22));
        assert(is(cnftl_board_read(&board, 0, 2, data, 32), CNFTL_ACCEPTED,
                  0, 0));
        assert(sector_is(0, 21) && sector_is(1, 17));
    }
}

/* A queue of four operations, cut after each: the first item and the refused
   ones behind it have their answers once a third is made, and the last item
   with a budget that is not spent.  On a board that is not orderly budget 0
   cuts it too, and no other. */
static void check_cut_queue(void)
{
    for (uint32_t budget = 0; budget <= 5; budget++) {
        uint64_t answers[5];

        new_board();
        assert(is(cnftl_board_format(&board), CNFTL_ACCEPTED, 0, 5));
        memset(data, 17, sizeof data);
        memset(answers, 255, sizeof answers);
        assert(is(cnftl_board_queue_cut(&board, requests, 5, data, 32, answers,
                                        budget), CNFTL_ACCEPTED, 0, 0));
        assert(cnftl_board_is_cut(&board) == (budget < 5));
        for (int i = 0; i < 5; i++)
            assert((answers[i] == UINT64_MAX) == (budget < (i < 4 ? 3u : 5u)));
        if (budget < 5)
            assert(lost() && is(cnftl_board_start(&board), CNFTL_ACCEPTED,
                                0, 0));
        assert(is(cnftl_board_read(&board, 0, 1, data, 16), CNFTL_ACCEPTED,
                  0, 0));
        assert(sector_is(0, budget < 2 ? 255 : 17));
        fst[0] = 5;
        assert(is(cnftl_board_queue_cut(&board, requests, 1, data, 32, answers,
                                        budget), CNFTL_ACCEPTED, 0, 0));
        assert(budget == 0 ? lost()
               : fst[0] == 5 && answers[0] == CNFTL_NOT_ORDERLY);
    }
}

/* A format, cut after each of its five erases, and the format after it. */
static void check_cut_format(void)
{
    for (uint32_t budget = 0; budget <= 6; budget++) {
        uint64_t a;

        five_writes();
        a = cnftl_board_format_cut(&board, budget);
        assert(is(a, CNFTL_ACCEPTED, 0, budget == 6 ? 5 : 0));
        assert(budget == 6 ? marks_are(0, 0, 0, 0) : lost());
        for (uint32_t i = 0; i < 5; i++) {
            assert(wear[i] == (i < budget ? 2u : 1u));
            assert((chip[i * 128] == 255) == (i < budget || i > 2));
        }
        assert(is(cnftl_board_format(&board), CNFTL_ACCEPTED, 0, 5));
        assert(is(cnftl_board_read(&board, 0, 1, data, 16), CNFTL_ACCEPTED,
                  0, 0));
        assert(sector_is(0, 255));
    }
}

/* A start with a block to erase, cut before and after that and then made again,
   and one with nothing to do, which budget 0 cuts too. */
static void check_cut_start(void)
{
    for (uint32_t budget = 0; budget <= 2; budget++) {
        lose_tables();
        memcpy(chip + 3 * 128, chip, 64);
        assert(is(cnftl_board_start_cut(&board, budget), CNFTL_ACCEPTED, 0,
                  budget == 2));
        assert(wear[3] == 1 + (budget > 0));
        assert(budget == 2 ? is_found() : lost());
        assert(is(cnftl_board_start(&board), CNFTL_ACCEPTED, 0, budget == 0));
        assert(is_found());
    }
    assert(is(cnftl_board_start_cut(&board, 1), CNFTL_ACCEPTED, 0, 0)
           && is_found());
    assert(is(cnftl_board_start_cut(&board, 0), CNFTL_ACCEPTED, 0, 0)
           && lost());
}

/* What is refused is refused with every budget, and keeps its tables. */
static void check_cut_refused(void)
{
    uint64_t answers[5];

    lose_tables();
    assert(is(cnftl_board_start(&board), CNFTL_ACCEPTED, 0, 0) && is_found());
    for (uint64_t budget = 0; budget <= 1; budget++) {
        assert(is(cnftl_board_write_cut(&board, 12, 1, data, 16, budget),
                  CNFTL_BAD_ADDRESS, 0, 0));
        assert(is(cnftl_queue_cut(CNFTL_BOARD(&board), &requests->lba, 15, data,
                                  32, answers, 4, budget),
                  CNFTL_TOO_FEW_ANSWERS, 0, 0));
        board.params.c = 7;
        assert(is(cnftl_board_format_cut(&board, budget), CNFTL_BAD_PARAMETER,
                  0, 0));
        board.params.c = 6;
        chip[27] = 1;
        assert(is(cnftl_board_start_cut(&board, budget), CNFTL_NOT_ORDERLY,
                  0, 0));
        chip[27] = 0;
    }
    assert(is_found());
}

/* Whether a block is erased but for the mark of a worn block, and reserved. */
static int is_worn(int block)
{
    const uint8_t *bytes = chip + block * 128;

    for (int i = 0; i < 128; i++)
        if (bytes[i] != (i == 21 ? 0 : 255))
            return 0;
    return bst[block] == CNFTL_BLOCK_RESERVED;
}

/* The wear: a format counts it up, and it stays at its largest number.  What it
   wears out by that counts among its erases and not among the blocks left. */
static void check_wear(void)
{
    new_board();
    wear[0] = RATED - 1;
    assert(is(cnftl_board_format(&board), CNFTL_TOO_FEW_BLOCKS, 0, 0));
    assert(wear[0] == RATED - 1 && wear[1] == 0);
    wear[0] = RATED - 2;
    assert(is(cnftl_board_format(&board), CNFTL_ACCEPTED, 0, 5));
    assert(wear[0] == RATED - 1 && bst[0] == CNFTL_BLOCK_FREE);
    new_board();
    board.params.e = 1;
    assert(is(cnftl_board_format(&board), CNFTL_TOO_FEW_BLOCKS, 0, 0));

    new_board();
    board.params.mu = 1;
    board.params.c = 3;
    wear[0] = 4294967294u;
    wear[1] = 4294967295u;
    assert(is(cnftl_board_format(&board), CNFTL_ACCEPTED, 0, 5));
    assert(wear[0] == 4294967295u && wear[1] == 4294967295u && wear[2] == 1);
    assert(is_worn(0) && is_worn(1) && bst[2] == CNFTL_BLOCK_FREE);
    board.params.mu = 2;
}

/* Writes sector 0 of Board T with blocks rated for two erases until a write is
   refused: each of the three reclaims wears its block out. */
static void wear_out(void)
{
    uint32_t erases = 0;
    uint64_t a;

    new_board();
    board.params.e = 2;
    assert(is(cnftl_board_format(&board), CNFTL_ACCEPTED, 0, 5));
    while (cnftl_reply_of(a = cnftl_board_write(&board, 0, 1, data, 16))
           == CNFTL_ACCEPTED) {
        assert(cnftl_programs_of(a) == 2);
        erases += cnftl_erases_of(a);
    }
    assert(is(a, CNFTL_NO_BLOCK_LEFT, 0, 0) && erases == 3);
}

/* Worn blocks: reply 10, after 9, for a write, an item and in the forecast of a
   why; reads, releases and starts go on, and a format would leave too few. */
static void check_worn(void)
{
    static const struct cnftl_request item = { 2, 1, 0 };
    uint32_t list[CNFTL_WHY_ENTRIES], last, worn = 0;
    uint64_t answer;

    wear_out();
    for (int i = 0; i < 5; i++)
        worn += is_worn(i) && wear[i] == 2;
    assert(worn == 3);
    assert(is(cnftl_board_queue(&board, &item, 1, data, 16, &answer),
              CNFTL_ACCEPTED, 0, 0) && is(answer, CNFTL_NO_BLOCK_LEFT, 0, 0));
    assert(is(cnftl_board_why(&board, 0, list), CNFTL_ACCEPTED, 0, 0));
    assert(list[CNFTL_WHY_HELD] == 1
           && list[CNFTL_WHY_WRITE] == CNFTL_NO_BLOCK_LEFT
           && list[CNFTL_WHY_TARGET] == 0 && list[CNFTL_WHY_TAKES] == 0
           && list[CNFTL_WHY_COPIES] == 0 && list[CNFTL_WHY_LOOKS] == 1);
    last = stamps[0];
    stamps[0] = UINT32_MAX;
    assert(is(cnftl_board_write(&board, 0, 1, data, 16), CNFTL_NO_STAMP_LEFT,
              0, 0));
    stamps[0] = last;
    assert(is(cnftl_board_format(&board), CNFTL_TOO_FEW_BLOCKS, 0, 0));
    assert(is(cnftl_board_start(&board), CNFTL_ACCEPTED, 0, 0));
    assert(is(cnftl_board_read(&board, 0, 1, data, 16), CNFTL_ACCEPTED, 0, 0));
    assert(is(cnftl_board_release(&board, 0), CNFTL_ACCEPTED, 0, 0));
    assert(is(cnftl_board_write_cut(&board, 0, 1, data, 16, 0),
              CNFTL_NO_BLOCK_LEFT, 0, 0) && !cnftl_board_is_cut(&board));
}

/* Clusters 0, 2, 4 and 0 of a Board T with blocks rated for two erases: block 0
   is full with one valid frame, and block 1 with two. */
static void four_writes(void)
{
    new_board();
    board.params.e = 2;
    assert(is(cnftl_board_format(&board), CNFTL_ACCEPTED, 0, 5));
    for (uint32_t i = 0; i < 4; i++)
        assert(is(cnftl_board_write(&board, 4 * (i % 3), 2, data, 32),
                  CNFTL_ACCEPTED, 2, 0));
    assert(bt[0] == 0 && bt[1] == 1);
}

/* A reclaim that wears block 0 out, cut from the end of its copies on; a start
   wears their block out in its place, finds block 0 free, or finds it worn. */
static void check_cut_worn(void)
{
    static const uint8_t states[] = {
        CNFTL_BLOCK_USED, CNFTL_BLOCK_FREE, CNFTL_BLOCK_RESERVED,
        CNFTL_BLOCK_RESERVED, CNFTL_BLOCK_RESERVED
    };

    for (uint32_t i = 0; i < 5; i++) {
        four_writes();
        assert(is(cnftl_board_write_cut(&board, 0, 2, data, 32, 2 + i),
                  CNFTL_ACCEPTED, 0, 0) && cnftl_board_is_cut(&board));
        assert(wear[0] == 1 + (i > 0));
        assert(is(cnftl_board_start(&board), CNFTL_ACCEPTED, 0, i == 0));
        assert(bst[0] == states[i] && is_worn(0) == (i > 1)
               && is_worn(2) == (i == 0));
        assert(is(cnftl_board_read(&board, 0, 2, data, 32), CNFTL_ACCEPTED, 0,
                  0));
    }
    four_writes();
    assert(is(cnftl_board_write_cut(&board, 0, 2, data, 32, 7),
              CNFTL_ACCEPTED, 4, 1) && is_worn(0));
}

/* The texts: one for each reply and each rule, and one for all numbers from the
   next on; no two alike. */
static void check_texts(void)
{
    for (uint32_t i = 0; i <= CNFTL_NO_BLOCK_LEFT + 1; i++)
        for (uint32_t j = 0; j <= i; j++)
            assert((strcmp(cnftl_reply_text(i), cnftl_reply_text(j)) == 0)
                   == (i == j));
    for (uint32_t i = 0; i <= CNFTL_RULE_STAMPS + 1; i++)
        for (uint32_t j = 0; j <= i; j++)
            assert((strcmp(cnftl_rule_text(i), cnftl_rule_text(j)) == 0)
                   == (i == j));
    assert(strcmp(cnftl_reply_text(CNFTL_ACCEPTED), "accepted") == 0);
    assert(strcmp(cnftl_reply_text(CNFTL_NOT_ORDERLY),
                  "the board is not orderly") == 0);
    assert(strcmp(cnftl_reply_text(11), "unknown reply") == 0);
    assert(strcmp(cnftl_reply_text(UINT32_MAX), "unknown reply") == 0);
    assert(strcmp(cnftl_rule_text(CNFTL_RULE_TWICE),
                  "BT names a block twice") == 0);
    assert(strcmp(cnftl_rule_text(12), "unknown rule") == 0);
    assert(strcmp(cnftl_rule_text(UINT32_MAX), "unknown rule") == 0);
}

/* The sizes of Board T. */
static void check_sizes(void)
{
    new_board();
    assert(cnftl_params_allowed(&board.params));
    assert(cnftl_pages_per_block(&board.params) == 4);
    assert(cnftl_page_bytes(&board.params) == 32);
    assert(cnftl_chip_bytes(&board.params) == 640);
    assert(cnftl_ct_entries(&board.params) == 6);
    assert(cnftl_bt_entries(&board.params) == 4);
    assert(cnftl_fst_entries(&board.params) == 2);
    assert(cnftl_bst_entries(&board.params) == 5);
    assert(cnftl_wear_entries(&board.params) == 5);
    assert(cnftl_marks_entries(&board.params) == 16);
    assert(cnftl_stamps_entries(&board.params) == 2);
    assert(cnftl_table_bytes(&board.params) == sizeof ct - sizeof ct[6]
           + sizeof bt + sizeof fst + sizeof bst + sizeof wear + sizeof marks
           + sizeof stamps);
    assert(cnftl_sectors(&board.params) == 12);
}

/* The sectors of all regions together: each sector of the board once, rising
   in its region, which is the one that it is said to be in. */
static void check_regions_of(const struct cnftl_params *p)
{
    static uint8_t seen[1048576];

    assert(cnftl_params_allowed(p) && cnftl_sectors(p) <= sizeof seen);
    memset(seen, 0, sizeof seen);
    for (uint32_t region = 0; region < p->mu; region++)
        for (uint32_t i = 0; i < cnftl_region_sectors(p, region); i++) {
            uint32_t lba = cnftl_region_lba(p, region, i);

            assert(lba < cnftl_sectors(p) && seen[lba] == 0);
            seen[lba] = 1;
            assert(i == 0 || cnftl_region_lba(p, region, i - 1) < lba);
            assert(cnftl_region_of(p, lba) == region);
        }
    for (uint32_t lba = 0; lba < cnftl_sectors(p); lba++)
        assert(seen[lba] == 1);
}

/* The sectors of the regions: on Board T, where one region has it all, where
   regions differ by a cluster, where some have none, on the README's small
   board, in document 01's case (j), and on a board of 1,048,576 sectors. */
static void check_regions(void)
{
    static const struct cnftl_params boards[] = {
        { 16, 2, 1, 2, 2, 2, 6, 5, RATED }, { 16, 3, 2, 2, 1, 3, 11, 4, RATED },
        { 16, 3, 1, 4, 3, 2, 10, 7, RATED }, { 16, 2, 1, 4, 5, 1, 3, 6, RATED },
        { 512, 4, 4, 4, 4, 4, 252, 20, RATED },
        { 16, 4, 1, 2, 512, 4, 1000, 2049, RATED },
        { 16, 1, 16, 16, 1024, 16, 1048576, 16385, RATED }
    };

    for (size_t i = 0; i < sizeof boards / sizeof boards[0]; i++)
        check_regions_of(&boards[i]);
    assert(cnftl_region_lba(&boards[0], 0, 2) == 4);
    assert(cnftl_region_lba(&boards[0], 1, 5) == 11);
    assert(cnftl_region_sectors(&boards[2], 0) == 12);
    assert(cnftl_region_sectors(&boards[2], 1) == 9);
    assert(cnftl_region_sectors(&boards[3], 2) == 2);
    assert(cnftl_region_sectors(&boards[3], 3) == 0);
    assert(cnftl_region_of(&boards[5], 2093) == 11);
}

/* The README's small board: the bytes of its tables, and its sizing table, with
   fewer and fewer clusters. */
static void check_figures(void)
{
    static const struct {
        uint32_t c, bytes, spare, figure;
    } rows[] = {
        { 252, 516096, 1, 1 }, { 240, 491520, 4, 1 }, { 224, 458752, 8, 2 },
        { 192, 393216, 16, 4 }, { 160, 327680, 24, 6 }, { 128, 262144, 32, 8 }
    };
    struct cnftl_params p = { 512, 4, 4, 4, 4, 4, 192, 20, RATED };

    assert(cnftl_table_bytes(&p) == 1052);
    for (size_t i = 0; i < sizeof rows / sizeof rows[0]; i++) {
        p.c = rows[i].c;
        assert(cnftl_params_allowed(&p));
        assert(cnftl_sectors(&p) * p.s == rows[i].bytes);
        assert(p.gamma * p.beta * p.d - p.c / p.mu == rows[i].spare);
        for (uint32_t region = 0; region < p.mu; region++)
            assert(cnftl_writes_per_erase(&p, region) == rows[i].figure);
    }
}

/* The figure where regions differ by a cluster, where some have none, and on
   the largest board. */
static void check_uneven_figures(void)
{
    static const struct cnftl_params uneven =
        { 16, 1, 1, 4, 3, 2, 10, 7, RATED };
    static const struct cnftl_params few = { 16, 1, 1, 4, 4, 1, 1, 5, RATED };
    static const struct cnftl_params large =
        { 16, 1, 16, 16, 1024, 16, 1048576, 16385, RATED };

    assert(cnftl_params_allowed(&uneven) && cnftl_params_allowed(&few)
           && cnftl_params_allowed(&large));
    assert(cnftl_writes_per_erase(&uneven, 0) == 2);
    assert(cnftl_writes_per_erase(&uneven, 1) == 3);
    assert(cnftl_writes_per_erase(&uneven, 2) == 3);
    assert(cnftl_writes_per_erase(&few, 0) == 3);
    assert(cnftl_writes_per_erase(&few, 1) == 4);
    assert(cnftl_writes_per_erase(&large, 0) == 192);
    assert(cnftl_writes_per_erase(&large, 1023) == 192);
    new_board();
    assert(cnftl_writes_per_erase(&board.params, 0) == 1);
    assert(cnftl_writes_per_erase(&board.params, 1) == 1);
}

/* All checks; an assert ends the program where one fails. */
int main(void)
{
    check_sizes();
    check_texts();
    check_regions();
    check_figures();
    check_uneven_figures();
    check_session();
    check_cases();
    check_rated();
    check_release();
    check_queue();
    check_disordered_queue();
    check_why();
    check_list_length();
    check_looks();
    check_marks();
    check_stamps();
    check_spares();
    check_start();
    check_cut_write();
    check_cut_queue();
    check_cut_format();
    check_cut_start();
    check_cut_refused();
    check_wear();
    check_worn();
    check_cut_worn();
    check_replies();
    printf("header: Board T answers as printed\n");
    return 0;
}
