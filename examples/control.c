/*
 * control.c - the bench's control program in miniature.
 *
 *   control IMAGE
 *   control --help
 *
 * IMAGE is a file with a whole board in it (docs/IMAGE.md).  If there is no
 * such file, a new board is formatted.  If its tables are missing or do not fit
 * the chip, as after a power loss, the board is started from its chip alone.
 * Two stations share the board, and each keeps a ledger of its own serials:
 * ledger 0 in the sectors of region 0 and ledger 1 in those of region 1.  What
 * goes into one changes no answer about the other.  The program lists both,
 * enters a few new serials in each, every one in a sector of its own, reads
 * them back, and writes the image.
 *
 * Exit status: 0 done, 1 wrong use, 2 the file cannot be read or written, or
 * there is no memory for it, 3 the file is no board image of this version,
 * 4 the image is too short or too long, 5 the layer refused a call, 6 a serial
 * did not read back, 7 the board has one region only, 8 no block is left for a
 * serial, while all that were entered before still read.
 */
#include "image.h"

#include <stdarg.h>
#include <stdio.h>
#include <stdlib.h>
#include <string.h>

/* The exit statuses. */
enum {
    DONE = 0, WRONG_USE = 1, NO_ACCESS = 2, NO_BOARD = 3, WRONG_SIZE = 4,
    REFUSED = 5, NOT_READ_BACK = 6, ONE_REGION = 7, WORN_OUT = 8
};
enum { LEDGERS = 2, NEW_SERIALS = 3, RECORD_BYTES = 15 };

/* The board that is made where there is none. */
static const struct cnftl_params bench = {
    .s = 32, .alpha = 2, .beta = 2, .d = 2,
    .mu = LEDGERS, .gamma = 3, .c = 20, .n = 10, .e = 1000000
};

/* What the calls of this run came to. */
struct counts {
    unsigned long programs, erases;
};

/* Says what is wrong and ends with a status. */
static _Noreturn void fail(int status, const char *format, ...)
{
    va_list args;

    va_start(args, format);
    fprintf(stderr, "control: ");
    vfprintf(stderr, format, args);
    fprintf(stderr, "\n");
    va_end(args);
    exit(status);
}

/* Ends the program unless the call was accepted; adds up its counts. */
static void check(const char *call, uint64_t answer, struct counts *counts)
{
    uint32_t reply = cnftl_reply_of(answer);

    if (reply != CNFTL_ACCEPTED)
        fail(REFUSED, "%s was refused with reply %lu: %s", call,
             (unsigned long)reply, cnftl_reply_text(reply));
    counts->programs += cnftl_programs_of(answer);
    counts->erases += cnftl_erases_of(answer);
}

/* ==== The board ======================================================== */

/* Ends the program, with the status of its fault, unless an image is fine. */
static void check_image(const char *path, const struct image_result *r)
{
    int status = NO_ACCESS;

    if (r->fault == IMAGE_FINE)
        return;
    if (r->fault == IMAGE_NO_BOARD)
        status = NO_BOARD;
    if (r->fault == IMAGE_WRONG_SIZE)
        status = WRONG_SIZE;
    fail(status, "%s: %s", path, r->message);
}

/* Writes the board to its file. */
static void save(const char *path, const struct cnftl_board *b)
{
    struct image_result r = image_save(b, path);

    check_image(path, &r);
}

/* A new board of the bench, formatted and saved. */
static struct cnftl_board format_new(const char *path, struct counts *counts)
{
    struct cnftl_board b;
    struct image_result r = image_new_board(&b, &bench);

    check_image(path, &r);
    memset(b.chip, 255, cnftl_chip_bytes(&bench));
    memset(b.wear, 0, cnftl_wear_entries(&bench) * sizeof *b.wear);
    check("format", cnftl_board_format(&b), counts);
    save(path, &b);
    printf("%s: a new board, %lu blocks erased\n", path, counts->erases);
    return b;
}

/* How many of the 16-bit entries of a table are not none. */
static unsigned long entries_in(const uint16_t *table, size_t entries)
{
    unsigned long count = 0;

    for (size_t i = 0; i < entries; i++)
        count += table[i] != CNFTL_NONE;
    return count;
}

/* How many blocks are in this state. */
static unsigned long blocks_in(const struct cnftl_board *b, uint8_t state)
{
    unsigned long count = 0;

    for (size_t i = 0; i < cnftl_bst_entries(&b->params); i++)
        count += b->bst[i] == state;
    return count;
}

/* Starts a board from its chip, and says what was found there. */
static void start_board(const char *path, const char *why,
                        const struct cnftl_board *b, struct counts *counts)
{
    unsigned long swept = counts->erases;

    check("start", cnftl_board_start(b), counts);
    swept = counts->erases - swept;
    printf("%s: %s, so it was started from its chip\n", path, why);
    printf("  %lu blocks in use, %lu free, %lu bad or worn; "
           "%lu left over and erased\n",
           blocks_in(b, CNFTL_BLOCK_USED), blocks_in(b, CNFTL_BLOCK_FREE),
           blocks_in(b, CNFTL_BLOCK_RESERVED), swept);
    printf("  %lu of %lu clusters found\n",
           entries_in(b->ct, cnftl_ct_entries(&b->params)),
           (unsigned long)b->params.c);
}

/* The same of a board whose tables do not fit.  A cluster that had no entry in
   CT and has one now was released, or its entry was lost. */
static void start_misfit(const char *path, const struct cnftl_board *b,
                         struct counts *counts)
{
    size_t entries = cnftl_ct_entries(&b->params);
    unsigned long back = entries;
    uint16_t *before = malloc(entries * sizeof *before);

    if (before == NULL)
        fail(NO_ACCESS, "%s: no memory for its clusters", path);
    memcpy(before, b->ct, entries * sizeof *before);
    start_board(path, "its tables do not fit the chip", b, counts);
    for (size_t i = 0; i < entries; i++)
        back -= before[i] != CNFTL_NONE || b->ct[i] == CNFTL_NONE;
    printf("  %lu of them had been released, or had lost their entry\n", back);
    free(before);
}

/* Whether the layer takes chip and tables for an orderly board. */
static int is_orderly(const struct cnftl_board *b)
{
    uint32_t list[CNFTL_WHY_ENTRIES];

    return cnftl_reply_of(cnftl_board_why(b, 0, list)) == CNFTL_ACCEPTED;
}

/* The board in the file, or a new one if there is no file. */
static struct cnftl_board open_board(const char *path, struct counts *counts)
{
    struct cnftl_board b;
    struct image_result r = image_load(&b, path);

    if (r.fault == IMAGE_NO_FILE)
        return format_new(path, counts);
    if (r.fault != IMAGE_NO_TABLES)
        check_image(path, &r);
    if (b.params.mu < LEDGERS)
        fail(ONE_REGION, "%s: the board has one region, for %d ledgers", path,
             LEDGERS);
    if (r.fault == IMAGE_NO_TABLES)
        start_board(path, r.message, &b, counts);
    else if (!is_orderly(&b))
        start_misfit(path, &b, counts);
    return b;
}

/* ==== The serials ====================================================== */

/* A record is "SERIAL " and eight digits; the rest of the sector is 255. */
static void make_record(uint8_t *sector, uint32_t s, unsigned long serial)
{
    char text[32];

    snprintf(text, sizeof text, "SERIAL %08lu", serial % 100000000);
    memset(sector, 255, s);
    memcpy(sector, text, RECORD_BYTES);
}

/* The serial in a sector, or 0 if it holds none. */
static unsigned long serial_in(const uint8_t *sector)
{
    char digits[9] = { 0 };

    if (memcmp(sector, "SERIAL ", 7) != 0)
        return 0;
    memcpy(digits, sector + 7, 8);
    return strtoul(digits, NULL, 10);
}

/* Whether a sector is empty: one that was not written reads as 255. */
static int is_empty(const uint8_t *sector, uint32_t s)
{
    for (uint32_t i = 0; i < s; i++)
        if (sector[i] != 255)
            return 0;
    return 1;
}

/* ==== The ledgers ====================================================== */

/* What a walk over the sectors of a region found. */
struct ledger {
    uint32_t region;      /* the number of the region and of the ledger */
    uint32_t records;     /* sectors with a serial */
    uint32_t next;        /* the place after the last sector written */
    unsigned long newest; /* the largest serial, or the number before any */
};

/* Prints one line about a sector of a ledger and the serial in it. */
static void tell(uint32_t region, uint32_t lba, unsigned long serial,
                 const char *done)
{
    printf("ledger %lu, sector %lu: serial %lu%s\n", (unsigned long)region,
           (unsigned long)lba, serial, done);
}

/* Reads every sector of a region; prints the serials if asked. */
static struct ledger walk(const struct cnftl_board *b, uint32_t region,
                          int print, struct counts *counts)
{
    struct ledger l = { region, 0, 0, 1000ul * (region + 1) };
    uint32_t s = b->params.s;
    uint8_t sector[512];

    for (uint32_t i = 0; i < cnftl_region_sectors(&b->params, region); i++) {
        uint32_t lba = cnftl_region_lba(&b->params, region, i);
        unsigned long serial;

        check("read", cnftl_board_read(b, lba, 1, sector, s), counts);
        if (is_empty(sector, s))
            continue;
        l.next = i + 1;
        serial = serial_in(sector);
        if (serial == 0)
            continue;
        l.records++;
        if (serial > l.newest)
            l.newest = serial;
        if (print)
            tell(region, lba, serial, "");
    }
    return l;
}

/* Enters a serial in a sector and reads it back; 0 if no block is left for
   it. */
static int enter(const struct cnftl_board *b, uint32_t lba,
                 unsigned long serial, struct counts *counts)
{
    uint32_t s = b->params.s;
    uint8_t record[512], back[512];
    uint64_t a;

    make_record(record, s, serial);
    a = cnftl_board_write(b, lba, 1, record, s);
    if (cnftl_reply_of(a) == CNFTL_NO_BLOCK_LEFT)
        return 0;
    check("write", a, counts);
    check("read", cnftl_board_read(b, lba, 1, back, s), counts);
    if (memcmp(record, back, s) != 0)
        fail(NOT_READ_BACK, "sector %lu does not read back",
             (unsigned long)lba);
    return 1;
}

/* Enters the next serials of a ledger, as far as it has sectors and the board
   has blocks for them, and says how many they were. */
static uint32_t enter_some(const struct cnftl_board *b, const struct ledger *l,
                           struct counts *counts, int *worn_out)
{
    uint32_t sectors = cnftl_region_sectors(&b->params, l->region), i = 0;

    while (i < NEW_SERIALS && l->next + i < sectors) {
        uint32_t lba = cnftl_region_lba(&b->params, l->region, l->next + i);

        if (!enter(b, lba, l->newest + i + 1, counts)) {
            printf("ledger %lu: the board is worn out: %s (reply %d)\n",
                   (unsigned long)l->region,
                   cnftl_reply_text(CNFTL_NO_BLOCK_LEFT), CNFTL_NO_BLOCK_LEFT);
            *worn_out = 1;
            return i;
        }
        i++;
        tell(l->region, lba, l->newest + i, " entered");
    }
    if (i < NEW_SERIALS)
        printf("ledger %lu is full\n", (unsigned long)l->region);
    return i;
}

/* Lists both ledgers, enters serials in each, and counts what is there then.
   Whether the board had no block left for one. */
static int run(const struct cnftl_board *b, struct counts *counts)
{
    struct ledger before[LEDGERS];
    uint32_t entered[LEDGERS];
    int worn_out = 0;

    for (uint32_t region = 0; region < LEDGERS; region++)
        before[region] = walk(b, region, 1, counts);
    for (uint32_t region = 0; region < LEDGERS; region++)
        entered[region] = enter_some(b, &before[region], counts, &worn_out);
    for (uint32_t region = 0; region < LEDGERS; region++)
        printf("ledger %lu: %lu serials found, %lu entered, %lu now\n",
               (unsigned long)region, (unsigned long)before[region].records,
               (unsigned long)entered[region],
               (unsigned long)walk(b, region, 0, counts).records);
    return worn_out;
}

/* Opens the board, works on its ledgers, and saves it. */
int main(int argc, char **argv)
{
    struct counts counts = { 0, 0 };
    struct cnftl_board b;
    int worn_out;

    if (argc != 2)
        fail(WRONG_USE, "use: control IMAGE");
    if (strcmp(argv[1], "--help") == 0) {
        printf("use: control IMAGE\n"
               "Lists the two ledgers of serials on the board in the file, "
               "and enters %d in each.\n", NEW_SERIALS);
        return DONE;
    }
    b = open_board(argv[1], &counts);
    worn_out = run(&b, &counts);
    save(argv[1], &b);
    printf("%lu pages programmed, %lu blocks erased\n", counts.programs,
           counts.erases);
    image_free_board(&b);
    return worn_out ? WORN_OUT : DONE;
}
