/*
 * cnftl-why.c - why a sector reads so, and what a write of it would do.
 *
 *   cnftl-why IMAGE LBA
 *   cnftl-why --help
 *
 * IMAGE is a file with a whole board in it (docs/IMAGE.md), which is read and
 * not changed.  The answer of cnftl_why is printed in words, with a drawing of
 * the frames that it speaks of.  Of a board that is not orderly, or whose
 * tables are missing, it says what a start from the chip would make of the
 * sector.
 *
 * Exit status: 0 the answer was given, 1 the layer refused the question, since
 * the board has no such sector, 2 wrong use, or the file is missing, no board
 * image of this version, or cannot be read, 3 the board is not orderly, and the
 * first rule that it breaks was told.
 */
#include "image.h"

#include <stdarg.h>
#include <stdio.h>
#include <stdlib.h>
#include <string.h>

/* The exit statuses. */
enum { ANSWERED = 0, REFUSED = 1, NO_ANSWER = 2, NOT_ORDERLY = 3 };

/* What --help prints. */
static const char help[] =
    "use: cnftl-why IMAGE LBA\n"
    "Says why a sector reads as it does, and what a write of it would do.\n"
    "  IMAGE  a file with a whole board in it, which is not changed\n"
    "  LBA    the number of the sector, from 0 on\n"
    "Exit status: 0 answered, 1 the board has no such sector, 2 wrong use or\n"
    "no board image, 3 the board is not orderly.\n";

/* The frame that a drawing points at, where it points at none. */
#define NO_FRAME UINT32_MAX

/* Says what is wrong and ends with a status. */
static _Noreturn void fail(int status, const char *format, ...)
{
    va_list args;

    va_start(args, format);
    fprintf(stderr, "cnftl-why: ");
    vfprintf(stderr, format, args);
    fprintf(stderr, "\n");
    va_end(args);
    exit(status);
}

/* A decimal number of 32 bits, or the end of the program. */
static uint32_t number(const char *text)
{
    unsigned long long value;

    if (*text == '\0' || strspn(text, "0123456789") != strlen(text))
        fail(NO_ANSWER, "%s: not a sector number", text);
    value = strtoull(text, NULL, 10);
    if (value > UINT32_MAX)
        fail(NO_ANSWER, "%s: no sector number of 32 bits", text);
    return (uint32_t)value;
}

/* A plural ending. */
static const char *plural(uint32_t count)
{
    return count == 1 ? "" : "s";
}

/* ==== The drawing ====================================================== */

/* The spare bytes of a frame's first page. */
static const uint8_t *spare_of(const struct cnftl_board *b, uint32_t block,
                               uint32_t frame)
{
    const struct cnftl_params *p = &b->params;
    size_t page = block * cnftl_pages_per_block(p) + (size_t)frame * p->alpha;

    return b->chip + page * cnftl_page_bytes(p) + p->s;
}

/* Whether a frame of an orderly board is programmed, if only its first page. */
static int is_programmed(const struct cnftl_board *b, uint32_t block,
                         uint32_t frame)
{
    return spare_of(b, block, frame)[6] == 0;
}

/* Whether it is whole: its last page is programmed too. */
static int is_whole(const struct cnftl_board *b, uint32_t block,
                    uint32_t frame)
{
    const struct cnftl_params *p = &b->params;

    return spare_of(b, block, frame)[(p->alpha - 1) * cnftl_page_bytes(p) + 6]
        == 0;
}

/* The cluster in a programmed frame. */
static uint32_t cluster_in(const struct cnftl_board *b, uint32_t block,
                           uint32_t frame)
{
    const uint8_t *spare = spare_of(b, block, frame);

    return spare[0] | (uint32_t)spare[1] << 8 | (uint32_t)spare[2] << 16
         | (uint32_t)spare[3] << 24;
}

/* The letter of a frame: V valid, that is, CT names its segment and no later
   whole frame of the segment holds its cluster; S stale; B only begun; E
   erased. */
static char letter_of(const struct cnftl_board *b, uint32_t segment,
                      uint32_t block, uint32_t frame)
{
    uint32_t beta = b->params.beta, cluster;

    if (!is_programmed(b, block, frame))
        return 'E';
    if (!is_whole(b, block, frame))
        return 'B';
    cluster = cluster_in(b, block, frame);
    if (b->ct[cluster] != segment)
        return 'S';
    for (uint32_t later = frame + 1; later % beta != 0; later++)
        if (is_whole(b, block, later)
            && cluster_in(b, block, later) == cluster)
            return 'S';
    return 'V';
}

/* Draws one segment of a physical block, or of one yet to be taken, which is
   erased, and points at a frame of it. */
static void draw_segment(const struct cnftl_board *b, uint32_t segment,
                         uint32_t block, uint32_t pointed)
{
    uint32_t beta = b->params.beta;
    uint32_t first = segment % b->params.d * beta;

    printf("    segment %5lu  ", (unsigned long)segment);
    for (uint32_t frame = first; frame < first + beta; frame++)
        putchar(block == CNFTL_NONE ? 'E' : letter_of(b, segment, block,
                                                      frame));
    putchar('\n');
    if (pointed != NO_FRAME && pointed / beta == segment % b->params.d)
        printf("                   %*s\n", (int)(pointed % beta) + 1, "^");
}

/* Draws all segments of a virtual block. */
static void draw_block(const struct cnftl_board *b, uint32_t virtual_block,
                       uint32_t block, uint32_t pointed)
{
    uint32_t d = b->params.d;

    for (uint32_t i = 0; i < d; i++)
        draw_segment(b, virtual_block * d + i, block, pointed);
}

/* ==== The answer ======================================================= */

/* Tells which rule a board breaks that is not orderly, by its number, of which
   5 is never told, or that it has no tables. */
static void tell_rule(const uint32_t *list, int bare)
{
    if (bare) {
        printf("The image ends with its chip: its tables are missing.\n");
        return;
    }
    printf("The board is not orderly: no read, write or release is accepted "
           "(reply %d).\n", CNFTL_NOT_ORDERLY);
    printf("Rule %lu is the first one broken:\n  %s.\n",
           (unsigned long)list[CNFTL_WHY_RULE],
           cnftl_rule_text(list[CNFTL_WHY_RULE]));
}

/* Whether a write would be refused, since the region has no stamp left or the
   board no free block for it. */
static int is_refused(const uint32_t *list)
{
    return list[CNFTL_WHY_WRITE] == CNFTL_NO_STAMP_LEFT
        || list[CNFTL_WHY_WRITE] == CNFTL_NO_BLOCK_LEFT;
}

/* Tells how many spare areas the search for the sector's frame looks at, and of
   which frames: from the last programmed one of its segment down. */
static void tell_looks(const uint32_t *list)
{
    uint32_t looks = list[CNFTL_WHY_LOOKS], frame = list[CNFTL_WHY_FRAME];

    fputs(is_refused(list) ? "A read" : "A read or a write", stdout);
    if (looks == 0)
        printf(" of it looks at no spare area.\n");
    else if (looks == 1)
        printf(" of it looks at 1 spare area: that of frame %lu.\n",
               (unsigned long)frame);
    else
        printf(" of it looks at %lu spare areas: those of frames %lu%s%lu.\n",
               (unsigned long)looks, (unsigned long)(frame + looks - 1),
               looks == 2 ? " and " : " down to ", (unsigned long)frame);
}

/* Tells where the sector is held, if it is. */
static void tell_read(const struct cnftl_board *b, const uint32_t *list)
{
    if (!list[CNFTL_WHY_HELD]) {
        printf("It reads as 255 throughout: no frame holds its cluster.\n");
        return;
    }
    printf("It reads from frame %lu of physical block %lu,\n"
           "  which is virtual block %lu of region %lu; segment %lu there:\n",
           (unsigned long)list[CNFTL_WHY_FRAME],
           (unsigned long)list[CNFTL_WHY_PHYSICAL],
           (unsigned long)list[CNFTL_WHY_VIRTUAL],
           (unsigned long)list[CNFTL_WHY_REGION],
           (unsigned long)list[CNFTL_WHY_SEGMENT]);
    draw_segment(b, list[CNFTL_WHY_SEGMENT], list[CNFTL_WHY_PHYSICAL],
                 list[CNFTL_WHY_FRAME]);
}

/* Tells what a write would do for its frame. */
static void tell_write(const struct cnftl_board *b, uint32_t region,
                       const uint32_t *list)
{
    uint32_t target = list[CNFTL_WHY_TARGET], takes = list[CNFTL_WHY_TAKES];
    uint32_t copies = list[CNFTL_WHY_COPIES];
    uint32_t block = b->bt[region * b->params.gamma + target];
    uint32_t pages = b->params.alpha * (copies + 1);

    if (list[CNFTL_WHY_WRITE] == CNFTL_WRITE_CONTINUES)
        printf("A write continues the open block: it takes frame %lu of "
               "virtual block %lu,\n  physical block %lu, and programs %lu "
               "page%s:\n", (unsigned long)takes, (unsigned long)target,
               (unsigned long)block, (unsigned long)pages, plural(pages));
    else if (list[CNFTL_WHY_WRITE] == CNFTL_WRITE_OPENS)
        printf("A write opens virtual block %lu: it takes frame %lu of a free "
               "block,\n  and programs %lu page%s:\n", (unsigned long)target,
               (unsigned long)takes, (unsigned long)pages, plural(pages));
    else
        printf("A write reclaims virtual block %lu: it copies %lu valid "
               "frame%s to a free block,\n  takes frame %lu there, programs "
               "%lu page%s, and erases physical block %lu:\n",
               (unsigned long)target, (unsigned long)copies, plural(copies),
               (unsigned long)takes, (unsigned long)pages, plural(pages),
               (unsigned long)block);
    draw_block(b, target, block,
               list[CNFTL_WHY_WRITE] == CNFTL_WRITE_RECLAIMS ? NO_FRAME
                                                             : takes);
}

/* How many blocks have this entry in BST. */
static unsigned long blocks_that_are(const struct cnftl_board *b,
                                     uint8_t state)
{
    unsigned long count = 0;

    for (size_t i = 0; i < cnftl_bst_entries(&b->params); i++)
        count += b->bst[i] == state;
    return count;
}

/* Tells that a write of the region is refused, and why. */
static void tell_refusal(const struct cnftl_board *b, uint32_t region,
                         const uint32_t *list)
{
    if (list[CNFTL_WHY_WRITE] == CNFTL_NO_STAMP_LEFT)
        printf("A write is refused with reply %d: region %lu has no stamp "
               "left.\n  It takes no more writes until the board is "
               "formatted.\n", CNFTL_NO_STAMP_LEFT, (unsigned long)region);
    else
        printf("A write is refused with reply %d: it needs a free block and "
               "there is none.\n  Of %lu blocks %lu are used and %lu bad or "
               "worn.  What is written still reads.\n", CNFTL_NO_BLOCK_LEFT,
               (unsigned long)b->params.n,
               blocks_that_are(b, CNFTL_BLOCK_USED),
               blocks_that_are(b, CNFTL_BLOCK_RESERVED));
}

/* Tells why a sector of an orderly board reads so, and what a write would do;
   and what the letters mean, if there are any. */
static void tell_answer(const struct cnftl_board *b, uint32_t region,
                        const uint32_t *list)
{
    tell_read(b, list);
    tell_looks(list);
    if (is_refused(list))
        tell_refusal(b, region, list);
    else
        tell_write(b, region, list);
    if (list[CNFTL_WHY_HELD] || !is_refused(list))
        printf("V valid, S stale, B begun, E erased, one letter a frame; "
               "^ the frame meant\n");
}

/* Tells what would be so after a start from the chip, which is made on the
   board in memory. */
static void tell_start(const struct cnftl_board *b, uint32_t lba)
{
    uint64_t a = cnftl_board_start(b);
    uint32_t reply = cnftl_reply_of(a), list[CNFTL_WHY_ENTRIES];

    if (reply != CNFTL_ACCEPTED) {
        printf("A start from the chip alone is refused with reply %lu:\n"
               "  %s.\n", (unsigned long)reply,
               reply == CNFTL_NOT_ORDERLY
               ? "its blocks are not those that a power loss leaves"
               : cnftl_reply_text(reply));
        return;
    }
    printf("A start from the chip alone erases %lu block%s; after it:\n",
           (unsigned long)cnftl_erases_of(a), plural(cnftl_erases_of(a)));
    cnftl_board_why(b, lba, list);
    tell_answer(b, cnftl_region_of(&b->params, lba), list);
}

/* The board in a file, and whether it is bare, without tables; or the end of
   the program. */
static struct cnftl_board load(const char *path, int *bare)
{
    struct cnftl_board b;
    struct image_result r = image_load(&b, path);

    *bare = r.fault == IMAGE_NO_TABLES;
    if (r.fault != IMAGE_FINE && !*bare)
        fail(NO_ANSWER, "%s: %s", path, r.message);
    return b;
}

/* Asks about a sector, and ends the program where the layer refuses that. */
static uint32_t ask(const struct cnftl_board *b, uint32_t lba, uint32_t *list)
{
    uint32_t reply = cnftl_reply_of(cnftl_board_why(b, lba, list));

    if (reply == CNFTL_BAD_ADDRESS)
        fail(REFUSED, "sector %lu is refused with reply %lu: the board ends "
             "with sector %lu", (unsigned long)lba, (unsigned long)reply,
             (unsigned long)cnftl_sectors(&b->params) - 1);
    if (reply != CNFTL_ACCEPTED && reply != CNFTL_NOT_ORDERLY)
        fail(REFUSED, "sector %lu is refused with reply %lu: %s",
             (unsigned long)lba, (unsigned long)reply,
             cnftl_reply_text(reply));
    return reply;
}

/* Loads the board, asks, and tells the answer. */
int main(int argc, char **argv)
{
    uint32_t list[CNFTL_WHY_ENTRIES], lba, reply, region;
    struct cnftl_board b;
    int bare;

    if (argc == 2 && strcmp(argv[1], "--help") == 0) {
        fputs(help, stdout);
        return ANSWERED;
    }
    if (argc != 3)
        fail(NO_ANSWER, "use: cnftl-why IMAGE LBA");
    lba = number(argv[2]);
    b = load(argv[1], &bare);
    reply = ask(&b, lba, list);
    region = cnftl_region_of(&b.params, lba);
    printf("Sector %lu is at place %lu of cluster %lu, in region %lu.\n",
           (unsigned long)lba, (unsigned long)(lba % b.params.alpha),
           (unsigned long)(lba / b.params.alpha), (unsigned long)region);
    if (reply == CNFTL_NOT_ORDERLY) {
        tell_rule(list, bare);
        tell_start(&b, lba);
    } else {
        tell_answer(&b, region, list);
    }
    image_free_board(&b);
    return reply == CNFTL_NOT_ORDERLY ? NOT_ORDERLY : ANSWERED;
}
