/*
 * image.c - reads and writes a board image (docs/IMAGE.md).
 */
#include "image.h"

#include <errno.h>
#include <stdarg.h>
#include <stdio.h>
#include <stdlib.h>
#include <string.h>

enum { VERSION = 5, PARAMS = 9, HEADER_BYTES = 12 + 4 * PARAMS };

/* The result where nothing is wrong. */
static const struct image_result fine = { IMAGE_FINE, "" };

/* The result where something is: the fault and what there is to say of it. */
static struct image_result wrong(enum image_fault fault, const char *format,
                                 ...)
{
    struct image_result r = { fault, "" };
    va_list args;

    va_start(args, format);
    vsnprintf(r.message, sizeof r.message, format, args);
    va_end(args);
    return r;
}

/* ==== Numbers and sizes ================================================ */

/* A little-endian number of a few bytes. */
static uint64_t get_long(const uint8_t *from, int bytes)
{
    uint64_t value = 0;

    while (bytes-- > 0)
        value = value << 8 | from[bytes];
    return value;
}

/* The same, of at most four bytes. */
static uint32_t get_number(const uint8_t *from, int bytes)
{
    return (uint32_t)get_long(from, bytes);
}

/* A number of a few bytes, put down. */
static void put_number(uint8_t *to, int bytes, uint64_t value)
{
    for (int i = 0; i < bytes; i++)
        to[i] = (uint8_t)(value >> 8 * i);
}

/* The parameters in the order of the image. */
static void list_params(struct cnftl_params *p, uint32_t *list[PARAMS])
{
    list[0] = &p->s;
    list[1] = &p->alpha;
    list[2] = &p->beta;
    list[3] = &p->d;
    list[4] = &p->mu;
    list[5] = &p->gamma;
    list[6] = &p->c;
    list[7] = &p->n;
    list[8] = &p->e;
}

/* Bytes of the whole image. */
static uint64_t image_bytes(const struct cnftl_params *p)
{
    return (uint64_t)HEADER_BYTES + cnftl_chip_bytes(p) + cnftl_table_bytes(p);
}

/* Bytes of an image that ends with its chip. */
static uint64_t bare_bytes(const struct cnftl_params *p)
{
    return (uint64_t)HEADER_BYTES + cnftl_chip_bytes(p);
}

/* ==== The memory ======================================================= */

/* The memory of a board of these parameters, all of it or none. */
struct image_result image_new_board(struct cnftl_board *b,
                                    const struct cnftl_params *p)
{
    b->params = *p;
    b->chip = malloc(cnftl_chip_bytes(p));
    b->ct = malloc(cnftl_ct_entries(p) * sizeof *b->ct);
    b->bt = malloc(cnftl_bt_entries(p) * sizeof *b->bt);
    b->fst = malloc(cnftl_fst_entries(p) * sizeof *b->fst);
    b->bst = malloc(cnftl_bst_entries(p));
    b->wear = malloc(cnftl_wear_entries(p) * sizeof *b->wear);
    b->marks = malloc(cnftl_marks_entries(p) * sizeof *b->marks);
    b->stamps = malloc(cnftl_stamps_entries(p) * sizeof *b->stamps);
    if (b->chip && b->ct && b->bt && b->fst && b->bst && b->wear && b->marks
        && b->stamps)
        return fine;
    image_free_board(b);
    return wrong(IMAGE_NO_MEMORY, "no memory for a board of %llu bytes",
                 (unsigned long long)cnftl_chip_bytes(p)
                 + cnftl_table_bytes(p));
}

/* Gives the memory of a board back. */
void image_free_board(struct cnftl_board *b)
{
    free(b->chip);
    free(b->ct);
    free(b->bt);
    free(b->fst);
    free(b->bst);
    free(b->wear);
    free(b->marks);
    free(b->stamps);
}

/* ==== Reading ========================================================== */

/* Takes bytes from the image; 0 if it does not give them. */
static int take(FILE *f, uint8_t *to, size_t bytes)
{
    return fread(to, 1, bytes, f) == bytes;
}

/* Takes 16-bit entries, in the same way. */
static int take_words(FILE *f, uint16_t *to, size_t entries)
{
    uint8_t two[2];

    for (size_t i = 0; i < entries; i++) {
        if (!take(f, two, sizeof two))
            return 0;
        to[i] = (uint16_t)get_number(two, 2);
    }
    return 1;
}

/* Takes 32-bit entries, in the same way. */
static int take_numbers(FILE *f, uint32_t *to, size_t entries)
{
    uint8_t four[4];

    for (size_t i = 0; i < entries; i++) {
        if (!take(f, four, sizeof four))
            return 0;
        to[i] = get_number(four, 4);
    }
    return 1;
}

/* Takes 64-bit entries, in the same way. */
static int take_longs(FILE *f, uint64_t *to, size_t entries)
{
    uint8_t eight[8];

    for (size_t i = 0; i < entries; i++) {
        if (!take(f, eight, sizeof eight))
            return 0;
        to[i] = get_long(eight, 8);
    }
    return 1;
}

/* Takes the tables, all that follows the chip. */
static int take_tables(FILE *f, struct cnftl_board *b)
{
    const struct cnftl_params *p = &b->params;

    return take_words(f, b->ct, cnftl_ct_entries(p))
        && take_words(f, b->bt, cnftl_bt_entries(p))
        && take_words(f, b->fst, cnftl_fst_entries(p))
        && take(f, b->bst, cnftl_bst_entries(p))
        && take_numbers(f, b->wear, cnftl_wear_entries(p))
        && take_longs(f, b->marks, cnftl_marks_entries(p))
        && take_numbers(f, b->stamps, cnftl_stamps_entries(p));
}

/* The tables of a board of which only the chip is left. */
static void lose_tables(struct cnftl_board *b)
{
    const struct cnftl_params *p = &b->params;

    memset(b->ct, 255, cnftl_ct_entries(p) * sizeof *b->ct);
    memset(b->bt, 255, cnftl_bt_entries(p) * sizeof *b->bt);
    memset(b->fst, 255, cnftl_fst_entries(p) * sizeof *b->fst);
    memset(b->bst, 255, cnftl_bst_entries(p));
    memset(b->wear, 0, cnftl_wear_entries(p) * sizeof *b->wear);
    memset(b->marks, 255, cnftl_marks_entries(p) * sizeof *b->marks);
    memset(b->stamps, 255, cnftl_stamps_entries(p) * sizeof *b->stamps);
}

/* Looks whether the image is of the version that is read here. */
static struct image_result check_version(uint32_t version)
{
    if (version < VERSION)
        return wrong(IMAGE_NO_BOARD, "board image of version %lu, and only "
                     "version %d is read: such a board is formatted anew",
                     (unsigned long)version, VERSION);
    if (version != VERSION)
        return wrong(IMAGE_NO_BOARD, "board image of version %lu, and only "
                     "version %d is read", (unsigned long)version, VERSION);
    return fine;
}

/* Takes the header and checks it. */
static struct image_result take_header(FILE *f, struct cnftl_params *p)
{
    uint8_t header[HEADER_BYTES];
    struct image_result r;
    uint32_t *list[PARAMS];
    size_t got = fread(header, 1, sizeof header, f);

    if (ferror(f))
        return wrong(IMAGE_NO_ACCESS, "cannot be read");
    if (got < sizeof header)
        return wrong(IMAGE_WRONG_SIZE, "too short for a board image: %lu bytes",
                     (unsigned long)got);
    if (memcmp(header, "CNFTLIMG", 8) != 0)
        return wrong(IMAGE_NO_BOARD, "not a board image");
    r = check_version(get_number(header + 8, 4));
    if (r.fault != IMAGE_FINE)
        return r;
    list_params(p, list);
    for (int i = 0; i < PARAMS; i++)
        *list[i] = get_number(header + 12 + 4 * i, 4);
    if (!cnftl_params_allowed(p))
        return wrong(IMAGE_NO_BOARD, "its parameters are not allowed");
    return fine;
}

/* Looks whether the file has the length that its parameters ask for, or ends
   with the chip, and goes on after the header. */
static struct image_result check_size(FILE *f, const struct cnftl_params *p)
{
    long size;

    if (fseek(f, 0, SEEK_END) != 0 || (size = ftell(f)) < 0
        || fseek(f, HEADER_BYTES, SEEK_SET) != 0)
        return wrong(IMAGE_NO_ACCESS, "cannot be read");
    if ((uint64_t)size == bare_bytes(p))
        return wrong(IMAGE_NO_TABLES, "its tables are missing");
    if ((uint64_t)size != image_bytes(p))
        return wrong(IMAGE_WRONG_SIZE, "too %s: %ld bytes, not %llu",
                     (uint64_t)size < image_bytes(p) ? "short" : "long", size,
                     (unsigned long long)image_bytes(p));
    return fine;
}

/* Reads chip and tables into the memory of a board; the tables are lost where
   the image ends with its chip. */
static struct image_result take_board(FILE *f, struct cnftl_board *b,
                                      struct image_result size)
{
    int bare = size.fault == IMAGE_NO_TABLES;

    if (!take(f, b->chip, cnftl_chip_bytes(&b->params))
        || (!bare && !take_tables(f, b))) {
        image_free_board(b);
        return wrong(IMAGE_NO_ACCESS, "cannot be read");
    }
    if (bare)
        lose_tables(b);
    return size;
}

/* Reads a board from an open image. */
static struct image_result load(struct cnftl_board *b, FILE *f)
{
    struct cnftl_params p;
    struct image_result r = take_header(f, &p), memory;

    if (r.fault == IMAGE_FINE)
        r = check_size(f, &p);
    if (r.fault != IMAGE_FINE && r.fault != IMAGE_NO_TABLES)
        return r;
    memory = image_new_board(b, &p);
    return memory.fault == IMAGE_FINE ? take_board(f, b, r) : memory;
}

/* Reads the board in the file. */
struct image_result image_load(struct cnftl_board *b, const char *path)
{
    FILE *f = fopen(path, "rb");
    struct image_result r;

    if (f == NULL && errno == ENOENT)
        return wrong(IMAGE_NO_FILE, "no such file");
    if (f == NULL)
        return wrong(IMAGE_NO_ACCESS, "cannot be read: %s", strerror(errno));
    r = load(b, f);
    fclose(f);
    return r;
}

/* ==== Writing ========================================================== */

/* Puts 16-bit entries down. */
static void put_words(FILE *f, const uint16_t *from, size_t entries)
{
    uint8_t two[2];

    for (size_t i = 0; i < entries; i++) {
        put_number(two, 2, from[i]);
        fwrite(two, 1, sizeof two, f);
    }
}

/* Puts 32-bit entries down. */
static void put_numbers(FILE *f, const uint32_t *from, size_t entries)
{
    uint8_t four[4];

    for (size_t i = 0; i < entries; i++) {
        put_number(four, 4, from[i]);
        fwrite(four, 1, sizeof four, f);
    }
}

/* Puts 64-bit entries down. */
static void put_longs(FILE *f, const uint64_t *from, size_t entries)
{
    uint8_t eight[8];

    for (size_t i = 0; i < entries; i++) {
        put_number(eight, 8, from[i]);
        fwrite(eight, 1, sizeof eight, f);
    }
}

/* Puts the header down. */
static void put_header(FILE *f, struct cnftl_params p)
{
    uint8_t header[HEADER_BYTES];
    uint32_t *list[PARAMS];

    memcpy(header, "CNFTLIMG", 8);
    put_number(header + 8, 4, VERSION);
    list_params(&p, list);
    for (int i = 0; i < PARAMS; i++)
        put_number(header + 12 + 4 * i, 4, *list[i]);
    fwrite(header, 1, sizeof header, f);
}

/* Puts the whole board down. */
static void put_board(FILE *f, const struct cnftl_board *b)
{
    const struct cnftl_params *p = &b->params;

    put_header(f, *p);
    fwrite(b->chip, 1, cnftl_chip_bytes(p), f);
    put_words(f, b->ct, cnftl_ct_entries(p));
    put_words(f, b->bt, cnftl_bt_entries(p));
    put_words(f, b->fst, cnftl_fst_entries(p));
    fwrite(b->bst, 1, cnftl_bst_entries(p), f);
    put_numbers(f, b->wear, cnftl_wear_entries(p));
    put_longs(f, b->marks, cnftl_marks_entries(p));
    put_numbers(f, b->stamps, cnftl_stamps_entries(p));
}

/* Writes the image to a file, and removes what could not be written whole. */
static struct image_result write_file(const struct cnftl_board *b,
                                      const char *path)
{
    FILE *f = fopen(path, "wb");
    int bad;

    if (f == NULL)
        return wrong(IMAGE_NO_ACCESS, "cannot be written: %s",
                     strerror(errno));
    put_board(f, b);
    bad = ferror(f);
    bad |= fclose(f) != 0;
    if (!bad)
        return fine;
    remove(path);
    return wrong(IMAGE_NO_ACCESS, "cannot be written whole");
}

/* Writes the image beside the old one and puts it in its place. */
struct image_result image_save(const struct cnftl_board *b, const char *path)
{
    char *beside = malloc(strlen(path) + sizeof ".new");
    struct image_result r;

    if (beside == NULL)
        return wrong(IMAGE_NO_MEMORY, "no memory for the name of its file");
    strcpy(beside, path);
    strcat(beside, ".new");
    r = write_file(b, beside);
    if (r.fault == IMAGE_FINE && rename(beside, path) != 0) {
        r = wrong(IMAGE_NO_ACCESS, "cannot be written: %s", strerror(errno));
        remove(beside);
    }
    free(beside);
    return r;
}
