/*
 * image.h - a whole board in a file (docs/IMAGE.md), for the programs here.
 */
#ifndef IMAGE_H
#define IMAGE_H

#include "cnftl.h"

/* What can be wrong with an image. */
enum image_fault {
    IMAGE_FINE = 0,      /* nothing                                           */
    IMAGE_NO_FILE = 1,   /* there is no such file                             */
    IMAGE_NO_ACCESS = 2, /* the file cannot be read or written                */
    IMAGE_NO_MEMORY = 3, /* there is no memory for the board                  */
    IMAGE_NO_BOARD = 4,  /* the file is no board image, or of another version */
    IMAGE_WRONG_SIZE = 5, /* the image is too short or too long               */
    IMAGE_NO_TABLES = 6  /* the image ends with its chip: see image_load      */
};

/* What the functions below return: the fault, and a line that says more of it
   and does not name the file.  What to do about it is for the program. */
struct image_result {
    enum image_fault fault;
    char message[120];
};

/* The memory of a board of these parameters, and its return. */
struct image_result image_new_board(struct cnftl_board *b,
                                    const struct cnftl_params *p);
void image_free_board(struct cnftl_board *b);

/* Reads the board in a file into new memory; with a fault there is none, but
   with IMAGE_NO_TABLES: then the chip is there, the wear is 0, and the other
   tables are all ones, so that a start may rebuild them. */
struct image_result image_load(struct cnftl_board *b, const char *path);

/* Writes the image beside the old one and puts it in its place; with a fault
   the old one stays. */
struct image_result image_save(const struct cnftl_board *b, const char *path);

#endif
