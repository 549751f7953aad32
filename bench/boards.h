/*
 * boards.h - a clock, and boards to measure: new ones, and ones filled without
 * the calls that are measured.
 */
#ifndef BOARDS_H
#define BOARDS_H

#include "cnftl.h"

/* The rated erases of a block of each board. */
enum { RATED = 1000000 };

/* Seconds on a clock that only goes forward. */
double now(void);

/* A new chip and its tables, which no format has set yet; the end of the run
   where there is no memory. */
struct cnftl_board new_board(const struct cnftl_params *p);

/* Gives it back. */
void free_board(struct cnftl_board *b);

/* Fills a region of a formatted board with its clusters in turn.  All of its
   blocks are full but the last, which has this many frames.  The last round of
   clusters is valid.  Each frame has the next stamp. */
void fill_region(const struct cnftl_board *b, uint32_t region, uint32_t last);

#endif
