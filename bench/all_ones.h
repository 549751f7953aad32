/*
 * all_ones.h - the fastest test in C that we know for whether bytes are all
 * 255: loads of 16 bytes into four accumulators, 64 bytes a turn, and no exit
 * before the end.  It is the limit that the check of an erased block is held
 * to, and what the plain C beside the product uses.
 */
#ifndef ALL_ONES_H
#define ALL_ONES_H

#include <stdbool.h>
#include <stddef.h>
#include <stdint.h>
#include <string.h>

typedef uint64_t two_words __attribute__((vector_size(16)));

/* The 16 bytes from p on. */
static inline two_words load(const uint8_t *p)
{
    two_words w;

    memcpy(&w, p, sizeof w);
    return w;
}

static inline bool all_ones(const uint8_t *p, size_t len)
{
    two_words a = { UINT64_MAX, UINT64_MAX }, b = a, c = a, d = a;
    uint8_t rest = 255;

    for (; len >= 64; p += 64, len -= 64) {
        a &= load(p);
        b &= load(p + 16);
        c &= load(p + 32);
        d &= load(p + 48);
    }
    for (; len >= 16; p += 16, len -= 16)
        a &= load(p);
    for (; len > 0; p++, len--)
        rest &= *p;
    a &= b & c & d;
    return (a[0] & a[1]) == UINT64_MAX && rest == 255;
}

#endif
