/*
 * model_fast.h - document 01's calls with 02's marks, stamps, queue, start and
 * worn blocks in plain C, written for speed.
 *
 * The five calls have the signatures of cnftl.h under the prefix fast_ and
 * the same outcome.  They are what the product's speed is measured against.
 */
#ifndef MODEL_FAST_H
#define MODEL_FAST_H

#include "cnftl.h"

extern __typeof__(cnftl_format) fast_format;
extern __typeof__(cnftl_read) fast_read;
extern __typeof__(cnftl_write) fast_write;
extern __typeof__(cnftl_queue) fast_queue;
extern __typeof__(cnftl_start) fast_start;

#endif
