/*
 * model.h - a plain model of documents 01 and 02, for comparison with the
 * product.
 *
 * The calls have the signatures of cnftl.h under the prefix model_.
 * A slice passes as a pointer and a length in elements, and the answer is
 * reply + 65,536 * programs + 4,294,967,296 * erases.  The third count, the
 * spare areas looked at, stands beside it in model_looks.
 */
#ifndef MODEL_H
#define MODEL_H

#include "cnftl.h"
#include "mutants.h"

/* The numbers of the mutants: MODEL_RIGHT is 0, the others follow the lists.
   Those from MODEL_SEEN_FROM_C on are of the second list. */
#define MODEL_MUTANT_NUMBER(id, name) MODEL_##id,
enum model_mutant_number {
    MODEL_RIGHT,
    MODEL_MUTANT_LIST(MODEL_MUTANT_NUMBER)
    MODEL_SEEN_FROM_C,
    MODEL_LAST_SEEN_FROM_C = MODEL_SEEN_FROM_C - 1,
    MODEL_ITEM_MUTANT_LIST(MODEL_MUTANT_NUMBER)
    MODEL_MUTANT_COUNT
};

/* The mutant that the model now is; MODEL_RIGHT unless a test sets it. */
extern int model_mutant;

/* The names of the mutants by number. */
extern const char *const MODEL_MUTANTS[MODEL_MUTANT_COUNT];

/* The third count of the last call, and those of the first items of the last
   queue. */
enum { MODEL_ITEMS = 8 };
extern uint32_t model_looks, model_item_looks[MODEL_ITEMS];

/* The writes per erase of T-10, for each region below mu. */
void model_writes_per_erase(const struct cnftl_params *given,
                            uint32_t *figures);

extern __typeof__(cnftl_format) model_format;
extern __typeof__(cnftl_read) model_read;
extern __typeof__(cnftl_write) model_write;
extern __typeof__(cnftl_queue) model_queue;
extern __typeof__(cnftl_release) model_release;
extern __typeof__(cnftl_why) model_why;
extern __typeof__(cnftl_start) model_start;
extern __typeof__(cnftl_format_cut) model_format_cut;
extern __typeof__(cnftl_write_cut) model_write_cut;
extern __typeof__(cnftl_queue_cut) model_queue_cut;
extern __typeof__(cnftl_start_cut) model_start_cut;

#endif
