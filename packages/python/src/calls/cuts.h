/* The cuts of a text, where chunks may end, in the text's unit. */
#ifndef LBK_PYTHON_CUTS_H
#define LBK_PYTHON_CUTS_H

#include "places.h"

/* A cut, and how many words come before it. */
typedef struct {
    size_t at, words;
    uint8_t kind, rule;
} cut;

/* Cuts that were read and not dropped, in order. Their memory can grow without the interpreter's lock; the caller frees
 * it. Set the table, the text and the profile of the state, and all else to zero, for the start of a text. */
typedef struct {
    const lbk_table *table;
    const utf8_text *text;
    lbk_chunk_state state; /* after the last cut that was read */
    cursor places;
    size_t words; /* before that cut */
    cut *items;
    size_t first, count, room;
    bool has_all, is_refused; /* whether no cut is left to read, and whether an allocation failed */
} cut_queue;

/* The k-th of the cuts that were not dropped, until the next call. NULL if there are fewer, or an allocation fails. */
const cut *cut_at(cut_queue *queue, size_t k);

/* Drops so many of the cuts that were read. */
void drop_cuts(cut_queue *queue, size_t count);

#endif
