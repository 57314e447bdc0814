/* Breaks of a text, with offsets in the caller's unit. */
#ifndef LBK_PYTHON_PLACES_H
#define LBK_PYTHON_PLACES_H

#include "arguments.h"

/* How far the breaks or the words of a text were read. `given` is the last offset in the caller's
 * unit, and `counted` the same in bytes. All zeros, except the profile, mean the start of a text. */
typedef struct {
    lbk_state state;
    lbk_word_state words;
    size_t counted, given;
} cursor;

/* The start of a text in profile 1 or 2. Returns false, with an exception set, for any other. */
bool start_of_text(PyObject *profile, cursor *start);

/* How many code points begin in the first `size` well-formed bytes: the bytes that are not
 * continuations (10xxxxxx in binary). It may read `readable` bytes. */
size_t code_points(const char *bytes, size_t size, size_t readable);

/* Converts a byte offset, not before the last one, to the text's unit. */
size_t to_unit(cursor *from, const utf8_text *text, size_t at);

/* lbk_breaks or lbk_positions */
typedef size_t break_call(const lbk_table *table, lbk_state *state, const char *text, size_t size, lbk_break *block, size_t room);

/* As the call, with each `at` in the text's unit. */
size_t next_breaks(break_call *call,
    const lbk_table *table, cursor *from, const utf8_text *text, lbk_break *block, size_t room);

/* As lbk_words, with offsets in the text's unit. */
size_t next_words(cursor *from, const utf8_text *text, lbk_word *block, size_t room);

/* lbk_cut or lbk_cut_before */
typedef size_t cut_call(const lbk_table *table, const char *text, size_t size, size_t at);

/* As the call, with both offsets in the text's unit. */
size_t find_cut(cut_call *call, const lbk_table *table, const utf8_text *text, size_t at);

/* As lbk_safe_break, with the offset in the text's unit. */
size_t find_safe_break(const lbk_table *table, const utf8_text *text, uint8_t profile);

#endif
