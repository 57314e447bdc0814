#include "passages.h"

#include "places.h"

#include <stdlib.h>
#include <string.h>

enum { BLOCK = 128, FIRST_ROOM = 256 };

enum { SEGMENT_OFFSETS, PLACES, WORD_OFFSETS, STARTS, ENDS, COLUMNS };

/* A column that can grow without the interpreter's lock. */
typedef struct {
    int64_t *items;
    size_t count, room;
} numbers;

static bool push(numbers *column, size_t number)
{
    if (column->count == column->room) {
        size_t room = 2 * column->room + FIRST_ROOM;
        int64_t *more = realloc(column->items, room * sizeof *more);
        if (more == NULL)
            return false;
        column->items = more;
        column->room = room;
    }
    column->items[column->count++] = (int64_t)number;
    return true;
}

/* Adds the words of a passage, as those of a separate text, and the end of their list. `before` is its offset in the
 * text's unit. */
static bool push_words(numbers *columns, const utf8_text *passage, size_t before)
{
    lbk_word block[BLOCK];
    cursor from;
    size_t count;
    memset(&from, 0, sizeof from);
    do {
        count = next_words(&from, passage, block, BLOCK);
        for (size_t k = 0; k < count; k++)
            if (!push(&columns[STARTS], before + block[k].start) || !push(&columns[ENDS], before + block[k].end))
                return false;
    } while (count == BLOCK);
    return push(&columns[WORD_OFFSETS], columns[STARTS].count);
}

/* Fills the columns. Returns false if an allocation fails. Called without the interpreter's lock. */
static bool fill(numbers *columns, const lbk_table *table, lbk_state state, const utf8_text *text)
{
    lbk_break block[BLOCK];
    /* The last break and the start of the passage: in bytes, and in the text's unit. */
    size_t at = 0, given = 0, start = 0, start_given = 0, count;
    if (!push(&columns[SEGMENT_OFFSETS], 0) || !push(&columns[PLACES], 0) || !push(&columns[WORD_OFFSETS], 0))
        return false;
    do {
        count = lbk_breaks(table, &state, text->bytes, text->size, block, BLOCK);
        for (size_t k = 0; k < count; k++) {
            size_t size = block[k].at - at;
            given += text->in_code_points ? code_points(text->bytes + at, size, text->size - at) : size;
            at = block[k].at;
            if (!push(&columns[PLACES], given))
                return false;
            if (block[k].kind != LBK_MUST)
                continue;
            utf8_text passage = {text->bytes + start, at - start, text->in_code_points};
            if (!push_words(columns, &passage, start_given) || !push(&columns[SEGMENT_OFFSETS],
                columns[PLACES].count - 1))
                return false;
            start = at;
            start_given = given;
        }
    } while (count == BLOCK);
    return true;
}

/* The columns as a tuple of bytearrays. */
static PyObject *tuple_of(const numbers *columns)
{
    PyObject *made = PyTuple_New(COLUMNS);
    for (Py_ssize_t k = 0; made != NULL && k < COLUMNS; k++) {
        PyObject *one = PyByteArray_FromStringAndSize((const char *)columns[k].items,
            (Py_ssize_t)(columns[k].count * sizeof(int64_t)));
        if (one == NULL)
            Py_CLEAR(made);
        else
            PyTuple_SetItem(made, k, one);
    }
    return made;
}

PyObject *passage_columns(PyObject *Py_UNUSED(module), PyObject *const *given, Py_ssize_t count)
{
    PyObject *result = NULL;
    Py_buffer table_view, text_view;
    utf8_text text;
    cursor start;
    if (!has_arguments(count, 3) || !start_of_text(given[2], &start))
        return NULL;
    PyObject *owner = text_owner(given[1], &text.in_code_points);
    if (owner == NULL)
        return NULL;
    const lbk_table *table = hold_table(given[0], false, &table_view);
    if (table != NULL) {
        if (hold_bytes(owner, &text, &text_view)) {
            numbers columns[COLUMNS] = {{0}};
            PyThreadState *unlocked = unlock(text.size);
            bool is_filled = fill(columns, table, start.state, &text);
            lock_again(unlocked);
            result = is_filled ? tuple_of(columns) : PyErr_NoMemory();
            for (size_t k = 0; k < COLUMNS; k++)
                free(columns[k].items);
            PyBuffer_Release(&text_view);
        }
        PyBuffer_Release(&table_view);
    }
    Py_DECREF(owner);
    return result;
}
