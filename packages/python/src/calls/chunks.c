#include "chunks.h"

#include "cuts.h"
#include "places.h"

#include <stdlib.h>
#include <string.h>

enum { FIRST_ROOM = 64, NUMBERS = 3, COLUMNS = 6 };

/* A growing array of chunks; it can grow without the interpreter's lock. */
typedef struct {
    lbk_chunk *items;
    size_t count, room;
} chunk_list;

/* The arguments of a call. */
typedef struct {
    const lbk_table *table;
    utf8_text text;
    lbk_state start;
    lbk_limits limits;
    bool in_bytes;
} request;

static bool grow(chunk_list *found)
{
    size_t room = 2 * found->room + FIRST_ROOM;
    lbk_chunk *more = realloc(found->items, room * sizeof *more);
    if (more == NULL)
        return false;
    found->items = more;
    found->room = room;
    return true;
}

/* Adds the chunks of a text, with limits in bytes. Returns false if an allocation fails. */
static bool add_by_bytes(const request *asked, chunk_list *found)
{
    const utf8_text *text = &asked->text;
    lbk_chunk_state state = {.breaks = asked->start};
    cursor starts = {{0}, {0}, 0, 0}, ends = starts;
    size_t room, count;
    do {
        if (found->count == found->room && !grow(found))
            return false;
        lbk_chunk *block = found->items + found->count;
        room = found->room - found->count;
        count = lbk_chunks(asked->table, &asked->limits, &state, text->bytes, text->size, block, room);
        for (size_t k = 0; k < count; k++) {
            block[k].start = to_unit(&starts, text, block[k].start);
            block[k].end = to_unit(&ends, text, block[k].end);
        }
        found->count += count;
    } while (count == room);
    return true;
}

/* Where a chunk starts, how many words come before it, and where the previous chunk ended. */
typedef struct {
    size_t start, words, told;
} here;

static bool fits(const lbk_limits *limits, size_t start, size_t words, const cut *end)
{
    return end->at - start <= limits->most && (limits->words == 0 || end->words - words <= limits->words);
}

/* The index of the cut that ends the chunk, among the cuts from index `first` on. */
static size_t end_of(cut_queue *cuts, const lbk_limits *limits, const here *at, size_t first)
{
    size_t k = first, early = first;
    const cut *it;
    bool is_early = false;
    for (; (it = cut_at(cuts, k)) != NULL && fits(limits, at->start, at->words, it); k++)
        if (it->kind == LBK_MUST && it->at - at->told >= limits->least) {
            early = k;
            is_early = true;
        }
    if (k == first)
        return first;
    return it != NULL && is_early ? early : k - 1;
}

/* The index of the cut at which the next chunk starts. */
static size_t start_after(cut_queue *cuts, const lbk_limits *limits, const here *at, size_t end)
{
    const cut *next = limits->overlap == 0 ? NULL : cut_at(cuts, end + 1), *last = cut_at(cuts, end);
    for (size_t k = 0; next != NULL && k < end; k++) {
        const cut *it = cut_at(cuts, k);
        size_t twice = last->at - it->at;
        if (twice <= limits->overlap && twice <= last->at - at->start - twice && fits(limits, it->at, it->words, next))
            return k;
    }
    return end;
}

/* Adds the chunks of a text, with limits in code points: as lbk_chunks does for bytes, with the same cuts. Returns
 * false where an allocation fails. */
static bool add_by_points(const request *asked, chunk_list *found)
{
    const lbk_limits *limits = &asked->limits;
    cut_queue cuts = {.table = asked->table, .text = &asked->text, .state.breaks = asked->start};
    here at = {0, 0, 0};
    size_t first = 0;
    while (cut_at(&cuts, first) != NULL && (found->count < found->room || grow(found))) {
        size_t end = end_of(&cuts, limits, &at, first), next = start_after(&cuts, limits, &at, end);
        if (cuts.is_refused)
            break;
        cut last = *cut_at(&cuts, end), from = *cut_at(&cuts, next);
        found->items[found->count++] = (lbk_chunk){
            .start = at.start,
            .end = last.at,
            .words = last.words - at.words,
            .kind = last.kind,
            .rule = last.rule,
            .alone = !fits(limits, at.start, at.words, &last),
        };
        at = (here){from.at, from.words, last.at};
        first = end - next;
        drop_cuts(&cuts, next + 1);
    }
    bool is_all = !cuts.is_refused && cut_at(&cuts, first) == NULL && !cuts.is_refused;
    free(cuts.items);
    return is_all;
}

/* The columns as a tuple of bytearrays. */
static PyObject *tuple_of(const chunk_list *found)
{
    PyObject *made = PyTuple_New(COLUMNS);
    for (Py_ssize_t k = 0; made != NULL && k < COLUMNS; k++) {
        size_t width = k < NUMBERS ? sizeof(int64_t) : 1;
        PyObject *one = PyByteArray_FromStringAndSize(NULL, (Py_ssize_t)(found->count * width));
        if (one == NULL)
            Py_CLEAR(made);
        else
            PyTuple_SetItem(made, k, one);
    }
    if (made == NULL)
        return NULL;
    void *columns[COLUMNS];
    for (Py_ssize_t k = 0; k < COLUMNS; k++)
        columns[k] = PyByteArray_AsString(PyTuple_GetItem(made, k));
    for (size_t k = 0; k < found->count; k++) {
        const lbk_chunk *it = &found->items[k];
        ((int64_t *)columns[0])[k] = (int64_t)it->start;
        ((int64_t *)columns[1])[k] = (int64_t)it->end;
        ((int64_t *)columns[2])[k] = (int64_t)it->words;
        ((uint8_t *)columns[3])[k] = it->kind;
        ((uint8_t *)columns[4])[k] = it->rule;
        ((uint8_t *)columns[5])[k] = it->alone;
    }
    return made;
}

/* The chunks for the arguments (table, text, ..), as columns. */
static PyObject *columns_of(request *asked, PyObject *owner)
{
    Py_buffer text_view;
    chunk_list found = {NULL, 0, 0};
    if (!hold_bytes(owner, &asked->text, &text_view))
        return NULL;
    PyThreadState *unlocked = unlock(asked->text.size);
    bool by_points = asked->text.in_code_points && !asked->in_bytes;
    bool is_all = (by_points ? add_by_points : add_by_bytes)(asked, &found);
    lock_again(unlocked);
    PyBuffer_Release(&text_view);
    PyObject *made = is_all ? tuple_of(&found) : PyErr_NoMemory();
    free(found.items);
    return made;
}

PyObject *chunk_columns(PyObject *Py_UNUSED(module), PyObject *const *given, Py_ssize_t count)
{
    cursor start;
    Py_buffer table_view;
    PyObject *made = NULL;
    if (!has_arguments(count, 8) || !start_of_text(given[2], &start))
        return NULL;
    request asked = {.start = start.state, .in_bytes = given[7] == Py_True};
    size_t *limits[] = {&asked.limits.most, &asked.limits.words, &asked.limits.least, &asked.limits.overlap};
    for (size_t k = 0; k < sizeof limits / sizeof *limits; k++)
        *limits[k] = PyLong_AsSize_t(given[3 + k]);
    if (PyErr_Occurred())
        return NULL;
    PyObject *owner = text_owner(given[1], &asked.text.in_code_points);
    if (owner == NULL)
        return NULL;
    asked.table = hold_table(given[0], false, &table_view);
    if (asked.table != NULL) {
        made = columns_of(&asked, owner);
        PyBuffer_Release(&table_view);
    }
    Py_DECREF(owner);
    return made;
}
