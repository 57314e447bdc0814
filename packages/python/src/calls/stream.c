#include "stream.h"

#include "break.h"
#include "places.h"
#include "state.h"

#include <stdlib.h>
#include <string.h>

/* The room for breaks at first. */
enum { FIRST_ROOM = 64 };

/* A stream, and the offsets for a caller who passes pieces of str. The library counts bytes:
 * `given_bytes` and `given_points` are the sizes of all earlier pieces, and `held_points` is the
 * waiting offset in code points. */
typedef struct {
    lbk_stream stream;
    uint64_t given_bytes, given_points, held_points;
    bool is_busy;
} stream_state;

/* A growing array of breaks. */
typedef struct {
    lbk_break *block;
    size_t count, room;
} found_breaks;

PyObject *new_stream(PyObject *Py_UNUSED(module), PyObject *profile)
{
    cursor start;
    stream_state state;
    if (!start_of_text(profile, &start))
        return NULL;
    memset(&state, 0, sizeof state);
    state.stream.profile = start.state.profile;
    return PyByteArray_FromStringAndSize((const char *)&state, sizeof state);
}

/* Takes the whole piece. Called without the interpreter's lock. Returns false if an
 * allocation fails. */
static bool take(const lbk_table *table, lbk_stream *stream, const utf8_text *piece, bool is_last, found_breaks *found)
{
    size_t taken = 0;
    for (;;) {
        if (found->count == found->room) {
            size_t room = found->room == 0 ? FIRST_ROOM : 2 * found->room;
            lbk_break *block = realloc(found->block, room * sizeof(lbk_break));
            if (block == NULL)
                return false;
            found->block = block;
            found->room = room;
        }
        size_t room = found->room - found->count;
        lbk_fed fed = lbk_feed(table, stream, piece->bytes + taken, piece->size - taken, is_last,
            found->block + found->count, room);
        taken += fed.taken;
        found->count += fed.count;
        if (fed.count < room)
            return true;
    }
}

/* Converts byte offsets to code points, and counts the code points of the piece. */
static void count_points(stream_state *state, const utf8_text *piece, found_breaks *found)
{
    uint64_t bytes = state->given_bytes, points = state->given_points;
    for (size_t k = 0; k < found->count; k++) {
        uint64_t at = found->block[k].at;
        if (at < state->given_bytes) {
            found->block[k].at = state->held_points;
            continue;
        }
        points += code_points(piece->bytes + (bytes - state->given_bytes), at - bytes,
            piece->size - (bytes - state->given_bytes));
        bytes = at;
        found->block[k].at = points;
    }
    if (state->stream.held_code != 0 && state->stream.held_at >= state->given_bytes)
        state->held_points = state->given_points + code_points(piece->bytes, state->stream.held_at - state->given_bytes,
            piece->size);
    state->given_points += code_points(piece->bytes, piece->size, piece->size);
    state->given_bytes += piece->size;
}

static PyObject *to_list(PyTypeObject *type, const found_breaks *found)
{
    PyObject *list = PyList_New((Py_ssize_t)found->count);
    for (size_t k = 0; list != NULL && k < found->count; k++) {
        PyObject *one = new_break(type, &found->block[k]);
        if (one == NULL)
            Py_CLEAR(list);
        else
            PyList_SetItem(list, (Py_ssize_t)k, one);
    }
    return list;
}

/* Feeds the piece to a copy of the state, so that nothing is lost if an allocation fails. */
static PyObject *feed_copy(PyTypeObject *type,
    const lbk_table *table, stream_state *state, const utf8_text *piece, bool is_last)
{
    PyObject *list = NULL;
    stream_state after = *state;
    found_breaks found = {0};
    state->is_busy = true;
    PyThreadState *unlocked = unlock(piece->size);
    bool is_taken = take(table, &after.stream, piece, is_last, &found);
    if (is_taken && piece->in_code_points)
        count_points(&after, piece, &found);
    lock_again(unlocked);
    state->is_busy = false;
    if (is_taken)
        list = to_list(type, &found);
    else
        PyErr_NoMemory();
    if (list != NULL)
        *state = after;
    free(found.block);
    return list;
}

PyObject *feed(PyObject *module, PyObject *const *given, Py_ssize_t count)
{
    const module_state *names = PyModule_GetState(module);
    PyObject *list = NULL;
    Py_buffer table_view, state_view, piece_view;
    utf8_text piece;
    if (!has_arguments(count, 4))
        return NULL;
    PyObject *owner = text_owner(given[2], &piece.in_code_points);
    if (owner == NULL)
        return NULL;
    /* Also for an ASCII piece, because earlier pieces may have had other characters. */
    piece.in_code_points = PyUnicode_Check(given[2]);
    const lbk_table *table = hold_table(given[0], false, &table_view);
    if (table != NULL && PyObject_GetBuffer(given[1], &state_view, PyBUF_WRITABLE) == 0) {
        stream_state *state = state_view.buf;
        if (state_view.len != sizeof(stream_state) || state->is_busy)
            PyErr_SetString(PyExc_ValueError, "another thread is feeding this stream; give each thread its own");
        else if (hold_bytes(owner, &piece, &piece_view)) {
            list = feed_copy((PyTypeObject *)names->break_type, table, state, &piece, given[3] == Py_True);
            PyBuffer_Release(&piece_view);
        }
        PyBuffer_Release(&state_view);
    }
    if (table != NULL)
        PyBuffer_Release(&table_view);
    Py_DECREF(owner);
    return list;
}
