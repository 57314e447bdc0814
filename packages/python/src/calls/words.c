#include "words.h"

#include "places.h"

#include <string.h>

/* How many words a call fetches, and the room for words at first. */
enum { BLOCK = 256, FIRST_ROOM = 64 };

/* The columns of starts and ends, each a bytearray. */
typedef struct {
    PyObject *starts, *ends;
    size_t count, room;
} word_list;

static bool resize(word_list *found, size_t room)
{
    found->room = room;
    return PyByteArray_Resize(found->starts, (Py_ssize_t)(room * sizeof(int64_t))) == 0
        && PyByteArray_Resize(found->ends, (Py_ssize_t)(room * sizeof(int64_t))) == 0;
}

/* Writes words to the columns until these are full or none is left. Returns whether none is left. Called without the
 * interpreter's lock: it touches only the memory of the columns. */
static bool fill(word_list *found, cursor *from, const utf8_text *text, int64_t *starts, int64_t *ends)
{
    lbk_word block[BLOCK];
    while (found->count < found->room) {
        size_t left = found->room - found->count, room = left < BLOCK ? left : BLOCK;
        size_t count = next_words(from, text, block, room);
        for (size_t k = 0; k < count; k++) {
            starts[found->count + k] = (int64_t)block[k].start;
            ends[found->count + k] = (int64_t)block[k].end;
        }
        found->count += count;
        if (count < room)
            return true;
    }
    return false;
}

/* Finds all words. Full columns get the room that the text needs if its rest is like its start. Returns
 * false, with an exception set, if an allocation fails. */
static bool find(word_list *found, const utf8_text *text)
{
    cursor from;
    memset(&from, 0, sizeof from);
    for (bool is_all = false; !is_all;) {
        size_t taken = from.words.at, like_this = taken == 0 ? 0
            : (size_t)((double)found->count / (double)taken * (double)text->size);
        size_t least = found->room + found->room / 2 + FIRST_ROOM, room = like_this > least ? like_this : least;
        if (!resize(found, room))
            return false;
        int64_t *starts = (int64_t *)PyByteArray_AsString(found->starts),
            *ends = (int64_t *)PyByteArray_AsString(found->ends);
        PyThreadState *unlocked = unlock(text->size);
        is_all = fill(found, &from, text, starts, ends);
        lock_again(unlocked);
    }
    return resize(found, found->count);
}

PyObject *word_columns(PyObject *Py_UNUSED(module), PyObject *given)
{
    PyObject *result = NULL;
    Py_buffer view;
    utf8_text text;
    word_list found = {0};
    PyObject *owner = text_owner(given, &text.in_code_points);
    if (owner == NULL)
        return NULL;
    if (hold_bytes(owner, &text, &view)) {
        found.starts = PyByteArray_FromStringAndSize(NULL, 0);
        found.ends = PyByteArray_FromStringAndSize(NULL, 0);
        if (found.starts != NULL && found.ends != NULL && find(&found, &text))
            result = PyTuple_Pack(2, found.starts, found.ends);
        Py_XDECREF(found.starts);
        Py_XDECREF(found.ends);
        PyBuffer_Release(&view);
    }
    Py_DECREF(owner);
    return result;
}
