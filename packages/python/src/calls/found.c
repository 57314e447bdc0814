#include "found.h"

#include "break.h"
#include "places.h"
#include "state.h"

#include <string.h>

/* The message for all but one of the threads that use an iterator at the same time. */
#define SHARED "another thread is using this iterator; give each thread its own"

/* What an iterator returns. The Python modules use these numbers by their names. */
enum { BREAKS, SEGMENTS, POSITIONS, WORDS, WORD_RANGES };

/* The size of the first block, by what each next one grows, and the largest. So a short text costs
 * little, the first results of a long one come soon, and threads seldom wait for the interpreter's
 * lock. */
enum { FIRST_ROOM = 16, GROWTH = 16, MOST_ROOM = 16 * 16 * 16 * 16 };

/* Both have 16 bytes, so that an array of these is an array of either. */
typedef union {
    lbk_break a_break;
    lbk_word word;
} item;

/* `table` may be None for words. Segments and words are slices of `source`. */
typedef struct {
    PyObject_HEAD
    PyObject *table, *text, *source, *break_type;
    long what;
    bool in_code_points, is_busy, is_last;
    cursor from;
    size_t start; /* where the next segment starts */
    item first[FIRST_ROOM], *block;
    size_t room, count, next;
} found;

static int traverse(PyObject *self, visitproc visit, void *arg)
{
    found *at = (found *)self;
    Py_VISIT(Py_TYPE(self));
    Py_VISIT(at->table);
    Py_VISIT(at->text);
    Py_VISIT(at->source);
    Py_VISIT(at->break_type);
    return 0;
}

static int clear(PyObject *self)
{
    found *at = (found *)self;
    Py_CLEAR(at->table);
    Py_CLEAR(at->text);
    Py_CLEAR(at->source);
    Py_CLEAR(at->break_type);
    return 0;
}

static void dealloc(PyObject *self)
{
    found *at = (found *)self;
    PyTypeObject *type = Py_TYPE(self);
    PyObject_GC_UnTrack(self);
    clear(self);
    if (at->block != at->first)
        PyMem_Free(at->block);
    ((freefunc)PyType_GetSlot(type, Py_tp_free))(self);
    Py_DECREF(type);
}

/* Enlarges the block, up to the largest. Returns false, with an exception set, if an
 * allocation fails. */
static bool grow(found *at)
{
    if (at->block == NULL) {
        at->block = at->first;
        at->room = FIRST_ROOM;
    } else if (at->room < MOST_ROOM) {
        size_t room = GROWTH * at->room;
        item *block = PyMem_Realloc(at->block == at->first ? NULL : at->block, room * sizeof(item));
        if (block == NULL) {
            PyErr_NoMemory();
            return false;
        }
        at->block = block;
        at->room = room;
    }
    return true;
}

/* Fetches the next ones, of a text that is held. Returns false, with an exception set, if the table
 * is not one. */
static bool ask(found *at, const utf8_text *text)
{
    Py_buffer table_view = {0};
    const lbk_table *table = NULL;
    size_t passed = at->what < WORDS ? at->from.state.at : at->from.words.at;
    size_t left = text->size < passed ? 0 : text->size - passed;
    if (at->what < WORDS && (table = hold_table(at->table, false, &table_view)) == NULL)
        return false;
    at->is_busy = true;
    PyThreadState *unlocked = unlock(left);
    if (table != NULL)
        at->count = next_breaks(at->what == POSITIONS ? lbk_positions : lbk_breaks, table, &at->from, text,
            &at->block->a_break, at->room);
    else
        at->count = next_words(&at->from, text, &at->block->word, at->room);
    lock_again(unlocked);
    at->is_busy = false;
    at->next = 0;
    at->is_last = at->count < at->room;
    PyBuffer_Release(&table_view);
    return true;
}

/* Fills the block. Returns false, with an exception set, on error. */
static bool refill(found *at)
{
    utf8_text text = {.in_code_points = at->in_code_points};
    Py_buffer view;
    if (!grow(at) || !hold_bytes(at->text, &text, &view))
        return false;
    bool is_filled = ask(at, &text);
    PyBuffer_Release(&view);
    return is_filled;
}

static PyObject *slice(PyObject *source, size_t start, size_t end)
{
    utf8_text text;
    Py_buffer view;
    if (PyUnicode_Check(source))
        return PyUnicode_Substring(source, (Py_ssize_t)start, (Py_ssize_t)end);
    if (!hold_bytes(source, &text, &view))
        return NULL;
    /* A mapped file may have become shorter. */
    end = end < text.size ? end : text.size;
    start = start < end ? start : end;
    PyObject *made = PyBytes_FromStringAndSize(text.bytes + start, (Py_ssize_t)(end - start));
    PyBuffer_Release(&view);
    return made;
}

static PyObject *next(PyObject *self)
{
    found *at = (found *)self;
    if (at->is_busy)
        return PyErr_Format(PyExc_ValueError, SHARED);
    if (at->next == at->count && (at->is_last || !refill(at) || at->count == 0))
        return NULL;
    const item *one = &at->block[at->next++];
    size_t start = at->start;
    switch (at->what) {
    case BREAKS:
    case POSITIONS:
        return new_break((PyTypeObject *)at->break_type, &one->a_break);
    case SEGMENTS:
        at->start = one->a_break.at;
        return slice(at->source, start, at->start);
    case WORDS:
        return slice(at->source, one->word.start, one->word.end);
    default:
        return Py_BuildValue("nn", (Py_ssize_t)one->word.start, (Py_ssize_t)one->word.end);
    }
}

static found *new_found(PyTypeObject *type)
{
    allocfunc alloc = (allocfunc)PyType_GetSlot(type, Py_tp_alloc);
    return (found *)alloc(type, 0);
}

/* of(table, text, profile, what) */
static PyObject *of(PyObject *type, PyObject *const *given, Py_ssize_t count)
{
    cursor start;
    if (!has_arguments(count, 4) || !start_of_text(given[2], &start))
        return NULL;
    long what = PyLong_AsLong(given[3]);
    if (what < BREAKS || what > WORD_RANGES)
        return PyErr_Occurred() ? NULL : PyErr_Format(PyExc_ValueError, "there is no text with the number %ld", what);
    found *at = new_found((PyTypeObject *)type);
    if (at == NULL)
        return NULL;
    const module_state *state = PyType_GetModuleState((PyTypeObject *)type);
    at->what = what;
    at->from = start;
    at->break_type = Py_XNewRef(state->break_type);
    at->table = Py_NewRef(given[0]);
    at->text = text_owner(given[1], &at->in_code_points);
    if (at->text == NULL) {
        Py_DECREF(at);
        return NULL;
    }
    at->source = Py_NewRef(PyUnicode_Check(given[1]) ? given[1] : at->text);
    return (PyObject *)at;
}

/* __copy__: an iterator that continues from the same position. */
static PyObject *copy(PyObject *self, PyObject *Py_UNUSED(none))
{
    const found *at = (found *)self;
    if (at->is_busy)
        return PyErr_Format(PyExc_ValueError, SHARED);
    found *made = new_found(Py_TYPE(self));
    if (made == NULL)
        return NULL;
    made->table = Py_XNewRef(at->table);
    made->text = Py_XNewRef(at->text);
    made->source = Py_XNewRef(at->source);
    made->break_type = Py_XNewRef(at->break_type);
    made->what = at->what;
    made->in_code_points = at->in_code_points;
    made->is_last = at->is_last;
    made->from = at->from;
    made->start = at->start;
    if (at->block == NULL)
        return (PyObject *)made;
    made->block = at->block == at->first ? made->first : PyMem_Malloc(at->room * sizeof(item));
    if (made->block == NULL) {
        Py_DECREF(made);
        return PyErr_NoMemory();
    }
    made->room = at->room;
    made->count = at->count - at->next;
    memcpy(made->block, at->block + at->next, made->count * sizeof(item));
    return (PyObject *)made;
}

/* __reduce__: an iterator is pickled as a list of what is left. */
static PyObject *reduce(PyObject *self, PyObject *Py_UNUSED(none))
{
    PyObject *rest = copy(self, NULL);
    PyObject *list = rest == NULL ? NULL : PySequence_List(rest);
    PyObject *iter = list == NULL ? NULL : PyMapping_GetItemString(PyEval_GetBuiltins(), "iter");
    PyObject *made = iter == NULL ? NULL : Py_BuildValue("O(O)", iter, list);
    Py_XDECREF(iter);
    Py_XDECREF(list);
    Py_XDECREF(rest);
    return made;
}

static PyMethodDef methods[] = {
    {"__copy__", copy, METH_NOARGS, NULL},
    {"__reduce__", reduce, METH_NOARGS, NULL},
    {"of", (PyCFunction)(void (*)(void))of, METH_FASTCALL | METH_CLASS, NULL},
    {NULL, NULL, 0, NULL},
};

static PyType_Slot slots[] = {
    {Py_tp_traverse, traverse}, {Py_tp_clear, clear},     {Py_tp_dealloc, dealloc}, {Py_tp_iter, PyObject_SelfIter},
    {Py_tp_iternext, next},     {Py_tp_methods, methods}, {0, NULL},
};

static PyType_Spec spec = {
    .name = "lbk._calls.Found",
    .basicsize = sizeof(found),
    .flags = Py_TPFLAGS_DEFAULT | Py_TPFLAGS_HAVE_GC | Py_TPFLAGS_DISALLOW_INSTANTIATION | Py_TPFLAGS_IMMUTABLETYPE,
    .slots = slots,
};

PyObject *new_found_type(PyObject *module)
{
    bool added = PyModule_AddIntConstant(module, "BREAKS", BREAKS) == 0
        && PyModule_AddIntConstant(module, "SEGMENTS", SEGMENTS) == 0
        && PyModule_AddIntConstant(module, "POSITIONS", POSITIONS) == 0
        && PyModule_AddIntConstant(module, "WORDS", WORDS) == 0
        && PyModule_AddIntConstant(module, "WORD_RANGES", WORD_RANGES) == 0
        && PyModule_AddStringConstant(module, "SHARED", SHARED) == 0;
    return added ? PyType_FromModuleAndSpec(module, &spec, NULL) : NULL;
}
