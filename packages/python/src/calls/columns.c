#include "columns.h"

#include "places.h"

#include <stddef.h>
#include <sys/mman.h>
#if defined(__SSE2__)
#include <emmintrin.h>
#endif

/* How many breaks a call fetches: FEW on the stack, or else MANY. A column of LARGE bytes or more
 * is worth large pages. */
enum { FEW = 128, MANY = 8192, LARGE = 1 << 21, PAGE = 1 << 12 };

/* The breaks of all texts: a column of offsets, one of kinds and one of rules, each a bytearray. */
typedef struct {
    PyObject *places, *kinds, *rules;
    size_t count, room;
} columns;

/* Texts to break, and the progress so far. `offsets[k]` is the number of breaks in the texts before
 * the k-th. `before` is added to each offset. */
typedef struct {
    const lbk_table *table;
    const utf8_text *texts;
    size_t count, current;
    cursor start, from;
    int64_t *offsets, before;
    lbk_break *block;
    size_t room;
    columns found;
} request;

/* Makes room in the columns for so many breaks. Returns false, with an exception set, if an
 * allocation fails. */
static bool resize(columns *found, size_t room)
{
    found->room = room;
    return PyByteArray_Resize(found->places, (Py_ssize_t)(room * sizeof(int64_t))) == 0
        && PyByteArray_Resize(found->kinds, (Py_ssize_t)room) == 0
        && PyByteArray_Resize(found->rules, (Py_ssize_t)room) == 0;
}

/* An uninitialized bytearray. For a large one it asks the system for large pages: getting small
 * ones, one by one, takes a fifth of the whole call. */
static PyObject *new_column(size_t size)
{
    PyObject *made = PyByteArray_FromStringAndSize(NULL, (Py_ssize_t)size);
    if (made != NULL && size >= LARGE) {
        char *memory = PyByteArray_AsString(made);
        size_t before = -(uintptr_t)memory % PAGE;
        madvise(memory + before, (size - before) / PAGE * PAGE, MADV_HUGEPAGE);
    }
    return made;
}

static bool create(columns *found, size_t room)
{
    found->count = 0;
    found->room = room;
    found->places = new_column(room * sizeof(int64_t));
    found->kinds = new_column(room);
    found->rules = new_column(room);
    return found->places != NULL && found->kinds != NULL && found->rules != NULL;
}

static void release(columns *found)
{
    Py_XDECREF(found->places);
    Py_XDECREF(found->kinds);
    Py_XDECREF(found->rules);
}

enum { TOGETHER = 8 };

/* Splits so many breaks into columns, and adds `before` to the offsets. */
static void split_some(const lbk_break *block, int64_t before, int64_t *places, uint8_t *kinds, uint8_t *rules)
{
#if defined(__SSE2__)
    _Static_assert(offsetof(lbk_break, kind) == 8 && offsetof(lbk_break, rule) == 9,
        "kind and rule stand after the place");
    __m128i codes[TOGETHER / 2], moved = _mm_set1_epi64x(before);
    for (size_t k = 0; k < TOGETHER / 2; k++) {
        __m128i one = _mm_loadu_si128((const __m128i *)&block[2 * k]),
        two = _mm_loadu_si128((const __m128i *)&block[2 * k + 1]);
        _mm_storeu_si128((__m128i *)&places[2 * k], _mm_add_epi64(_mm_unpacklo_epi64(one, two), moved));
        codes[k] = _mm_unpackhi_epi16(one, two);
    }
    /* A 16-bit number for each: its kind and its rule. */
    __m128i front = _mm_unpacklo_epi32(codes[0], codes[1]), back = _mm_unpacklo_epi32(codes[2], codes[3]);
    __m128i all = _mm_unpacklo_epi64(front, back), none = _mm_setzero_si128();
    _mm_storel_epi64((__m128i *)kinds, _mm_packus_epi16(_mm_and_si128(all, _mm_set1_epi16(0xff)), none));
    _mm_storel_epi64((__m128i *)rules, _mm_packus_epi16(_mm_srli_epi16(all, 8), none));
#else
    for (size_t k = 0; k < TOGETHER; k++) {
        places[k] = before + (int64_t)block[k].at;
        kinds[k] = block[k].kind;
        rules[k] = block[k].rule;
    }
#endif
}

static void split(const lbk_break *restrict block, size_t count, int64_t before, int64_t *restrict places,
                  uint8_t *restrict kinds, uint8_t *restrict rules)
{
    size_t k = 0;
    for (; k + TOGETHER <= count; k += TOGETHER)
        split_some(block + k, before, places + k, kinds + k, rules + k);
    for (; k < count; k++) {
        places[k] = before + (int64_t)block[k].at;
        kinds[k] = block[k].kind;
        rules[k] = block[k].rule;
    }
}

/* Writes breaks to the columns until these are full or no text is left. Returns whether no text is
 * left. Called without the interpreter's lock: it touches only the memory of the columns. */
static bool fill(request *request, int64_t *places, uint8_t *kinds, uint8_t *rules)
{
    columns *found = &request->found;
    while (request->current < request->count) {
        size_t left = found->room - found->count, room = left < request->room ? left : request->room;
        if (room == 0)
            return false;
        const utf8_text *text = &request->texts[request->current];
        size_t count = next_breaks(lbk_breaks, request->table, &request->from, text, request->block, room);
        split(request->block, count, request->before, places + found->count, kinds + found->count,
            rules + found->count);
        found->count += count;
        if (count < room) {
            request->from = request->start;
            request->offsets[++request->current] = (int64_t)found->count;
        }
    }
    return true;
}

/* Finds the breaks of all texts, which have so many bytes. Returns false, with an exception set, if
 * an allocation fails. */
static bool find(request *request, size_t bytes)
{
    columns *found = &request->found;
    request->from = request->start;
    request->offsets[0] = 0;
    for (;;) {
        int64_t *places = (int64_t *)PyByteArray_AsString(found->places);
        uint8_t *kinds = (uint8_t *)PyByteArray_AsString(found->kinds);
        uint8_t *rules = (uint8_t *)PyByteArray_AsString(found->rules);
        PyThreadState *unlocked = unlock(bytes);
        bool all = fill(request, places, kinds, rules);
        lock_again(unlocked);
        if (!resize(found, all ? found->count : 2 * found->room))
            return false;
        if (all)
            return true;
    }
}

static bool find_all(request *request)
{
    lbk_break few[FEW];
    size_t bytes = 0;
    for (size_t k = 0; k < request->count; k++)
        bytes += request->texts[k].size;
    /* Most texts have at most one break per three bytes. Unused memory is freed. */
    if (!create(&request->found, bytes / 3 + request->count + 16))
        return false;
    request->room = request->found.room <= FEW ? FEW : MANY;
    request->block = request->room == FEW ? few : PyMem_Malloc(MANY * sizeof(lbk_break));
    if (request->block == NULL) {
        PyErr_NoMemory();
        return false;
    }
    bool is_found = find(request, bytes);
    if (request->block != few)
        PyMem_Free(request->block);
    return is_found;
}

/* Checks an offset to which the size of any text can be added. Returns false, with an exception set,
 * for anything else. */
static bool place_before(PyObject *given, int64_t *before)
{
    *before = PyNumber_AsSsize_t(given, PyExc_OverflowError);
    if (*before >= 0 && *before <= INT64_MAX / 2)
        return true;
    if (!PyErr_Occurred())
        PyErr_Format(PyExc_ValueError, "an offset must be from 0 to 2**62 - 1, not %R", given);
    return false;
}

PyObject *text_columns(PyObject *Py_UNUSED(module), PyObject *const *given, Py_ssize_t count)
{
    PyObject *result = NULL;
    Py_buffer table_view, text_view;
    utf8_text text;
    int64_t offsets[2];
    request request = {.texts = &text, .count = 1, .offsets = offsets};
    if (!has_arguments(count, 5) || !start_of_text(given[2], &request.start))
        return NULL;
    int goes_on = PyObject_IsTrue(given[3]);
    if (goes_on < 0 || !place_before(given[4], &request.before))
        return NULL;
    request.start.state.profile += goes_on ? LBK_GOES_ON : 0;
    PyObject *owner = text_owner(given[1], &text.in_code_points);
    if (owner == NULL)
        return NULL;
    request.table = hold_table(given[0], false, &table_view);
    if (request.table != NULL) {
        if (hold_bytes(owner, &text, &text_view)) {
            columns *found = &request.found;
            if (find_all(&request))
                result = PyTuple_Pack(3, found->places, found->kinds, found->rules);
            release(found);
            PyBuffer_Release(&text_view);
        }
        PyBuffer_Release(&table_view);
    }
    Py_DECREF(owner);
    return result;
}

/* Puts the number of a row in front of the message of a TypeError. */
static void name_row(Py_ssize_t row)
{
    PyObject *type, *value, *trace;
    if (!PyErr_ExceptionMatches(PyExc_TypeError))
        return;
    PyErr_Fetch(&type, &value, &trace);
    PyErr_Format(PyExc_TypeError, "row %zd: %S", row, value);
    Py_XDECREF(type);
    Py_XDECREF(value);
    Py_XDECREF(trace);
}

/* Replaces each object of a list by one that has its text: a str or a bytes object. Returns false,
 * with an exception set, if one is not a text. */
static bool own_all(PyObject *list, utf8_text *texts)
{
    for (Py_ssize_t k = 0; k < PyList_Size(list); k++) {
        Py_buffer view;
        PyObject *owner = text_owner(PyList_GetItem(list, k), &texts[k].in_code_points);
        if (owner == NULL)
            name_row(k);
        if (owner != NULL && !PyUnicode_Check(owner) && !PyBytes_Check(owner)) {
            PyObject *copy = PyBytes_FromObject(owner);
            Py_DECREF(owner);
            owner = copy;
        }
        if (owner == NULL || PyList_SetItem(list, k, owner) != 0 || !hold_bytes(owner, &texts[k], &view))
            return false;
        /* These objects never change, so their bytes stay where they are as long as the list has
         * them. */
        PyBuffer_Release(&view);
    }
    return true;
}

PyObject *list_columns(PyObject *Py_UNUSED(module), PyObject *const *given, Py_ssize_t count)
{
    PyObject *result = NULL, *offsets = NULL;
    utf8_text *texts = NULL;
    Py_buffer table_view;
    request request = {0};
    if (!has_arguments(count, 3) || !start_of_text(given[2], &request.start))
        return NULL;
    /* A new list, which no other thread can reach. */
    PyObject *list = PySequence_List(given[1]);
    if (list == NULL)
        return NULL;
    request.table = hold_table(given[0], false, &table_view);
    if (request.table != NULL) {
        request.count = (size_t)PyList_Size(list);
        texts = PyMem_Malloc((request.count + 1) * sizeof(utf8_text));
        offsets = PyByteArray_FromStringAndSize(NULL, (Py_ssize_t)((request.count + 1) * sizeof(int64_t)));
        if (texts == NULL)
            PyErr_NoMemory();
        else if (offsets != NULL && own_all(list, texts)) {
            columns *found = &request.found;
            request.texts = texts;
            request.offsets = (int64_t *)PyByteArray_AsString(offsets);
            if (find_all(&request))
                result = PyTuple_Pack(4, offsets, found->places, found->kinds, found->rules);
            release(found);
        }
        PyBuffer_Release(&table_view);
    }
    Py_XDECREF(offsets);
    PyMem_Free(texts);
    Py_DECREF(list);
    return result;
}
