/* The calls of lbk.h for the package's Python modules, which check their arguments. */
#include "arguments.h"
#include "break.h"
#include "chunks.h"
#include "columns.h"
#include "found.h"
#include "passages.h"
#include "places.h"
#include "state.h"
#include "stream.h"
#include "words.h"

/* read(table, line_break, east_asian, category, emoji, are_published): fills a writable table from
 * any files, or only from those that Unicode published, and returns (file, line, cause). */
static PyObject *read_files(PyObject *Py_UNUSED(module), PyObject *const *given, Py_ssize_t count)
{
    enum { FILES = 4 };
    Py_buffer table_view, views[FILES];
    utf8_text files[FILES];
    lbk_fault fault;
    int held = 0;
    if (!has_arguments(count, 1 + FILES + 1))
        return NULL;
    lbk_table *table = hold_table(given[0], true, &table_view);
    if (table == NULL)
        return NULL;
    while (held < FILES && hold_bytes(given[1 + held], &files[held], &views[held]))
        held++;
    if (held == FILES) {
        bool are_published = given[1 + FILES] == Py_True;
        PyThreadState *unlocked = PyEval_SaveThread();
        fault = (are_published ? lbk_read_published : lbk_read)(table, files[0].bytes, files[0].size, files[1].bytes,
            files[1].size, files[2].bytes, files[2].size, files[3].bytes, files[3].size);
        PyEval_RestoreThread(unlocked);
    }
    for (int k = 0; k < held; k++)
        PyBuffer_Release(&views[k]);
    PyBuffer_Release(&table_view);
    return held < FILES ? NULL : Py_BuildValue("III", fault.file, fault.line, fault.cause);
}

/* unicode(table): fills a writable table with the built-in properties. */
static PyObject *unicode(PyObject *Py_UNUSED(module), PyObject *memory)
{
    Py_buffer view;
    lbk_table *table = hold_table(memory, true, &view);
    if (table == NULL)
        return NULL;
    lbk_unicode(table);
    PyBuffer_Release(&view);
    return Py_NewRef(Py_None);
}

/* check(table): whether it is intact. */
static PyObject *check(PyObject *Py_UNUSED(module), PyObject *memory)
{
    Py_buffer view;
    const lbk_table *table = hold_table(memory, false, &view);
    if (table == NULL)
        return NULL;
    PyThreadState *unlocked = PyEval_SaveThread();
    bool whole = lbk_check(table);
    PyEval_RestoreThread(unlocked);
    PyBuffer_Release(&view);
    return PyBool_FromLong(whole);
}

/* is_cut(file): whether its first line claims a published name, and its last is not `# EOF`. */
static PyObject *is_cut(PyObject *Py_UNUSED(module), PyObject *file)
{
    Py_buffer view;
    utf8_text bytes;
    if (!hold_bytes(file, &bytes, &view))
        return NULL;
    bool found = lbk_is_cut(bytes.bytes, bytes.size);
    PyBuffer_Release(&view);
    return PyBool_FromLong(found);
}

/* claim_text(file, contents): describes a file that is not the published one; `file` is its number in a fault. */
static PyObject *claim_text(PyObject *Py_UNUSED(module), PyObject *const *given, Py_ssize_t count)
{
    Py_buffer view;
    utf8_text bytes;
    if (!has_arguments(count, 2))
        return NULL;
    unsigned long number = PyLong_AsUnsignedLong(given[0]);
    if (PyErr_Occurred() || !hold_bytes(given[1], &bytes, &view))
        return NULL;
    lbk_text text = lbk_claim_text((uint32_t)number, bytes.bytes, bytes.size);
    PyBuffer_Release(&view);
    return PyUnicode_FromString(text.text);
}

/* remedy_text(): where to get the published files. */
static PyObject *remedy_text(PyObject *Py_UNUSED(module), PyObject *Py_UNUSED(none))
{
    return PyUnicode_FromString(lbk_remedy_text().text);
}

/* label(rule): its name without LB, or an empty str. */
static PyObject *label(PyObject *Py_UNUSED(module), PyObject *rule)
{
    unsigned long number = PyLong_AsUnsignedLong(rule);
    if (PyErr_Occurred())
        return NULL;
    return PyUnicode_FromString(number > UINT8_MAX ? "" : lbk_label((uint8_t)number).text);
}

/* rule_text(rule): what it says, in English, or an empty str. */
static PyObject *rule_text(PyObject *Py_UNUSED(module), PyObject *rule)
{
    unsigned long number = PyLong_AsUnsignedLong(rule);
    if (PyErr_Occurred())
        return NULL;
    return PyUnicode_FromString(number > UINT8_MAX ? "" : lbk_rule_text((uint8_t)number).text);
}

/* pack(table): its packed form, as bytes. */
static PyObject *pack(PyObject *Py_UNUSED(module), PyObject *memory)
{
    Py_buffer view;
    const lbk_table *table = hold_table(memory, false, &view);
    if (table == NULL)
        return NULL;
    size_t size = lbk_pack(table, NULL, 0);
    PyObject *packed = PyBytes_FromStringAndSize(NULL, (Py_ssize_t)size);
    if (packed != NULL)
        lbk_pack(table, PyBytes_AsString(packed), size);
    PyBuffer_Release(&view);
    return packed;
}

/* unpack(table, data): fills a writable table from its packed form, and returns a cause. */
static PyObject *unpack(PyObject *Py_UNUSED(module), PyObject *const *given, Py_ssize_t count)
{
    Py_buffer table_view, view;
    utf8_text packed;
    if (!has_arguments(count, 2))
        return NULL;
    lbk_table *table = hold_table(given[0], true, &table_view);
    if (table == NULL)
        return NULL;
    bool is_held = hold_bytes(given[1], &packed, &view);
    uint32_t cause = LBK_CAUSE_NONE;
    if (is_held) {
        PyThreadState *unlocked = PyEval_SaveThread();
        cause = lbk_unpack(table, packed.bytes, packed.size);
        PyEval_RestoreThread(unlocked);
        PyBuffer_Release(&view);
    }
    PyBuffer_Release(&table_view);
    return is_held ? PyLong_FromUnsignedLong(cause) : NULL;
}

/* cause_text(cause): what it means, in English, or an empty str. */
static PyObject *cause_text(PyObject *Py_UNUSED(module), PyObject *cause)
{
    unsigned long number = PyLong_AsUnsignedLong(cause);
    if (PyErr_Occurred())
        return NULL;
    return PyUnicode_FromString(number > UINT32_MAX ? "" : lbk_cause_text((uint32_t)number).text);
}

/* file_name(file): the name of a file, or an empty str. */
static PyObject *file_name(PyObject *Py_UNUSED(module), PyObject *file)
{
    unsigned long number = PyLong_AsUnsignedLong(file);
    if (PyErr_Occurred())
        return NULL;
    return PyUnicode_FromString(number > UINT32_MAX ? "" : lbk_file_name((uint32_t)number).text);
}

/* class_of(table, scalar): the name of its line breaking class, or an empty str. */
static PyObject *class_of(PyObject *Py_UNUSED(module), PyObject *const *given, Py_ssize_t count)
{
    Py_buffer table_view;
    if (!has_arguments(count, 2))
        return NULL;
    unsigned long scalar = PyLong_AsUnsignedLong(given[1]);
    if (PyErr_Occurred())
        return NULL;
    const lbk_table *table = hold_table(given[0], false, &table_view);
    if (table == NULL)
        return NULL;
    lbk_class_label name = lbk_class(table, scalar > UINT32_MAX ? UINT32_MAX : (uint32_t)scalar);
    PyBuffer_Release(&table_view);
    return PyUnicode_FromString(name.text);
}

/* A call that finds an offset in a text, from `at` on; or none for the last safe break, in a profile. */
typedef struct {
    cut_call *call;
    size_t at;
    uint8_t profile;
} place_asked;

/* The offset that such a call finds, for the arguments (table, text, ..). */
static PyObject *place_by(place_asked asked, PyObject *const *given)
{
    Py_buffer table_view, text_view;
    utf8_text text;
    size_t place = 0;
    bool is_found = false;
    PyObject *owner = text_owner(given[1], &text.in_code_points);
    if (owner == NULL)
        return NULL;
    const lbk_table *table = hold_table(given[0], false, &table_view);
    if (table != NULL) {
        if (hold_bytes(owner, &text, &text_view)) {
            PyThreadState *unlocked = unlock(text.size);
            place = asked.call != NULL ? find_cut(asked.call, table, &text, asked.at) : find_safe_break(table, &text,
                asked.profile);
            lock_again(unlocked);
            PyBuffer_Release(&text_view);
            is_found = true;
        }
        PyBuffer_Release(&table_view);
    }
    Py_DECREF(owner);
    return is_found ? PyLong_FromSize_t(place) : NULL;
}

/* Where a text may be cut, by lbk_cut or lbk_cut_before: (table, text, at). */
static PyObject *cut_by(cut_call *call, PyObject *const *given, Py_ssize_t count)
{
    if (!has_arguments(count, 3))
        return NULL;
    Py_ssize_t at = PyNumber_AsSsize_t(given[2], PyExc_OverflowError);
    if (at < 0)
        return PyErr_Occurred() ? NULL : PyErr_Format(PyExc_ValueError, "an offset must not be negative");
    return place_by((place_asked){.call = call, .at = (size_t)at}, given);
}

/* safe_break(table, text, profile): an offset after which the breaks are those of the text from there on. */
static PyObject *safe_break(PyObject *Py_UNUSED(module), PyObject *const *given, Py_ssize_t count)
{
    cursor start;
    if (!has_arguments(count, 3) || !start_of_text(given[2], &start))
        return NULL;
    return place_by((place_asked){.profile = start.state.profile}, given);
}

/* cut(table, text, at): the first offset at or after it where a part may begin. */
static PyObject *cut(PyObject *Py_UNUSED(module), PyObject *const *given, Py_ssize_t count)
{
    return cut_by(lbk_cut, given, count);
}

/* cut_before(table, text, at): the last such offset at or before it. */
static PyObject *cut_before(PyObject *Py_UNUSED(module), PyObject *const *given, Py_ssize_t count)
{
    return cut_by(lbk_cut_before, given, count);
}

/* name_numbers(kinds, rules): sets the member that a Break has for each number from 0 to 255. */
static PyObject *name_numbers(PyObject *module, PyObject *const *given, Py_ssize_t count)
{
    module_state *state = PyModule_GetState(module);
    if (!has_arguments(count, 2))
        return NULL;
    if (PyTuple_Size(given[0]) != UINT8_MAX + 1 || PyTuple_Size(given[1]) != UINT8_MAX + 1)
        return PyErr_Format(PyExc_ValueError, "256 names are required, one for each number of a byte");
    Py_CLEAR(state->kinds);
    Py_CLEAR(state->rules);
    state->kinds = Py_NewRef(given[0]);
    state->rules = Py_NewRef(given[1]);
    return Py_NewRef(Py_None);
}

static PyMethodDef methods[] = {
    {"unicode", unicode, METH_O, NULL},
    {"read", (PyCFunction)(void (*)(void))read_files, METH_FASTCALL, NULL},
    {"check", check, METH_O, NULL},
    {"is_cut", is_cut, METH_O, NULL},
    {"claim_text", (PyCFunction)(void (*)(void))claim_text, METH_FASTCALL, NULL},
    {"remedy_text", remedy_text, METH_NOARGS, NULL},
    {"label", label, METH_O, NULL},
    {"rule_text", rule_text, METH_O, NULL},
    {"pack", pack, METH_O, NULL},
    {"unpack", (PyCFunction)(void (*)(void))unpack, METH_FASTCALL, NULL},
    {"cause_text", cause_text, METH_O, NULL},
    {"file_name", file_name, METH_O, NULL},
    {"name_numbers", (PyCFunction)(void (*)(void))name_numbers, METH_FASTCALL, NULL},
    {"cut", (PyCFunction)(void (*)(void))cut, METH_FASTCALL, NULL},
    {"cut_before", (PyCFunction)(void (*)(void))cut_before, METH_FASTCALL, NULL},
    {"safe_break", (PyCFunction)(void (*)(void))safe_break, METH_FASTCALL, NULL},
    {"class_of", (PyCFunction)(void (*)(void))class_of, METH_FASTCALL, NULL},
    {"chunk_columns", (PyCFunction)(void (*)(void))chunk_columns, METH_FASTCALL, NULL},
    {"columns", (PyCFunction)(void (*)(void))text_columns, METH_FASTCALL, NULL},
    {"list_columns", (PyCFunction)(void (*)(void))list_columns, METH_FASTCALL, NULL},
    {"passage_columns", (PyCFunction)(void (*)(void))passage_columns, METH_FASTCALL, NULL},
    {"word_columns", word_columns, METH_O, NULL},
    {"new_stream", new_stream, METH_O, NULL},
    {"feed", (PyCFunction)(void (*)(void))feed, METH_FASTCALL, NULL},
    {NULL, NULL, 0, NULL},
};

/* The constants of lbk.h; setup.py takes their names from there. */
static const struct {
    const char *name;
    long value;
} constants[] = {
#include "constants.inc"
};

/* Whether the processor has the instructions that the library uses. Sets an ImportError if not. */
static bool has_processor(void)
{
#if defined(__x86_64__)
    if (!__builtin_cpu_supports("sse4.2") || !__builtin_cpu_supports("popcnt")) {
        PyErr_SetString(PyExc_ImportError, "lbk needs a processor with SSE4.2 (x86-64-v2)");
        return false;
    }
#endif
    return true;
}

static int add_all(PyObject *module)
{
    if (!has_processor())
        return -1;
    module_state *state = PyModule_GetState(module);
    state->break_type = new_break_type(module);
    state->found_type = new_found_type(module);
    bool added = state->break_type != NULL && state->found_type != NULL
        && PyModule_AddObjectRef(module, "Break", state->break_type) == 0
        && PyModule_AddObjectRef(module, "Found", state->found_type) == 0
        && PyModule_AddIntConstant(module, "TABLE_SIZE", (long)sizeof(lbk_table)) == 0
        && PyModule_AddStringConstant(module, "VERSION", lbk_version().text) == 0
        && PyModule_AddStringConstant(module, "UNICODE_VERSION", LBK_UNICODE_VERSION) == 0
        && PyModule_AddStringConstant(module, "WORDS_UNICODE_VERSION", LBK_WORDS_UNICODE_VERSION) == 0;
    for (size_t k = 0; added && k < sizeof constants / sizeof constants[0]; k++)
        added = PyModule_AddIntConstant(module, constants[k].name, constants[k].value) == 0;
    return added ? 0 : -1;
}

static int traverse(PyObject *module, visitproc visit, void *arg)
{
    const module_state *state = PyModule_GetState(module);
    Py_VISIT(state->break_type);
    Py_VISIT(state->found_type);
    Py_VISIT(state->kinds);
    Py_VISIT(state->rules);
    return 0;
}

static int clear(PyObject *module)
{
    module_state *state = PyModule_GetState(module);
    Py_CLEAR(state->break_type);
    Py_CLEAR(state->found_type);
    Py_CLEAR(state->kinds);
    Py_CLEAR(state->rules);
    return 0;
}

static void release(void *module)
{
    clear(module);
}

static PyModuleDef_Slot slots[] = {
    {Py_mod_exec, add_all},
    {0, NULL},
};

static PyModuleDef definition = {
    PyModuleDef_HEAD_INIT,
    .m_name = "lbk._calls",
    .m_size = sizeof(module_state),
    .m_methods = methods,
    .m_slots = slots,
    .m_traverse = traverse,
    .m_clear = clear,
    .m_free = release,
};

PyMODINIT_FUNC PyInit__calls(void)
{
    return PyModuleDef_Init(&definition);
}
