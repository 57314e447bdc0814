#include "arguments.h"

/* Texts of up to this many bytes keep the interpreter's lock: releasing it and waiting for it again
 * would cost more. */
enum { LOCKED_BYTES = 4096 };

bool has_arguments(Py_ssize_t given, Py_ssize_t wanted)
{
    if (given == wanted)
        return true;
    PyErr_Format(PyExc_TypeError, "expected %zd arguments, not %zd", wanted, given);
    return false;
}

/* Overwrites the surrogates in the bytes of an encoded str (ED, A0 to BF, and a third byte) with
 * U+FFFD. */
static void replace_surrogates(char *bytes, Py_ssize_t size)
{
    for (Py_ssize_t at = 0; at + 2 < size; at++)
        if ((unsigned char)bytes[at] == 0xed && (unsigned char)bytes[at + 1] >= 0xa0) {
            bytes[at] = (char)0xef;
            bytes[at + 1] = (char)0xbf;
            bytes[at + 2] = (char)0xbd;
        }
}

static PyObject *encoded(PyObject *text)
{
    PyObject *bytes = PyUnicode_AsUTF8String(text);
    if (bytes != NULL || !PyErr_ExceptionMatches(PyExc_UnicodeEncodeError))
        return bytes;
    PyErr_Clear();
    bytes = PyUnicode_AsEncodedString(text, "utf-8", "surrogatepass");
    if (bytes != NULL)
        replace_surrogates(PyBytes_AsString(bytes), PyBytes_Size(bytes));
    return bytes;
}

/* A long ASCII str is its own UTF-8, and is not copied. */
static bool is_long_ascii(PyObject *text)
{
    if (PyUnicode_GetLength(text) <= LOCKED_BYTES)
        return false;
    PyObject *is_ascii = PyObject_CallMethod(text, "isascii", NULL);
    Py_XDECREF(is_ascii);
    if (is_ascii == NULL)
        PyErr_Clear();
    return is_ascii == Py_True;
}

static PyObject *str_owner(PyObject *text, bool *in_code_points)
{
    if (is_long_ascii(text))
        return Py_NewRef(text);
    PyObject *bytes = encoded(text);
    if (bytes != NULL)
        *in_code_points = PyBytes_Size(bytes) != PyUnicode_GetLength(text);
    return bytes;
}

static PyObject *refuse(PyObject *given)
{
    PyObject *name = PyType_GetName(Py_TYPE(given));
    if (name != NULL)
        PyErr_Format(PyExc_TypeError, "a str or a bytes-like object is required, not '%U'", name);
    Py_XDECREF(name);
    return NULL;
}

PyObject *text_owner(PyObject *given, bool *in_code_points)
{
    Py_buffer view;
    *in_code_points = false;
    if (PyUnicode_Check(given))
        return str_owner(given, in_code_points);
    if (PyBytes_Check(given))
        return Py_NewRef(given);
    if (!PyObject_CheckBuffer(given))
        return refuse(given);
    if (PyObject_GetBuffer(given, &view, PyBUF_FULL_RO) != 0)
        return NULL;
    PyObject *owner = NULL;
    if (view.itemsize != 1 || view.ndim != 1)
        PyErr_SetString(PyExc_TypeError, "a contiguous object of single bytes is required");
    else
        owner = view.readonly && PyBuffer_IsContiguous(&view, 'C') ? Py_NewRef(given) : PyBytes_FromObject(given);
    PyBuffer_Release(&view);
    return owner;
}

bool hold_bytes(PyObject *owner, utf8_text *text, Py_buffer *view)
{
    Py_ssize_t size = 0;
    view->obj = NULL;
    if (PyUnicode_Check(owner)) {
        text->bytes = PyUnicode_AsUTF8AndSize(owner, &size);
        text->size = (size_t)size;
        return text->bytes != NULL;
    }
    if (PyBytes_Check(owner)) {
        /* The caller has a reference, and bytes objects do not move. */
        text->bytes = PyBytes_AsString(owner);
        text->size = (size_t)PyBytes_Size(owner);
        return true;
    }
    if (PyObject_GetBuffer(owner, view, PyBUF_SIMPLE) != 0)
        return false;
    text->bytes = view->buf;
    text->size = (size_t)view->len;
    return true;
}

lbk_table *hold_table(PyObject *memory, bool to_write, Py_buffer *view)
{
    if (PyObject_GetBuffer(memory, view, to_write ? PyBUF_WRITABLE : PyBUF_SIMPLE) != 0)
        return NULL;
    if (view->len != (Py_ssize_t)sizeof(lbk_table) || (uintptr_t)view->buf % sizeof(uint64_t) != 0) {
        PyBuffer_Release(view);
        PyErr_SetString(PyExc_ValueError, "the memory does not have the size and alignment of a table");
        return NULL;
    }
    return view->buf;
}

PyThreadState *unlock(size_t bytes)
{
    return bytes > LOCKED_BYTES ? PyEval_SaveThread() : NULL;
}

void lock_again(PyThreadState *unlocked)
{
    if (unlocked != NULL)
        PyEval_RestoreThread(unlocked);
}
