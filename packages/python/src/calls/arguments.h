/* The arguments of calls: texts and tables, as pointers and sizes. */
#ifndef LBK_PYTHON_ARGUMENTS_H
#define LBK_PYTHON_ARGUMENTS_H

#define PY_SSIZE_T_CLEAN
#include <Python.h>

#include <lbk.h>
#include <stdbool.h>

/* A text in UTF-8, and whether its offsets count code points instead of bytes. */
typedef struct {
    const char *bytes;
    size_t size;
    bool in_code_points;
} utf8_text;

/* Sets a TypeError, and returns false, if a call did not get `wanted` arguments. */
bool has_arguments(Py_ssize_t given, Py_ssize_t wanted);

/* A new reference to an immutable object with the text in UTF-8: an ASCII str, a bytes object, or
 * another read-only one; the given object if it is one of these. Each surrogate of a str becomes
 * U+FFFD. Returns NULL, with a TypeError set, if the object is neither a str nor bytes. */
PyObject *text_owner(PyObject *given, bool *in_code_points);

/* The bytes of such an object, until PyBuffer_Release(view). Returns false, with an exception set,
 * on error. */
bool hold_bytes(PyObject *owner, utf8_text *text, Py_buffer *view);

/* The table in an object's memory, until PyBuffer_Release(view). Returns NULL, with an exception
 * set, if its size or alignment is not that of a table. */
lbk_table *hold_table(PyObject *memory, bool to_write, Py_buffer *view);

/* Releases the interpreter's lock if that pays off for so many bytes. Pass the result to
 * `lock_again`. */
PyThreadState *unlock(size_t bytes);
void lock_again(PyThreadState *unlocked);

#endif
