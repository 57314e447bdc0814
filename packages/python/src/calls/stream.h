/* Texts that arrive in pieces. */
#ifndef LBK_PYTHON_STREAM_H
#define LBK_PYTHON_STREAM_H

#include "arguments.h"

/* new_stream(profile): a bytearray with the start of a stream. */
PyObject *new_stream(PyObject *module, PyObject *profile);

/* feed(table, stream, piece, is_last): a list of the breaks that the piece settles. */
PyObject *feed(PyObject *module, PyObject *const *given, Py_ssize_t count);

#endif
