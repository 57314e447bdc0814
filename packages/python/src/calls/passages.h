/* All passages of a text, with their segments and words, as columns. */
#ifndef LBK_PYTHON_PASSAGES_H
#define LBK_PYTHON_PASSAGES_H

#include "arguments.h"

/* passage_columns(table, text, profile): bytearrays of 8-byte numbers: the index of each passage's first segment, the
 * offsets between segments, the index of each passage's first word, and the starts and the ends of words. */
PyObject *passage_columns(PyObject *module, PyObject *const *given, Py_ssize_t count);

#endif
