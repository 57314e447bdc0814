/* All chunks of a text, as columns. */
#ifndef LBK_PYTHON_CHUNKS_H
#define LBK_PYTHON_CHUNKS_H

#include "arguments.h"

/* chunk_columns(table, text, profile, most, words, least, overlap, in_bytes): bytearrays of starts, of ends
 * and of numbers of words (8 bytes each), of kinds, of rules, and of 1 for each chunk that is alone. The limits count
 * bytes if `in_bytes`, else the text's unit. */
PyObject *chunk_columns(PyObject *module, PyObject *const *given, Py_ssize_t count);

#endif
