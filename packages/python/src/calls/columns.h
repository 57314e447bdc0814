/* All breaks of one text, or of many, as columns. */
#ifndef LBK_PYTHON_COLUMNS_H
#define LBK_PYTHON_COLUMNS_H

#include "arguments.h"

/* columns(table, text, profile, goes_on, before): bytearrays of offsets (8 bytes each), of kinds and of rules. `before`
 * is added to each offset. */
PyObject *text_columns(PyObject *module, PyObject *const *given, Py_ssize_t count);

/* list_columns(table, texts, profile): a bytearray of the texts' offsets in the columns (8 bytes each), and the
 * columns. */
PyObject *list_columns(PyObject *module, PyObject *const *given, Py_ssize_t count);

#endif
