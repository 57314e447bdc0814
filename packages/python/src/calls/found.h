/* The iterator over the breaks, the segments or the words of a text. */
#ifndef LBK_PYTHON_FOUND_H
#define LBK_PYTHON_FOUND_H

#include "arguments.h"

/* A new type `Found`. Returns NULL, with an exception set, on error. */
PyObject *new_found_type(PyObject *module);

#endif
