/* All words of a text, as columns. */
#ifndef LBK_PYTHON_WORDS_H
#define LBK_PYTHON_WORDS_H

#include "arguments.h"

/* word_columns(text): bytearrays of the starts and of the ends of words (8 bytes each). */
PyObject *word_columns(PyObject *module, PyObject *text);

#endif
