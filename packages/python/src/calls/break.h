/* The class Break. */
#ifndef LBK_PYTHON_BREAK_H
#define LBK_PYTHON_BREAK_H

#define PY_SSIZE_T_CLEAN
#include <Python.h>

#include <lbk.h>

/* A new type, or NULL, with an exception set. */
PyObject *new_break_type(PyObject *module);

/* A new object of the type. Returns NULL, with an exception set, if an allocation fails. */
PyObject *new_break(PyTypeObject *type, const lbk_break *one);

#endif
