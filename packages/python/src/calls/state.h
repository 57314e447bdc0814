/* The state of the module. */
#ifndef LBK_PYTHON_STATE_H
#define LBK_PYTHON_STATE_H

#define PY_SSIZE_T_CLEAN
#include <Python.h>

typedef struct {
    PyObject *break_type, *found_type;
    PyObject *kinds, *rules; /* tuples with the member of each number from 0 to 255 */
} module_state;

#endif
