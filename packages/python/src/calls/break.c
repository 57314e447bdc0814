#include "break.h"

#include "state.h"

typedef struct {
    PyObject_HEAD
    lbk_break found;
} break_object;

static lbk_break *found_in(PyObject *self)
{
    return &((break_object *)self)->found;
}

PyObject *new_break(PyTypeObject *type, const lbk_break *one)
{
    if (type == NULL)
        return PyErr_Format(PyExc_RuntimeError, "the module is being unloaded");
    break_object *made = PyObject_New(break_object, type);
    if (made != NULL)
        made->found = *one;
    return (PyObject *)made;
}

static void dealloc(PyObject *self)
{
    PyTypeObject *type = Py_TYPE(self);
    PyObject_Free(self);
    Py_DECREF(type);
}

/* Break(at, kind, rule) */
static PyObject *create(PyTypeObject *type, PyObject *given, PyObject *named)
{
    static char *names[] = {"at", "kind", "rule", NULL};
    Py_ssize_t at;
    lbk_break one = {0};
    if (!PyArg_ParseTupleAndKeywords(given, named, "nbb:Break", names, &at, &one.kind, &one.rule))
        return NULL;
    if (at < 0)
        return PyErr_Format(PyExc_ValueError, "an offset must not be negative");
    one.at = (size_t)at;
    return new_break(type, &one);
}

static PyObject *get_at(PyObject *self, void *Py_UNUSED(closure))
{
    return PyLong_FromSize_t(found_in(self)->at);
}

/* The member for a number; the number itself while the module is being destroyed. */
static PyObject *name_of(PyObject *names, uint8_t number)
{
    return names == NULL ? PyLong_FromLong(number) : Py_XNewRef(PyTuple_GetItem(names, number));
}

static PyObject *get_kind(PyObject *self, void *Py_UNUSED(closure))
{
    const module_state *state = PyType_GetModuleState(Py_TYPE(self));
    return name_of(state->kinds, found_in(self)->kind);
}

static PyObject *get_rule(PyObject *self, void *Py_UNUSED(closure))
{
    const module_state *state = PyType_GetModuleState(Py_TYPE(self));
    return name_of(state->rules, found_in(self)->rule);
}

/* (at, kind, rule) */
static PyObject *fields(PyObject *self)
{
    PyObject *kind = get_kind(self, NULL), *rule = get_rule(self, NULL), *made = NULL;
    if (kind != NULL && rule != NULL)
        made = Py_BuildValue("nOO", (Py_ssize_t)found_in(self)->at, kind, rule);
    Py_XDECREF(kind);
    Py_XDECREF(rule);
    return made;
}

static PyObject *iterate(PyObject *self)
{
    PyObject *all = fields(self);
    PyObject *made = all == NULL ? NULL : PyObject_GetIter(all);
    Py_XDECREF(all);
    return made;
}

/* The fields by their names. */
static PyObject *as_dict(PyObject *self, PyObject *Py_UNUSED(none))
{
    PyObject *all = fields(self), *made = NULL;
    if (all != NULL)
        made = Py_BuildValue("{sOsOsO}", "at", PyTuple_GetItem(all, 0), "kind", PyTuple_GetItem(all, 1), "rule",
            PyTuple_GetItem(all, 2));
    Py_XDECREF(all);
    return made;
}

static PyObject *reduce(PyObject *self, PyObject *Py_UNUSED(none))
{
    return Py_BuildValue("ON", Py_TYPE(self), fields(self));
}

static PyObject *repr(PyObject *self)
{
    PyObject *kind = get_kind(self, NULL), *rule = get_rule(self, NULL), *made = NULL;
    if (kind != NULL && rule != NULL)
        made = PyUnicode_FromFormat("Break(at=%zu, kind=%R, rule=%R)", found_in(self)->at, kind, rule);
    Py_XDECREF(kind);
    Py_XDECREF(rule);
    return made;
}

static Py_ssize_t length(PyObject *Py_UNUSED(self))
{
    return 3;
}

static PyObject *item(PyObject *self, Py_ssize_t index)
{
    PyObject *all = fields(self);
    PyObject *one = all == NULL ? NULL : Py_XNewRef(PyTuple_GetItem(all, index));
    Py_XDECREF(all);
    return one;
}

/* Negative, 0 or positive: by offset, then by kind, then by rule. */
static int order(const lbk_break *one, const lbk_break *two)
{
    if (one->at != two->at)
        return one->at < two->at ? -1 : 1;
    return one->kind != two->kind ? one->kind - two->kind : one->rule - two->rule;
}

static PyObject *compare(PyObject *self, PyObject *other, int operation)
{
    if (Py_TYPE(self) != Py_TYPE(other))
        return Py_NewRef(Py_NotImplemented);
    Py_RETURN_RICHCOMPARE(order(found_in(self), found_in(other)), 0, operation);
}

static Py_hash_t hash(PyObject *self)
{
    PyObject *all = fields(self);
    Py_hash_t made = all == NULL ? -1 : PyObject_Hash(all);
    Py_XDECREF(all);
    return made;
}

static PyGetSetDef properties[] = {
    {"at", get_at, NULL, "How many code points of a str stand before it; of an object of bytes, how many bytes.", NULL},
    {"kind", get_kind, NULL, "Whether a line may or must end here.", NULL},
    {"rule", get_rule, NULL, "The rule of UAX #14 that decided.", NULL},
    {NULL, NULL, NULL, NULL, NULL},
};

static PyMethodDef methods[] = {
    {"__reduce__", reduce, METH_NOARGS, NULL},
    {"_asdict", as_dict, METH_NOARGS, "Returns a dict of the fields, as a named tuple does."},
    {NULL, NULL, 0, NULL},
};

static const char documentation[] =
    "Break(at, kind, rule)\n--\n\nA place of a text where a line may or must end. It can be unpacked, indexed, sorted and pickled, but is no tuple.";

static PyType_Slot slots[] = {
    {Py_tp_new, create},          {Py_tp_dealloc, dealloc}, {Py_tp_repr, repr},
    {Py_tp_richcompare, compare}, {Py_tp_hash, hash},       {Py_tp_iter, iterate},
    {Py_tp_getset, properties},   {Py_tp_methods, methods}, {Py_tp_doc, (void *)documentation},
    {Py_sq_length, length},       {Py_sq_item, item},       {0, NULL},
};

static PyType_Spec spec = {
    .name = "lbk.Break",
    .basicsize = sizeof(break_object),
    .flags = Py_TPFLAGS_DEFAULT,
    .slots = slots,
};

PyObject *new_break_type(PyObject *module)
{
    PyObject *type = PyType_FromModuleAndSpec(module, &spec, NULL);
    PyObject *names = Py_BuildValue("(sss)", "at", "kind", "rule");
    if (type != NULL && (names == NULL || PyObject_SetAttrString(type, "__match_args__", names) != 0))
        Py_CLEAR(type);
    Py_XDECREF(names);
    return type;
}
