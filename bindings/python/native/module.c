/* The module: its functions, constants and state. */
#include "native.h"

#include "docs.h"

#define CALL(name, call, doc) {name, (PyCFunction)(void (*)(void))call, METH_FASTCALL | METH_KEYWORDS, doc}
#define PRIVATE(name) {#name, (PyCFunction)(void (*)(void))name, METH_FASTCALL, NULL}

/* The calls that the package exports. */
static PyMethodDef CALLS[] = {
    CALL("parse", parse, PARSE_DOC),
    CALL("explain", explain, EXPLAIN_DOC),
    CALL("parse_unit", parse_unit, PARSE_UNIT_DOC),
    CALL("explain_unit", explain_unit, EXPLAIN_UNIT_DOC),
    CALL("text", text_of, TEXT_DOC),
    CALL("adjusted_text", adjusted_text, ADJUSTED_TEXT_DOC),
    CALL("approximate_text", approximate_text, APPROXIMATE_TEXT_DOC),
    CALL("appropriate_unit", appropriate_unit, APPROPRIATE_UNIT_DOC),
    CALL("exact_unit", exact_unit, EXACT_UNIT_DOC),
    CALL("recoverable_unit", recoverable_unit, RECOVERABLE_UNIT_DOC),
    CALL("from_unit", from_unit, FROM_UNIT_DOC),
    {NULL, NULL, 0, NULL},
};

/* The functions that the Python modules of the package call. */
static PyMethodDef METHODS[] = {
    PRIVATE(hint), PRIVATE(parse_many), PRIVATE(parse_buffers), PRIVATE(ints), PRIVATE(part), PRIVATE(sum),
    PRIVATE(extremum), PRIVATE(first_large), PRIVATE(int64), PRIVATE(float64), PRIVATE(mask),
    {NULL, NULL, 0, NULL},
};

/* Adds an object that was created for it. */
static bool add(PyObject *module, const char *name, PyObject *object)
{
    bool added = object && PyModule_AddObjectRef(module, name, object) == 0;
    Py_XDECREF(object);
    return added;
}

/* Adds the calls as functions of the package, by whose name they are pickled. */
static bool add_calls(PyObject *module)
{
    PyObject *package = PyUnicode_InternFromString("byte_unit");
    bool added = package;
    for (PyMethodDef *method = CALLS; added && method->ml_name; method++) {
        added = add(module, method->ml_name, PyCFunction_NewEx(method, module, package));
    }
    Py_XDECREF(package);
    return added;
}

/* Returns a dictionary of the place of each name. */
static PyObject *codes_by_name(PyObject *names)
{
    PyObject *codes = names ? PyDict_New() : NULL;
    Py_ssize_t count = codes ? PyTuple_Size(names) : 0;
    for (Py_ssize_t i = 0; codes && i < count; i++) {
        PyObject *code = PyLong_FromSsize_t(i);
        if (!code || PyDict_SetItem(codes, PyTuple_GetItem(names, i), code)) {
            Py_CLEAR(codes);
        }
        Py_XDECREF(code);
    }
    return codes;
}

/* Makes the names of the fields, in the order of `enum field`. */
static bool name_fields(state *state)
{
    static const char *const NAMES[FIELDS] = {
        "name", "character", "expected", "also_expect_no_character", "number", "text", "data", "position", "row",
        "_of_unit"};
    bool named = true;
    for (int i = 0; named && i < FIELDS; i++) {
        state->fields[i] = PyUnicode_InternFromString(NAMES[i]);
        named = state->fields[i];
    }
    return named;
}

/* Fills the state, but for what is made at its first use. */
static bool fill_state(state *state)
{
    PyObject *errors = PyImport_ImportModule("byte_unit._errors");
    if (!errors) {
        return false;
    }
    state->byte_unit_error = PyObject_GetAttrString(errors, "ByteUnitError");
    state->size_error = PyObject_GetAttrString(errors, "SizeError");
    Py_DECREF(errors);
    state->codes = code_names();
    state->units = unit_names();
    state->unit_codes = codes_by_name(state->units);
    return state->byte_unit_error && state->size_error && state->codes && state->unit_codes && name_fields(state);
}

/* Fills the module when it is imported. Rejects a library of another version than the header. */
static int fill(PyObject *module)
{
    static const byte_unit_number LIMIT = BYTE_UNIT_SIZE_LIMIT_INIT;
    state *state = state_of(module);
    if (byte_unit_version() != BYTE_UNIT_VERSION) {
        PyErr_Format(PyExc_ImportError, "byte_unit.h has version %s, libbyte_unit.a another: build the package again",
                     BYTE_UNIT_VERSION_STRING);
        return -1;
    }
    bool filled = fill_state(state) && add(module, "VERSION", PyUnicode_FromString(BYTE_UNIT_VERSION_STRING)) &&
                  add(module, "SIZE_LIMIT", from_number(LIMIT)) && add(module, "UNITS", Py_NewRef(state->units)) &&
                  add(module, "CODES", Py_NewRef(state->codes)) && add_calls(module);
    return filled ? 0 : -1;
}

/* The objects of the state: all of its members. */
static PyObject **objects_of(PyObject *module, size_t *count)
{
    *count = sizeof(state) / sizeof(PyObject *);
    return (PyObject **)(void *)state_of(module);
}

/* What the garbage collector calls: it visits all objects of the state, or releases them. */
static int traverse(PyObject *module, visitproc visit, void *arg)
{
    size_t count;
    PyObject **objects = objects_of(module, &count);
    for (size_t i = 0; objects && i < count; i++) {
        Py_VISIT(objects[i]);
    }
    return 0;
}

static int clear(PyObject *module)
{
    size_t count;
    PyObject **objects = objects_of(module, &count);
    for (size_t i = 0; objects && i < count; i++) {
        Py_CLEAR(objects[i]);
    }
    return 0;
}

static void release(void *module)
{
    clear(module);
}

static PyModuleDef_Slot SLOTS[] = {{Py_mod_exec, (void *)fill}, {0, NULL}};

static struct PyModuleDef MODULE = {
    .m_base = PyModuleDef_HEAD_INIT,
    .m_name = "byte_unit._native",
    .m_doc = "The calls of byte_unit.h. Private: use the package byte_unit.",
    .m_size = sizeof(state),
    .m_methods = METHODS,
    .m_slots = SLOTS,
    .m_traverse = traverse,
    .m_clear = clear,
    .m_free = release,
};

PyMODINIT_FUNC PyInit__native(void);

PyMODINIT_FUNC PyInit__native(void)
{
    return PyModuleDef_Init(&MODULE);
}
