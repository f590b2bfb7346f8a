/* The calls that parse or explain one text, and the names of the codes. */
#include "native.h"

/* The names of the codes of texts. */
static const char *const CODES[] = {
    [BYTE_UNIT_OK] = "ok",
    [BYTE_UNIT_NO_VALUE] = "no_value",
    [BYTE_UNIT_NOT_NUMBER] = "not_number",
    [BYTE_UNIT_NUMBER_TOO_LONG] = "number_too_long",
    [BYTE_UNIT_EXCEEDED_BOUNDS] = "exceeded_bounds",
    [BYTE_UNIT_UNIT] = "unit",
    [BYTE_UNIT_NOT_UTF8] = "not_utf8",
    [NULL_TEXT] = "null",
};

PyObject *code_names(void)
{
    const Py_ssize_t count = sizeof CODES / sizeof *CODES;
    PyObject *names = PyTuple_New(count);
    for (Py_ssize_t code = 0; names && code < count; code++) {
        PyObject *name = PyUnicode_InternFromString(CODES[code]);
        if (!name || PyTuple_SetItem(names, code, name)) {
            Py_CLEAR(names);
        }
    }
    return names;
}

#define SIZE_PARAMETERS {"text", "bits", "ignore_case", "binary", "words"}
#define UNIT_PARAMETERS {"text", "bits", "ignore_case"}

/* Reads the arguments but for the text, which it leaves as the object that was passed. */
static bool read_flags(const signature *signature, PyObject *const *args, Py_ssize_t count, PyObject *names,
                           rejection *given)
{
    PyObject *objects[5] = {NULL};
    given->flags = BYTE_UNIT_BYTES;
    given->row = -1;
    if (!place(signature, args, count, names, objects) || (names && !parse_flags(objects + 1, &given->flags))) {
        return false;
    }
    given->object = objects[0];
    return true;
}

/* Reads the arguments. The text has to be released if they are right. */
static bool read_arguments(const signature *signature, PyObject *const *args, Py_ssize_t count, PyObject *names,
                           rejection *given)
{
    return read_flags(signature, args, count, names, given) && to_text(given->object, &given->text);
}

/* Returns the size that is passed as a number in place of a text, or NULL with an exception set. */
static PyObject *parse_number(PyObject *module, PyObject *object)
{
    byte_unit_number size;
    if (PyFloat_Check(object)) {
        PyErr_SetString(PyExc_TypeError, "text must be str, bytes or int, not float, which may be rounded: write a str "
                                         "such as '1.5 GB', or int(x) for a whole number x");
        return NULL;
    }
    if (PyBool_Check(object) || !PyIndex_Check(object)) {
        wrong_type("text", "str, bytes or int", object);
        return NULL;
    }
    return to_size(module, object, &size) ? from_number(size) : NULL;
}

PyObject *parse(PyObject *module, PyObject *const *args, Py_ssize_t count, PyObject *names)
{
    static const signature SIGNATURE = {"parse", 1, 5, SIZE_PARAMETERS};
    rejection given;
    byte_unit_number size;
    if (!read_flags(&SIGNATURE, args, count, names, &given)) {
        return NULL;
    }
    if (!borrow_text(given.object, &given.text)) {
        return PyErr_Occurred() ? NULL : parse_number(module, given.object);
    }
    given.code = byte_unit_parse(given.text.bytes, (size_t)given.text.len, given.flags, &size, &given.error);
    PyObject *result = given.code ? reject(module, &given, byte_unit_explain) : from_number(size);
    release_text(&given.text);
    return result;
}

PyObject *parse_unit(PyObject *module, PyObject *const *args, Py_ssize_t count, PyObject *names)
{
    static const signature SIGNATURE = {"parse_unit", 1, 3, UNIT_PARAMETERS};
    rejection given;
    uint32_t unit;
    if (!read_arguments(&SIGNATURE, args, count, names, &given)) {
        return NULL;
    }
    given.code = byte_unit_parse_unit(given.text.bytes, (size_t)given.text.len, given.flags, &unit, &given.error);
    PyObject *result = given.code ? reject(module, &given, byte_unit_explain_unit)
                                  : Py_XNewRef(PyTuple_GetItem(state_of(module)->units, (Py_ssize_t)unit));
    release_text(&given.text);
    return result;
}

/* Returns the message of the text in the arguments, or None. */
static PyObject *explained(const signature *signature, PyObject *const *args, Py_ssize_t count,
                           PyObject *names, explainer *explain)
{
    rejection given;
    if (!read_arguments(signature, args, count, names, &given)) {
        return NULL;
    }
    PyObject *message = message_of(&given.text, given.flags, explain);
    release_text(&given.text);
    return message;
}

PyObject *explain(PyObject *module, PyObject *const *args, Py_ssize_t count, PyObject *names)
{
    static const signature SIGNATURE = {"explain", 1, 5, SIZE_PARAMETERS};
    (void)module;
    return explained(&SIGNATURE, args, count, names, byte_unit_explain);
}

PyObject *explain_unit(PyObject *module, PyObject *const *args, Py_ssize_t count, PyObject *names)
{
    static const signature SIGNATURE = {"explain_unit", 1, 3, UNIT_PARAMETERS};
    (void)module;
    return explained(&SIGNATURE, args, count, names, byte_unit_explain_unit);
}

/* hint(text) */
PyObject *hint(PyObject *module, PyObject *const *args, Py_ssize_t count)
{
    char out[BYTE_UNIT_HINT_SIZE];
    text text;
    (void)module;
    if (!has_arguments(count, 1) || !to_text(args[0], &text)) {
        return NULL;
    }
    size_t len = byte_unit_hint(text.bytes, (size_t)text.len, out, sizeof out);
    release_text(&text);
    return len ? from_ascii(out, len) : Py_NewRef(Py_None);
}
