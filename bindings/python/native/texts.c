/* Texts that are parsed, and the error of one that is rejected. */
#include "native.h"

#include <math.h>

/* Encodes a string with lone surrogates, which UTF-8 has no bytes for, so that the library rejects them. */
static bool encode_surrogates(PyObject *string, text *text)
{
    if (!PyErr_ExceptionMatches(PyExc_UnicodeEncodeError)) {
        return false;
    }
    PyErr_Clear();
    text->owner = PyUnicode_AsEncodedString(string, "utf-8", "surrogatepass");
    return text->owner && !PyBytes_AsStringAndSize(text->owner, &text->bytes, &text->len);
}

bool borrow_text(PyObject *object, text *text)
{
    text->owner = NULL;
    if (PyUnicode_Check(object)) {
        text->bytes = (char *)PyUnicode_AsUTF8AndSize(object, &text->len);
        return text->bytes || encode_surrogates(object, text);
    }
    return PyBytes_Check(object) && !PyBytes_AsStringAndSize(object, &text->bytes, &text->len);
}

bool to_text(PyObject *object, text *text)
{
    return borrow_text(object, text) || (!PyErr_Occurred() && wrong_type("text", "str or bytes", object));
}

void release_text(text *text)
{
    Py_CLEAR(text->owner);
}

/* Keeps NA and NaT of pandas, if pandas is imported, and returns whether it is. */
static bool find_missing(state *state)
{
    static const char *const NAMES[] = {"NA", "NaT"};
    PyObject *name = PyUnicode_FromString("pandas");
    PyObject *pandas = name ? PyImport_GetModule(name) : NULL;
    bool found = pandas;
    for (int i = 1; found && i >= 0; i--) { /* NA last: if it is kept, both are */
        Py_CLEAR(state->missing[i]);
        state->missing[i] = PyObject_GetAttrString(pandas, NAMES[i]);
        found = state->missing[i];
    }
    Py_XDECREF(name);
    Py_XDECREF(pandas);
    if (PyErr_Occurred() && !PyErr_ExceptionMatches(PyExc_MemoryError)) {
        PyErr_Clear();
    }
    return found;
}

bool is_null(PyObject *module, PyObject *object)
{
    state *state = state_of(module);
    if (object == Py_None || (PyFloat_Check(object) && isnan(PyFloat_AsDouble(object)))) {
        return true;
    }
    return (state->missing[0] || find_missing(state)) && (object == state->missing[0] || object == state->missing[1]);
}

PyObject *message_of(const text *text, uint32_t flags, explainer *explain)
{
    char out[BYTE_UNIT_BUFFER_SIZE];
    size_t len = explain(text->bytes, (size_t)text->len, flags, out, sizeof out);
    if (len > sizeof out) {
        PyErr_SetString(PyExc_SystemError, "a message is longer than BYTE_UNIT_BUFFER_SIZE");
        return NULL;
    }
    return len ? PyUnicode_DecodeUTF8(out, (Py_ssize_t)len, "replace") : Py_NewRef(Py_None);
}

/* Returns the index of the wrong character of a str, or byte of a bytes object, or None if the error has none. */
static PyObject *position_of(const rejection *rejection)
{
    uint32_t code = rejection->code;
    if (code == BYTE_UNIT_OK || code == BYTE_UNIT_EXCEEDED_BOUNDS || code == BYTE_UNIT_NOT_UTF8) {
        return Py_NewRef(Py_None);
    }
    size_t place = rejection->error.position, skipped = 0;
    for (size_t i = 0; i < place && PyUnicode_Check(rejection->object); i++) {
        skipped += (rejection->text.bytes[i] & 0xC0) == 0x80; /* a byte after the first of a character */
    }
    return PyLong_FromSize_t(place - skipped);
}

/* Fills the values of the fields. One that the code does not use is None, an empty str or False. */
static bool fill(PyObject *module, const rejection *rejection, bool of_unit, PyObject **values)
{
    const byte_unit_error *error = &rejection->error;
    const text *text = &rejection->text;
    PyObject *object = rejection->object;
    uint32_t code = rejection->code;
    bool is_bytes = PyBytes_Check(object);
    bool in_unit = code == BYTE_UNIT_UNIT, at_character = in_unit || code == BYTE_UNIT_NOT_NUMBER;
    bool is_above = code == BYTE_UNIT_EXCEEDED_BOUNDS, has_row = rejection->row >= 0, filled = true;
    values[NAME] = Py_XNewRef(PyTuple_GetItem(state_of(module)->codes, (Py_ssize_t)code));
    values[CHARACTER] = at_character ? PyUnicode_FromOrdinal((int)error->character) : Py_NewRef(Py_None);
    values[EXPECTED] = PyUnicode_FromString(in_unit ? error->expected : "");
    values[ALSO_EXPECT_NO_CHARACTER] = PyBool_FromLong(in_unit && error->also_expect_no_character);
    values[NUMBER] = is_above ? from_decimal(module, error->number) : Py_NewRef(Py_None);
    values[TEXT] = is_bytes ? PyUnicode_DecodeUTF8(text->bytes, text->len, "surrogateescape") : Py_NewRef(object);
    values[DATA] = Py_NewRef(is_bytes ? object : Py_None);
    values[POSITION] = position_of(rejection);
    values[ROW] = has_row ? PyLong_FromSsize_t(rejection->row) : Py_NewRef(Py_None);
    values[OF_UNIT] = Py_NewRef(of_unit ? Py_True : Py_None);
    for (int i = 0; i < FIELDS; i++) {
        filled = filled && values[i];
    }
    return filled;
}

/* Returns the fields that are not None, but for the name, as a dictionary: one of at most five is not resized. */
static PyObject *fields_of(state *state, PyObject *const *values)
{
    PyObject *fields = PyDict_New();
    for (int i = NAME + 1; fields && i < FIELDS; i++) {
        if (values[i] != Py_None && PyDict_SetItem(fields, state->fields[i], values[i])) {
            Py_CLEAR(fields);
        }
    }
    return fields;
}

/* Returns a SizeError with the fields. Makes it as its class does, but without the call of `__init__`. */
static PyObject *size_error(state *state, PyObject *message, PyObject *const *values)
{
    newfunc make = (newfunc)PyType_GetSlot((PyTypeObject *)PyExc_BaseException, Py_tp_new);
    PyObject *args = PyTuple_Pack(6, message, values[NAME], values[CHARACTER], values[EXPECTED],
                                  values[ALSO_EXPECT_NO_CHARACTER], values[NUMBER]);
    PyObject *error = args ? make((PyTypeObject *)state->size_error, args, NULL) : NULL;
    PyObject *fields = error ? fields_of(state, values) : NULL;
    if (!fields || PyObject_GenericSetDict(error, fields, NULL)) {
        Py_CLEAR(error);
    }
    Py_XDECREF(args);
    Py_XDECREF(fields);
    return error;
}

PyObject *reject(PyObject *module, const rejection *rejection, explainer *explain)
{
    state *state = state_of(module);
    PyObject *values[FIELDS] = {NULL};
    PyObject *message = message_of(&rejection->text, rejection->flags, explain);
    bool is_filled = message && fill(module, rejection, explain == byte_unit_explain_unit, values);
    PyObject *error = is_filled ? size_error(state, message, values) : NULL;
    if (error) {
        PyErr_SetObject(state->size_error, error);
    }
    Py_XDECREF(error);
    Py_XDECREF(message);
    for (int i = 0; i < FIELDS; i++) {
        Py_XDECREF(values[i]);
    }
    return NULL;
}
