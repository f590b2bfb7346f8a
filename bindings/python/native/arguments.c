/* Arguments: their places, types and ranges. */
#include "native.h"

#include <string.h>

/* Raises a TypeError, and returns false. */
static bool too_many(const signature *signature, Py_ssize_t count)
{
    PyErr_Format(PyExc_TypeError, "%s() takes %d positional argument%s but %zd were given", signature->name,
                 signature->required, signature->required == 1 ? "" : "s", count);
    return false;
}

/* Returns the place of the parameter with a name, or that after the last one. */
static int place_of(const signature *signature, PyObject *name)
{
    Py_ssize_t len;
    const char *word = PyUnicode_AsUTF8AndSize(name, &len);
    if (!word) { /* it has a lone surrogate */
        PyErr_Clear();
        return signature->count;
    }
    for (int i = 0; i < signature->count; i++) {
        const char *parameter = signature->parameters[i];
        if (*parameter == *word && strcmp(parameter, word) == 0 && strlen(parameter) == (size_t)len) {
            return i;
        }
    }
    return signature->count;
}

/* Places an argument that is passed by name. */
static bool place_one(const signature *signature, PyObject *name, PyObject *argument, PyObject **given)
{
    int i = place_of(signature, name);
    if (i == signature->count) {
        PyErr_Format(PyExc_TypeError, "%s() got an unexpected keyword argument '%U'", signature->name, name);
        return false;
    }
    if (given[i]) {
        PyErr_Format(PyExc_TypeError, "%s() got multiple values for argument '%U'", signature->name, name);
        return false;
    }
    given[i] = argument;
    return true;
}

/* Raises a TypeError if one of the required arguments, which are one or two, is missing. */
static bool has_required(const signature *signature, PyObject *const *given)
{
    const char *first = given[0] ? NULL : signature->parameters[0];
    const char *last = signature->required == 1 || given[1] ? NULL : signature->parameters[1];
    if (first && last) {
        PyErr_Format(PyExc_TypeError, "%s() missing 2 required positional arguments: '%s' and '%s'", signature->name,
                     first, last);
    } else if (first || last) {
        PyErr_Format(PyExc_TypeError, "%s() missing 1 required positional argument: '%s'", signature->name,
                     first ? first : last);
    }
    return !first && !last;
}

bool place_named(const signature *signature, PyObject *const *args, Py_ssize_t count, PyObject *names,
                 PyObject **given)
{
    Py_ssize_t named = names ? PyTuple_Size(names) : 0;
    if (count > signature->required) {
        return too_many(signature, count);
    }
    for (Py_ssize_t i = 0; i < count; i++) {
        given[i] = args[i];
    }
    for (Py_ssize_t i = 0; i < named; i++) {
        if (!place_one(signature, PyTuple_GetItem(names, i), args[count + i], given)) {
            return false;
        }
    }
    return has_required(signature, given);
}

bool has_arguments(Py_ssize_t count, Py_ssize_t expected)
{
    if (count == expected) {
        return true;
    }
    PyErr_Format(PyExc_TypeError, "expected %zd arguments, got %zd", expected, count);
    return false;
}

bool wrong_type(const char *name, const char *expected, PyObject *object)
{
    PyObject *type = PyType_GetName(Py_TYPE(object));
    if (type) {
        PyErr_Format(PyExc_TypeError, "%s must be %s, not %U", name, expected, type);
        Py_DECREF(type);
    }
    return false;
}

bool add_flag(PyObject *object, const char *name, uint32_t flag, uint32_t *flags)
{
    if (object == Py_True) {
        *flags |= flag;
        return true;
    }
    return !object || object == Py_False || wrong_type(name, "a bool", object);
}

bool parse_flags(PyObject *const *objects, uint32_t *flags)
{
    *flags = BYTE_UNIT_BYTES;
    return add_flag(objects[0], "bits", BYTE_UNIT_BITS, flags) &&
           add_flag(objects[1], "ignore_case", BYTE_UNIT_IGNORE_CASE, flags) &&
           add_flag(objects[2], "binary", BYTE_UNIT_BINARY_PREFIXES, flags) &&
           add_flag(objects[3], "words", BYTE_UNIT_WORDS, flags);
}

/* Reads an int of at most 64 bits. If it has more or is negative, raises an OverflowError. */
static bool to_u64(PyObject *integer, uint64_t *number)
{
    *number = PyLong_AsUnsignedLongLong(integer);
    return *number != UINT64_MAX || !PyErr_Occurred();
}

/* Reads an int of at most 128 bits. Without an exception set if it has more or is negative. */
static bool to_number(PyObject *integer, byte_unit_number *number)
{
    number->high = 0;
    if (to_u64(integer, &number->low)) {
        return true;
    }
    if (!PyErr_ExceptionMatches(PyExc_OverflowError)) {
        return false;
    }
    PyErr_Clear();
    PyObject *places = PyLong_FromLong(64);
    PyObject *high = places ? PyNumber_Rshift(integer, places) : NULL;
    bool fits = high && to_u64(high, &number->high);
    Py_XDECREF(places);
    Py_XDECREF(high);
    if (fits) {
        number->low = PyLong_AsUnsignedLongLongMask(integer);
        return !PyErr_Occurred();
    }
    if (PyErr_ExceptionMatches(PyExc_OverflowError)) {
        PyErr_Clear();
    }
    return false;
}

/* Returns an int for a message: its digits, or with more than 256 bits their number, since digits take long to make. */
static PyObject *shown(PyObject *integer)
{
    PyObject *bits = PyObject_CallMethod(integer, "bit_length", NULL);
    Py_ssize_t count = bits ? PyLong_AsSsize_t(bits) : -1;
    Py_XDECREF(bits);
    if (count < 0) {
        return NULL;
    }
    return count <= 256 ? PyObject_Str(integer) : PyUnicode_FromFormat("an integer of %zd bits", count);
}

/* An argument that is a number, and its greatest value, as a number and for a message. */
typedef struct range {
    const char *name;
    byte_unit_number most;
    const char *most_shown;
} range;

/* Raises the error of a number out of range, and returns false. */
static bool out_of_range(PyObject *module, const range *range, PyObject *integer)
{
    PyObject *number = shown(integer);
    if (number) {
        PyErr_Format(state_of(module)->byte_unit_error, "%s must be from 0 to %s, not %U", range->name,
                     range->most_shown, number);
        Py_DECREF(number);
    }
    return false;
}

/* Reads an int. Raises an error if it is out of range. */
static bool integer_to_range(PyObject *module, const range *range, PyObject *integer, byte_unit_number *number)
{
    bool is_in_range = to_number(integer, number) && wide(*number) <= wide(range->most);
    return is_in_range || (!PyErr_Occurred() && out_of_range(module, range, integer));
}

/* Reads an int, or what `operator.index` makes one of. */
static bool to_range(PyObject *module, const range *range, PyObject *object, byte_unit_number *number)
{
    /* UINT64_MAX is what the function returns with an error, too. */
    *number = (byte_unit_number){PyLong_AsUnsignedLongLong(object), 0};
    if (number->low != UINT64_MAX && wide(*number) <= wide(range->most)) {
        return true; /* most numbers */
    }
    PyErr_Clear();
    PyObject *integer = PyNumber_Index(object); /* of no subclass of int */
    bool is_in_range = integer && integer_to_range(module, range, integer, number);
    Py_XDECREF(integer);
    return is_in_range;
}

bool to_size(PyObject *module, PyObject *object, byte_unit_number *size)
{
    static const range RANGE = {
        "size", {BYTE_UNIT_SIZE_LIMIT_LOW - 1, BYTE_UNIT_SIZE_LIMIT_HIGH}, "10**30 - 1"};
    return to_range(module, &RANGE, object, size);
}

bool to_count(PyObject *module, PyObject *object, byte_unit_number *count)
{
    static const range RANGE = {"count", {UINT64_MAX, UINT64_MAX}, "2**128 - 1"};
    return to_range(module, &RANGE, object, count);
}

bool to_digits(PyObject *module, const char *name, PyObject *object, uint32_t *digits)
{
    const range range = {name, {65535, 0}, "65535"}; /* the most in a byte_unit_spec */
    byte_unit_number number;
    if (!to_range(module, &range, object, &number)) {
        return false;
    }
    *digits = (uint32_t)number.low;
    return true;
}

bool to_choice(PyObject *module, const choices *choices, PyObject *object, uint8_t *code)
{
    if (!PyUnicode_Check(object)) {
        return wrong_type(choices->argument, "str", object);
    }
    for (int i = 0; i < 3 && choices->of[i].name; i++) {
        if (PyUnicode_CompareWithASCIIString(object, choices->of[i].name) == 0) {
            *code = choices->of[i].code;
            return true;
        }
    }
    PyErr_Format(state_of(module)->byte_unit_error, "%s must be one of %s, not %R", choices->argument, choices->shown,
                 object);
    return false;
}

bool to_unit(PyObject *module, PyObject *object, uint32_t *unit)
{
    if (!PyUnicode_Check(object)) {
        return wrong_type("unit", "str", object);
    }
    PyObject *code = PyDict_GetItemWithError(state_of(module)->unit_codes, object);
    if (code) {
        *unit = (uint32_t)PyLong_AsUnsignedLong(code);
    } else if (!PyErr_Occurred()) {
        PyErr_Format(state_of(module)->byte_unit_error, "unit must be one of byte_unit.UNITS, not %R", object);
    }
    return code != NULL;
}
