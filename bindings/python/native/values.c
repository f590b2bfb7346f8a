/* Results: numbers, decimals and texts. */
#include "native.h"

PyObject *with_high(PyObject *low, PyObject *high)
{
    PyObject *places = PyLong_FromLong(64);
    PyObject *shifted = high && places ? PyNumber_Lshift(high, places) : NULL;
    PyObject *both = low && shifted ? PyNumber_Add(low, shifted) : NULL;
    Py_XDECREF(low);
    Py_XDECREF(high);
    Py_XDECREF(places);
    Py_XDECREF(shifted);
    return both;
}

PyObject *from_number(byte_unit_number number)
{
    PyObject *low = PyLong_FromUnsignedLongLong(number.low);
    return number.high ? with_high(low, PyLong_FromUnsignedLongLong(number.high)) : low;
}

PyObject *from_ascii(const char *text, size_t len)
{
    return PyUnicode_DecodeASCII(text, (Py_ssize_t)len, "strict");
}

/* Writes the digits of a number below 2^112. Returns their number. */
static int write_whole(u128 whole, char *out, size_t len)
{
    const u128 unit = 1000000000000000000; /* 10^18: both parts have fewer than 64 bits */
    if (whole < unit) {
        return PyOS_snprintf(out, len, "%llu", (unsigned long long)whole);
    }
    return PyOS_snprintf(out, len, "%llu%018llu", (unsigned long long)(whole / unit),
                         (unsigned long long)(whole % unit));
}

/* Writes a point and the digits of a fraction, which is scaled by 10^28, without zeros at the end. */
static int write_fraction(u128 fraction, char *out, size_t len)
{
    const u128 unit = 100000000000000; /* 10^14: half of the digits */
    int written = PyOS_snprintf(out, len, ".%014llu%014llu", (unsigned long long)(fraction / unit),
                                (unsigned long long)(fraction % unit));
    while (out[written - 1] == '0') {
        written--;
    }
    return written;
}

/* Returns decimal.Decimal, which is imported at its first use. */
static PyObject *decimal_class(state *state)
{
    if (!state->decimal) {
        PyObject *decimal = PyImport_ImportModule("decimal");
        state->decimal = decimal ? PyObject_GetAttrString(decimal, "Decimal") : NULL;
        Py_XDECREF(decimal);
    }
    return state->decimal;
}

PyObject *from_decimal(PyObject *module, byte_unit_decimal decimal)
{
    char digits[80]; /* at most 34 before a point and 28 after it */
    PyObject *class = decimal_class(state_of(module));
    int len = write_whole(wide(decimal.whole), digits, sizeof digits);
    u128 fraction = wide(decimal.fraction);
    if (fraction) {
        len += write_fraction(fraction, digits + len, sizeof digits - (size_t)len);
    }
    PyObject *string = class ? from_ascii(digits, (size_t)len) : NULL;
    PyObject *result = string ? PyObject_CallFunctionObjArgs(class, string, NULL) : NULL;
    Py_XDECREF(string);
    return result;
}
