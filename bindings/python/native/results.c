/* Results of many texts. The first two arguments of each function are the sizes and the codes of a column. */
#include "native.h"

#include <math.h>
#include <string.h>

/* The parts of a column. */
typedef struct view {
    const byte_unit_number *sizes;
    const uint8_t *codes;
    size_t count;
} view;

static bool is_bytes(PyObject *object, const char *name)
{
    return PyBytes_Check(object) || wrong_type(name, "bytes", object);
}

/* Reads the parts of a column from the first two of `expected` arguments. */
static bool read_view(PyObject *const *args, Py_ssize_t count, Py_ssize_t expected, view *view)
{
    if (!has_arguments(count, expected) || !is_bytes(args[0], "sizes") || !is_bytes(args[1], "codes")) {
        return false;
    }
    view->sizes = (const byte_unit_number *)(const void *)PyBytes_AsString(args[0]);
    view->codes = (const uint8_t *)PyBytes_AsString(args[1]);
    view->count = (size_t)PyBytes_Size(args[1]);
    if ((size_t)PyBytes_Size(args[0]) / sizeof *view->sizes == view->count) {
        return true;
    }
    PyErr_SetString(PyExc_ValueError, "sizes must have sixteen bytes for each byte of codes");
    return false;
}

/* Reads a row, or the number of rows. It is at most `most`. */
static bool to_row(PyObject *object, size_t most, size_t *row)
{
    *row = PyLong_AsSize_t(object);
    if (!PyErr_Occurred() && *row > most) {
        PyErr_SetString(PyExc_IndexError, "a row is out of range");
    }
    return !PyErr_Occurred();
}

/* ints(sizes, codes, start, stop): a list of the sizes of these rows, None where a row has none */
PyObject *ints(PyObject *module, PyObject *const *args, Py_ssize_t count)
{
    (void)module;
    view view;
    size_t start, stop;
    if (!read_view(args, count, 4, &view) || !to_row(args[3], view.count, &stop) || !to_row(args[2], stop, &start)) {
        return NULL;
    }
    PyObject *list = PyList_New((Py_ssize_t)(stop - start));
    for (size_t row = start; list && row < stop; row++) {
        PyObject *size = view.codes[row] ? Py_NewRef(Py_None) : from_number(view.sizes[row]);
        if (!size || PyList_SetItem(list, (Py_ssize_t)(row - start), size)) {
            Py_CLEAR(list);
        }
    }
    return list;
}

/* part(sizes, codes, start, step, count): the sizes and the codes of these rows */
PyObject *part(PyObject *module, PyObject *const *args, Py_ssize_t count)
{
    (void)module;
    view view;
    column part;
    size_t rows, row;
    if (!read_view(args, count, 5, &view) || !to_row(args[4], view.count, &rows) ||
        !to_row(args[2], view.count, &row)) {
        return NULL;
    }
    Py_ssize_t step = PyNumber_AsSsize_t(args[3], NULL); /* clipped if it is so large that one row has no next */
    if (PyErr_Occurred()) {
        return NULL;
    }
    bool holds = new_column((Py_ssize_t)rows, &part);
    for (size_t i = 0; holds && i < rows; i++, row += (size_t)step) { /* backwards, too: the sum wraps */
        holds = row < view.count;
        if (holds) {
            sizes_of(&part)[i] = view.sizes[row];
            codes_of(&part)[i] = view.codes[row];
        }
    }
    if (!holds && !PyErr_Occurred()) {
        PyErr_SetString(PyExc_IndexError, "a row is out of range");
    }
    return from_column(&part, holds);
}

/* Returns the number as an int. */
static PyObject *from_wide(u128 number)
{
    return from_number((byte_unit_number){(uint64_t)number, (uint64_t)(number >> 64)});
}

/* sum(sizes, codes): of the lower halves and of the upper ones, since that of 2^64 halves is below 2^128 */
PyObject *sum(PyObject *module, PyObject *const *args, Py_ssize_t count)
{
    (void)module;
    view view;
    u128 low = 0, high = 0;
    if (!read_view(args, count, 2, &view)) {
        return NULL;
    }
    for (size_t row = 0; row < view.count; row++) {
        low += view.codes[row] ? 0 : view.sizes[row].low;
        high += view.codes[row] ? 0 : view.sizes[row].high;
    }
    return high ? with_high(from_wide(low), from_wide(high)) : from_wide(low);
}

/* extremum(sizes, codes, is_greatest): the least or the greatest size, or None without any */
PyObject *extremum(PyObject *module, PyObject *const *args, Py_ssize_t count)
{
    (void)module;
    view view;
    uint32_t is_greatest = 0;
    const byte_unit_number *found = NULL;
    if (!read_view(args, count, 3, &view) || !add_flag(args[2], "is_greatest", 1, &is_greatest)) {
        return NULL;
    }
    for (size_t row = 0; row < view.count; row++) {
        const byte_unit_number *size = &view.sizes[row];
        if (!view.codes[row] && (!found || (is_greatest ? wide(*found) < wide(*size) : wide(*size) < wide(*found)))) {
            found = size;
        }
    }
    return found ? from_number(*found) : Py_NewRef(Py_None);
}

/* Whether a row has a size of 2^63 or more. */
static bool is_large(const view *view, size_t row)
{
    return !view->codes[row] && (view->sizes[row].high || view->sizes[row].low >> 63);
}

/* first_large(sizes, codes): the first row with a size of 2^63 or more, or the number of rows */
PyObject *first_large(PyObject *module, PyObject *const *args, Py_ssize_t count)
{
    (void)module;
    view view;
    size_t row = 0;
    if (!read_view(args, count, 2, &view)) {
        return NULL;
    }
    while (row < view.count && !is_large(&view, row)) {
        row++;
    }
    return PyLong_FromSize_t(row);
}

/* int64(sizes, codes, saturates): the sizes as signed integers of 64 bits, 0 without a size; one of 2^63 or more is
 * 2^63 - 1 if it saturates, and else 0 */
PyObject *int64(PyObject *module, PyObject *const *args, Py_ssize_t count)
{
    (void)module;
    view view;
    uint32_t saturates = 0;
    if (!read_view(args, count, 3, &view) || !add_flag(args[2], "saturates", 1, &saturates)) {
        return NULL;
    }
    PyObject *result = PyBytes_FromStringAndSize(NULL, (Py_ssize_t)(view.count * sizeof(int64_t)));
    int64_t *numbers = result ? (int64_t *)(void *)PyBytes_AsString(result) : NULL;
    for (size_t row = 0; result && row < view.count; row++) {
        int64_t large = saturates ? INT64_MAX : 0;
        numbers[row] = view.codes[row] ? 0 : is_large(&view, row) ? large : (int64_t)view.sizes[row].low;
    }
    return result;
}

/* float64(sizes, codes): the sizes as floats, rounded to the nearest one, or NaN without a size */
PyObject *float64(PyObject *module, PyObject *const *args, Py_ssize_t count)
{
    (void)module;
    view view;
    if (!read_view(args, count, 2, &view)) {
        return NULL;
    }
    PyObject *result = PyBytes_FromStringAndSize(NULL, (Py_ssize_t)(view.count * sizeof(double)));
    double *numbers = result ? (double *)(void *)PyBytes_AsString(result) : NULL;
    for (size_t row = 0; result && row < view.count; row++) {
        byte_unit_number size = view.sizes[row];
        double number = size.high ? (double)wide(size) : (double)size.low;
        numbers[row] = view.codes[row] ? NAN : number;
    }
    return result;
}

/* mask(sizes, codes, hide_large): 1 for each row without a size, and if it hides them for one of 2^63 or more */
PyObject *mask(PyObject *module, PyObject *const *args, Py_ssize_t count)
{
    (void)module;
    view view;
    uint32_t hide_large = 0;
    if (!read_view(args, count, 3, &view) || !add_flag(args[2], "hide_large", 1, &hide_large)) {
        return NULL;
    }
    PyObject *result = PyBytes_FromStringAndSize(NULL, (Py_ssize_t)view.count);
    uint8_t *bits = result ? (uint8_t *)PyBytes_AsString(result) : NULL;
    for (size_t row = 0; result && row < view.count; row++) {
        bits[row] = view.codes[row] || (hide_large && is_large(&view, row));
    }
    return result;
}
