/* The calls that write the text of a size, choose a unit, or calculate the size of a number of a unit. */
#include "native.h"

/* A call of the library that writes a text: in a unit, or in one of a unit type. */
typedef size_t writer(byte_unit_number size, uint32_t flags, uint32_t unit, byte_unit_spec spec, char *out,
                      size_t out_len);

/* Writes a text that is in no certain unit. */
static size_t write_text(byte_unit_number size, uint32_t flags, uint32_t unit, byte_unit_spec spec, char *out,
                         size_t out_len)
{
    (void)unit;
    return byte_unit_text(size, flags, spec, out, out_len);
}

/* Returns a text that is longer than BYTE_UNIT_BUFFER_SIZE. */
static PyObject *long_text(writer *write, byte_unit_number size, uint32_t flags, uint32_t unit, byte_unit_spec spec,
                           size_t len)
{
    char *out = PyMem_Malloc(len);
    if (!out) {
        return PyErr_NoMemory();
    }
    PyObject *string = from_ascii(out, write(size, flags, unit, spec, out, len));
    PyMem_Free(out);
    return string;
}

/* Returns the text that a call writes. */
static PyObject *text_with(writer *write, byte_unit_number size, uint32_t flags, uint32_t unit, byte_unit_spec spec)
{
    char out[BYTE_UNIT_BUFFER_SIZE];
    size_t len = write(size, flags, unit, spec, out, sizeof out);
    return len > sizeof out ? long_text(write, size, flags, unit, spec, len) : from_ascii(out, len);
}

/* The arguments that are names, with the codes of byte_unit.h. */
static const choices SIGNS = {
    "sign", "None, 'plus', 'minus'", {{"plus", BYTE_UNIT_SIGN_PLUS}, {"minus", BYTE_UNIT_SIGN_MINUS}}};
static const choices ALIGNS = {
    "align", "None, 'left', 'center', 'right'",
    {{"left", BYTE_UNIT_ALIGN_LEFT}, {"center", BYTE_UNIT_ALIGN_CENTER}, {"right", BYTE_UNIT_ALIGN_RIGHT}}};
static const choices TYPES = {
    "unit_type", "'binary', 'decimal', 'both'",
    {{"binary", BYTE_UNIT_BINARY}, {"decimal", BYTE_UNIT_DECIMAL}, {"both", BYTE_UNIT_BOTH}}};

/* Whether an option was passed, and is not None. */
static bool is_set(PyObject *object)
{
    return object && object != Py_None;
}

/* Reads the flag `bits`. */
static bool kind_flag(PyObject *object, uint32_t *flags)
{
    *flags = BYTE_UNIT_BYTES;
    return add_flag(object, "bits", BYTE_UNIT_BITS, flags);
}

/* Reads the options bits, precision, width, align, sign and alternate, if there are names of arguments, into a spec
 * that has their defaults. */
static bool to_options(PyObject *module, PyObject *names, PyObject *const *options, uint32_t *flags,
                       byte_unit_spec *spec)
{
    uint32_t alternate = options[5] ? 0 : spec->alternate; /* if it is passed, it is added as a flag is */
    *flags = BYTE_UNIT_BYTES;
    if (!names) {
        return true;
    }
    if (options[1]) {
        spec->has_precision = is_set(options[1]);
        spec->precision = 0;
    }
    bool read = kind_flag(options[0], flags) && add_flag(options[5], "alternate", 1, &alternate) &&
                (!is_set(options[1]) || to_digits(module, "precision", options[1], &spec->precision)) &&
                (!is_set(options[2]) || to_digits(module, "width", options[2], &spec->width)) &&
                (!is_set(options[3]) || to_choice(module, &ALIGNS, options[3], &spec->align)) &&
                (!is_set(options[4]) || to_choice(module, &SIGNS, options[4], &spec->sign));
    spec->alternate = (uint8_t)alternate;
    return read;
}

PyObject *text_of(PyObject *module, PyObject *const *args, Py_ssize_t count, PyObject *names)
{
    static const signature SIGNATURE = {
        "text", 1, 7, {"size", "bits", "precision", "width", "align", "sign", "alternate"}};
    PyObject *given[7] = {NULL};
    byte_unit_number size;
    uint32_t flags;
    byte_unit_spec spec = {.alternate = 1};
    if (!place(&SIGNATURE, args, count, names, given) || !to_size(module, given[0], &size) ||
        !to_options(module, names, given + 1, &flags, &spec)) {
        return NULL;
    }
    return text_with(write_text, size, flags, BYTE_UNIT_NO_UNIT, spec);
}

PyObject *adjusted_text(PyObject *module, PyObject *const *args, Py_ssize_t count, PyObject *names)
{
    static const signature SIGNATURE = {
        "adjusted_text", 2, 8, {"size", "unit", "bits", "precision", "width", "align", "sign", "alternate"}};
    PyObject *given[8] = {NULL};
    byte_unit_number size;
    uint32_t flags, unit;
    byte_unit_spec spec = {0};
    if (!place(&SIGNATURE, args, count, names, given) || !to_size(module, given[0], &size) ||
        !to_unit(module, given[1], &unit) || !to_options(module, names, given + 2, &flags, &spec)) {
        return NULL;
    }
    return text_with(byte_unit_adjusted_text, size, flags, unit, spec);
}

PyObject *approximate_text(PyObject *module, PyObject *const *args, Py_ssize_t count, PyObject *names)
{
    static const signature SIGNATURE = {
        "approximate_text", 1, 8, {"size", "unit_type", "bits", "precision", "width", "align", "sign", "alternate"}};
    PyObject *given[8] = {NULL};
    byte_unit_number size;
    uint32_t flags;
    uint8_t unit_type = BYTE_UNIT_BINARY;
    byte_unit_spec spec = {.has_precision = 1, .precision = 1};
    if (!place(&SIGNATURE, args, count, names, given) || !to_size(module, given[0], &size) ||
        (given[1] && !to_choice(module, &TYPES, given[1], &unit_type)) ||
        !to_options(module, names, given + 2, &flags, &spec)) {
        return NULL;
    }
    return text_with(byte_unit_approximate_text, size, flags, unit_type, spec);
}

PyObject *unit_names(void)
{
    PyObject *list = PyList_New(0);
    char name[BYTE_UNIT_BUFFER_SIZE];
    size_t len;
    for (uint32_t unit = 0; list && (len = byte_unit_unit_name(unit, name, sizeof name)) != 0; unit++) {
        PyObject *string = from_ascii(name, len);
        if (!string || PyList_Append(list, string)) {
            Py_CLEAR(list);
        }
        Py_XDECREF(string);
    }
    PyObject *names = list ? PyList_AsTuple(list) : NULL;
    Py_XDECREF(list);
    return names;
}

/* Returns the name of a unit. */
static PyObject *from_unit_code(PyObject *module, uint32_t unit)
{
    return Py_XNewRef(PyTuple_GetItem(state_of(module)->units, (Py_ssize_t)unit));
}

/* Returns a number and the name of a unit as a tuple. Releases the number. */
static PyObject *with_unit(PyObject *module, PyObject *number, uint32_t unit)
{
    PyObject *name = number ? from_unit_code(module, unit) : NULL;
    PyObject *pair = name ? PyTuple_Pack(2, number, name) : NULL;
    Py_XDECREF(number);
    Py_XDECREF(name);
    return pair;
}

PyObject *appropriate_unit(PyObject *module, PyObject *const *args, Py_ssize_t count, PyObject *names)
{
    static const signature SIGNATURE = {"appropriate_unit", 1, 3, {"size", "bits", "unit_type"}};
    PyObject *given[3] = {NULL};
    byte_unit_number size;
    uint32_t flags;
    uint8_t unit_type = BYTE_UNIT_BINARY;
    if (!place(&SIGNATURE, args, count, names, given) || !to_size(module, given[0], &size) ||
        !kind_flag(given[1], &flags) || (given[2] && !to_choice(module, &TYPES, given[2], &unit_type))) {
        return NULL;
    }
    return from_unit_code(module, byte_unit_appropriate_unit(size, flags, unit_type));
}

/* Reads the size and the flags `bits` and `either_kind` of a choice of a unit. */
static bool choice_arguments(PyObject *module, PyObject *const *given, byte_unit_number *size, uint32_t *flags)
{
    return to_size(module, given[0], size) && kind_flag(given[1], flags) &&
           add_flag(given[2], "either_kind", BYTE_UNIT_EITHER_KIND, flags);
}

PyObject *exact_unit(PyObject *module, PyObject *const *args, Py_ssize_t count, PyObject *names)
{
    static const signature SIGNATURE = {"exact_unit", 1, 3, {"size", "bits", "either_kind"}};
    PyObject *given[3] = {NULL};
    byte_unit_number size, number = {0, 0};
    uint32_t flags;
    if (!place(&SIGNATURE, args, count, names, given) || !choice_arguments(module, given, &size, &flags)) {
        return NULL;
    }
    uint32_t unit = byte_unit_exact_unit(size, flags, &number);
    return with_unit(module, from_number(number), unit);
}

PyObject *recoverable_unit(PyObject *module, PyObject *const *args, Py_ssize_t count, PyObject *names)
{
    static const signature SIGNATURE = {"recoverable_unit", 1, 4, {"size", "bits", "either_kind", "precision"}};
    PyObject *given[4] = {NULL};
    byte_unit_number size;
    byte_unit_decimal number = {{0, 0}, {0, 0}};
    uint32_t flags, precision = 3; /* the default */
    if (!place(&SIGNATURE, args, count, names, given) || !choice_arguments(module, given, &size, &flags) ||
        (given[3] && !to_digits(module, "precision", given[3], &precision))) {
        return NULL;
    }
    uint32_t unit = byte_unit_recoverable_unit(size, flags, precision, &number);
    return with_unit(module, from_decimal(module, number), unit);
}

PyObject *from_unit(PyObject *module, PyObject *const *args, Py_ssize_t count, PyObject *names)
{
    static const signature SIGNATURE = {"from_unit", 2, 3, {"count", "unit", "bits"}};
    PyObject *given[3] = {NULL};
    byte_unit_number number, size;
    uint32_t flags, unit;
    if (!place(&SIGNATURE, args, count, names, given) || !to_count(module, given[0], &number) ||
        !to_unit(module, given[1], &unit) || !kind_flag(given[2], &flags)) {
        return NULL;
    }
    if (byte_unit_from_unit(number, unit, flags, &size)) {
        return from_number(size);
    }
    PyObject *shown = from_number(number);
    if (shown) {
        PyErr_Format(state_of(module)->byte_unit_error, "%S %U must be less than 10**30 %s", shown, given[1],
                     flags & BYTE_UNIT_BITS ? "bits" : "bytes");
        Py_DECREF(shown);
    }
    return NULL;
}
