/* The extension module byte_unit._native: the calls of byte_unit.h with Python's objects.
 *
 * The calls of one text, one size or one unit are those of the package: their arguments have names, defaults and
 * errors, which docs.h documents. The other functions are private and have positional arguments; the Python modules
 * make calls of them. The library keeps nothing between calls, so every function may be called from any thread.
 * `parse_many` and `parse_buffers` release the GIL while they parse.
 *
 * Functions that return `bool` return false with an exception set. Uses the limited API of CPython 3.11, the first one
 * with the buffer protocol.
 */
#ifndef NATIVE_H
#define NATIVE_H

#define Py_LIMITED_API 0x030B0000
#define PY_SSIZE_T_CLEAN
#include <Python.h>

#include <stdbool.h>
#include <stdint.h>

#include "byte_unit.h"

__extension__ typedef unsigned __int128 u128;

/* Returns the number as one integer. */
static inline u128 wide(byte_unit_number number)
{
    return (u128)number.high << 64 | number.low;
}

/* The code of a text that is null, beside those of the library: that of an invalid argument, which no text has. */
enum { NULL_TEXT = BYTE_UNIT_INVALID_ARGUMENT };

/* The fields of SizeError, whose class has a None for each that is left out, and the name, which it has in its arguments
 * alone; module.c names them in this order. */
enum field { NAME, CHARACTER, EXPECTED, ALSO_EXPECT_NO_CHARACTER, NUMBER, TEXT, DATA, POSITION, ROW, OF_UNIT, FIELDS };

/* What the module keeps: objects that are made once. Each member is a pointer to one, as module.c requires. */
typedef struct state {
    PyObject *byte_unit_error;
    PyObject *size_error;
    PyObject *codes;             /* a tuple of the names of the codes */
    PyObject *units;             /* a tuple of the names of the units */
    PyObject *unit_codes;        /* a dictionary of their codes */
    PyObject *decimal;           /* decimal.Decimal, or NULL before its first use */
    PyObject *missing[2];        /* NA and NaT of pandas, or NULL before pandas is imported */
    PyObject *fields[FIELDS];    /* the names of the fields of SizeError */
} state;

static inline state *state_of(PyObject *module)
{
    return PyModule_GetState(module);
}

/* arguments.c */

/* The parameters of a call, eight at most. The first ones, one or two, are required; the others are keyword-only. */
typedef struct signature {
    const char *name;
    int required;
    int count;
    const char *parameters[8];
} signature;

/* A name that an argument may be, with its code. */
typedef struct choice {
    const char *name;
    uint8_t code;
} choice;

/* An argument that is one of a few names: three at most, or those before a name that is NULL. */
typedef struct choices {
    const char *argument;
    const char *shown; /* all names, for a message */
    choice of[3];
} choices;

/* Places the arguments of a call in the order of its parameters, in an array of NULLs. */
bool place_named(const signature *signature, PyObject *const *args, Py_ssize_t count, PyObject *names,
                 PyObject **given);

/* The same, faster for the usual call, which has the required arguments alone. */
static inline bool place(const signature *signature, PyObject *const *args, Py_ssize_t count, PyObject *names,
                         PyObject **given)
{
    if (names || count != signature->required) {
        return place_named(signature, args, count, names, given);
    }
    given[0] = args[0]; /* one or two */
    given[count - 1] = args[count - 1];
    return true;
}

/* Raises a TypeError if the number of arguments is another one. */
bool has_arguments(Py_ssize_t count, Py_ssize_t expected);
/* Raises a TypeError that names the argument, what it must be and the type that was passed. Returns false. */
bool wrong_type(const char *name, const char *expected, PyObject *object);
/* Adds the flag if the object is True. NULL is False. */
bool add_flag(PyObject *object, const char *name, uint32_t flag, uint32_t *flags);
/* Reads the flags `bits`, `ignore_case`, `binary` and `words` of a call that parses. */
bool parse_flags(PyObject *const *objects, uint32_t *flags);
/* Reads a size, a number of units, and a precision or a width. */
bool to_size(PyObject *module, PyObject *object, byte_unit_number *size);
bool to_count(PyObject *module, PyObject *object, byte_unit_number *count);
bool to_digits(PyObject *module, const char *name, PyObject *object, uint32_t *digits);
/* Reads one of a few names, and the name of a unit. */
bool to_choice(PyObject *module, const choices *choices, PyObject *object, uint8_t *code);
bool to_unit(PyObject *module, PyObject *object, uint32_t *unit);

/* texts.c */

/* The bytes of a text. `owner` is NULL, or is released after their last use. */
typedef struct text {
    char *bytes;
    Py_ssize_t len;
    PyObject *owner;
} text;

/* Borrows the bytes of a str as UTF-8, or those of a bytes object as they are. Without an exception set if the object
 * is neither. */
bool borrow_text(PyObject *object, text *text);
/* The same for the argument `text`: raises a TypeError if it is neither. */
bool to_text(PyObject *object, text *text);
void release_text(text *text);
/* Whether the object is null: None, a float that is not a number, or NA or NaT of pandas. False with an exception set
 * if there is no memory. */
bool is_null(PyObject *module, PyObject *object);

/* A call of the library that writes the message for a text. */
typedef size_t explainer(const char *text, size_t len, uint32_t flags, char *out, size_t out_len);

/* A text that is parsed, and its error if it is rejected. */
typedef struct rejection {
    PyObject *object; /* the text as it was passed */
    text text;
    uint32_t flags;
    uint32_t code;
    byte_unit_error error;
    Py_ssize_t row; /* its place in a column, or -1 */
} rejection;

/* Returns the message that the call writes, or None if it writes none. */
PyObject *message_of(const text *text, uint32_t flags, explainer *explain);
/* Raises the SizeError of a text. Returns NULL. */
PyObject *reject(PyObject *module, const rejection *rejection, explainer *explain);

/* values.c */

PyObject *from_number(byte_unit_number number);
/* Returns the sum of two numbers, the second of which counts 2^64. Releases both. */
PyObject *with_high(PyObject *low, PyObject *high);
/* Returns the decimal as a decimal.Decimal. */
PyObject *from_decimal(PyObject *module, byte_unit_decimal decimal);
/* Returns a str of ASCII. */
PyObject *from_ascii(const char *text, size_t len);

/* columns.c */

/* What parsing many texts gives: a bytes object of a byte_unit_number each, and one of a code each. */
typedef struct column {
    PyObject *sizes;
    PyObject *codes;
} column;

/* Allocates both parts. Whether it can or not, `from_column` has to be called, which releases them. */
bool new_column(Py_ssize_t count, column *column);
byte_unit_number *sizes_of(column *column);
uint8_t *codes_of(column *column);
/* Returns both parts as a tuple if `holds`, else NULL. Releases them. */
PyObject *from_column(column *column, bool holds);
/* Parses texts, each from an offset up to the next, of which the first begins at `bytes`, but for those whose code is
 * NULL_TEXT. If it is strict, stops at one that is rejected, and gives its code and error. Returns the number of those
 * before it. */
size_t parse_texts(const char *bytes, const int64_t *offsets, size_t count, uint32_t flags, rejection *strict,
                   byte_unit_number *sizes, uint8_t *codes);
/* Raises the SizeError of a text in a column, with its flags, code and error. Returns false. */
bool reject_row(PyObject *module, rejection *rejection, PyObject *object, size_t row);

/* parse.c, format.c, columns.c, buffers.c and results.c: the functions of the module */

typedef PyObject *call(PyObject *module, PyObject *const *args, Py_ssize_t count, PyObject *names);
typedef PyObject *function(PyObject *module, PyObject *const *args, Py_ssize_t count);

call parse, explain, parse_unit, explain_unit;
call text_of, adjusted_text, approximate_text, appropriate_unit, exact_unit, recoverable_unit, from_unit;
function hint, parse_many, parse_buffers;
function ints, part, sum, extremum, first_large, int64, float64, mask;

/* Returns a tuple of the names of the codes, and one of the names of the units. */
PyObject *code_names(void);
PyObject *unit_names(void);

#endif
