/* Parsing of many texts in Arrow's layout. */
#include "native.h"

#include <stdlib.h>
#include <string.h>

/* Whether the buffer is an array of signed integers of 32 or 64 bits. */
static bool is_offsets(const Py_buffer *offsets)
{
    const char *format = offsets->format ? offsets->format : "B";
    format += strspn(format, "@=<") ? 1 : 0; /* native or little-endian, which is the same on x86-64 */
    /* The codes of signed integers; how many bytes one of them has is checked, too. */
    bool is_signed = format[0] && strchr("bhilqn", format[0]) && !format[1];
    return offsets->ndim == 1 && is_signed && (offsets->itemsize == 4 || offsets->itemsize == 8);
}

/* Returns a copy of the offsets, in 64 bits, or NULL without memory. They may be at any address: an array that is read
 * from a file or a message often begins at an odd one. */
static int64_t *copy_offsets(const Py_buffer *offsets)
{
    size_t count = (size_t)offsets->shape[0];
    int64_t *copy = count > PY_SSIZE_T_MAX / sizeof *copy ? NULL : PyMem_Malloc(count * sizeof *copy);
    if (copy && offsets->itemsize == sizeof *copy) {
        memcpy(copy, offsets->buf, count * sizeof *copy);
        return copy;
    }
    for (size_t i = 0; copy && i < count; i++) {
        int32_t offset;
        memcpy(&offset, (const char *)offsets->buf + i * sizeof offset, sizeof offset);
        copy[i] = offset;
    }
    return copy;
}

/* Texts that are parsed while the GIL is released, when another thread may change the bytes of `data`. The library
 * requires that nobody does (it decodes what it has found to be UTF-8), so it is passed copies: the offsets are this
 * call's own, and the bytes are copied to `bytes` a piece at a time. What another thread writes in the meantime decides
 * at most which bytes are copied. */
typedef struct texts {
    const Py_buffer *data;
    int64_t *offsets;
    size_t count;
    uint32_t flags;
    char *bytes;
    size_t room;       /* the length of `bytes` */
    size_t parsed;     /* the texts before the first that is rejected, if it is strict, or all */
    char *text;        /* the bytes of that one, and their number */
    size_t text_len;
    rejection *strict; /* NULL if it is not */
} texts;

enum { PIECE = 1024 }; /* the number of texts that are copied at a time */

/* Beside the codes of the library: the bytes of a piece cannot be allocated. */
enum { NO_MEMORY = BYTE_UNIT_INVALID_ARGUMENT + 1 };

/* The nulls of a column: a copy of Arrow's bits, or NULL without any, and the place of the first text's bit. */
typedef struct validity {
    uint8_t *bits;
    size_t offset;
} validity;

/* Writes the codes of texts that are null, and BYTE_UNIT_OK for the others. */
static void mark_nulls(const validity *validity, size_t first, size_t count, uint8_t *codes)
{
    for (size_t i = first; i < first + count; i++) {
        size_t place = validity->offset + i;
        bool is_null = validity->bits && !(validity->bits[place / 8] >> place % 8 & 1);
        codes[i] = is_null ? NULL_TEXT : BYTE_UNIT_OK;
    }
}

/* Copies the bytes of a piece. */
static bool copy_bytes(texts *texts, size_t begin, size_t len)
{
    if (len > texts->room) {
        free(texts->bytes);
        texts->bytes = malloc(len);
        texts->room = texts->bytes ? len : 0;
    }
    if (len && texts->bytes) {
        memcpy(texts->bytes, (const char *)texts->data->buf + begin, len);
    }
    return !len || texts->bytes;
}

/* Whether the offsets of a piece ascend within the data. */
static bool ascend(const int64_t *offsets, size_t count, Py_ssize_t len)
{
    bool holds = offsets[0] >= 0 && offsets[count] <= len;
    for (size_t i = 0; i < count; i++) {
        holds &= offsets[i] <= offsets[i + 1];
    }
    return holds;
}

/* Parses the texts of a piece. */
static uint32_t parse_piece(texts *texts, const validity *validity, size_t count, byte_unit_number *sizes,
                            uint8_t *codes)
{
    size_t first = texts->parsed;
    const int64_t *offsets = texts->offsets + first;
    if (!ascend(offsets, count, texts->data->len)) {
        return BYTE_UNIT_INVALID_ARGUMENT;
    }
    if (!copy_bytes(texts, (size_t)offsets[0], (size_t)(offsets[count] - offsets[0]))) {
        return NO_MEMORY;
    }
    mark_nulls(validity, first, count, codes);
    size_t parsed =
        parse_texts(texts->bytes, offsets, count, texts->flags, texts->strict, sizes + first, codes + first);
    texts->parsed += parsed;
    if (parsed < count) {
        texts->text = texts->bytes + (offsets[parsed] - offsets[0]);
        texts->text_len = (size_t)(offsets[parsed + 1] - offsets[parsed]);
        return texts->strict->code;
    }
    return BYTE_UNIT_OK;
}

/* Parses all texts, a piece after the other: one piece without a text if there is none, for the check of its offset.
 * Stops at a text that is rejected, if it is strict, and returns its code. */
static uint32_t parse_pieces(texts *texts, const validity *validity, byte_unit_number *sizes, uint8_t *codes)
{
    uint32_t code;
    do {
        size_t left = texts->count - texts->parsed;
        code = parse_piece(texts, validity, left < PIECE ? left : PIECE, sizes, codes);
    } while (code == BYTE_UNIT_OK && texts->parsed < texts->count);
    return code;
}

/* Raises the SizeError of the text that is rejected: a str, or bytes if they are not UTF-8. */
static void reject_text(PyObject *module, const texts *texts)
{
    Py_ssize_t len = (Py_ssize_t)texts->text_len;
    PyObject *object = PyUnicode_DecodeUTF8(len ? texts->text : "", len, "strict");
    if (!object && PyErr_ExceptionMatches(PyExc_UnicodeDecodeError)) {
        PyErr_Clear();
        object = PyBytes_FromStringAndSize(texts->text, len);
    }
    if (object) {
        reject_row(module, texts->strict, object, texts->parsed);
        Py_DECREF(object);
    }
}

/* Raises the error of a code. Returns whether there is none. */
static bool is_parsed(PyObject *module, uint32_t code, const texts *texts)
{
    if (code == NO_MEMORY) {
        PyErr_NoMemory();
    } else if (code == BYTE_UNIT_INVALID_ARGUMENT) {
        PyErr_SetString(state_of(module)->byte_unit_error,
                        "offsets must not be negative, decrease, or pass the end of data");
    } else if (code != BYTE_UNIT_OK) {
        reject_text(module, texts);
    }
    return code == BYTE_UNIT_OK;
}

/* Parses the texts between offsets, of which there is one at least. The GIL is released meanwhile. */
static bool parse_between(PyObject *module, texts *texts, const Py_buffer *offsets, const validity *validity,
                          column *column)
{
    byte_unit_number *sizes = sizes_of(column);
    uint8_t *codes = codes_of(column);
    uint32_t code = NO_MEMORY;
    texts->offsets = copy_offsets(offsets);
    if (texts->offsets) {
        Py_BEGIN_ALLOW_THREADS
        code = parse_pieces(texts, validity, sizes, codes);
        Py_END_ALLOW_THREADS
    }
    PyMem_Free(texts->offsets);
    bool holds = is_parsed(module, code, texts);
    free(texts->bytes);
    return holds;
}

/* Copies the bits of `count` texts. */
static bool copy_validity(PyObject *module, const Py_buffer *bits, size_t count, validity *validity)
{
    size_t len = (size_t)bits->len, last = count ? validity->offset + count - 1 : 0;
    if (count && (last < validity->offset || last / 8 >= len)) {
        PyErr_SetString(state_of(module)->byte_unit_error, "validity must have a bit for each text");
        return false;
    }
    validity->bits = PyMem_Malloc(len);
    if (!validity->bits) {
        PyErr_NoMemory();
        return false;
    }
    if (len) {
        memcpy(validity->bits, bits->buf, len);
    }
    return true;
}

/* Parses the texts in the buffers, and returns the parts of a column. */
static PyObject *parse_views(PyObject *module, texts *texts, const Py_buffer *offsets, const Py_buffer *bits,
                             validity *validity)
{
    if (!is_offsets(offsets)) {
        PyErr_SetString(PyExc_TypeError, "offsets must be an array of signed integers of 32 or 64 bits");
        return NULL;
    }
    column column;
    size_t entries = (size_t)offsets->shape[0]; /* Arrow: an empty column may have no offset */
    texts->count = entries ? entries - 1 : 0;
    bool holds = new_column((Py_ssize_t)texts->count, &column) &&
                 (!bits || copy_validity(module, bits, texts->count, validity)) &&
                 (!entries || parse_between(module, texts, offsets, validity, &column));
    PyMem_Free(validity->bits);
    return from_column(&column, holds);
}

/* Reads the place of a bit. */
static bool to_place(PyObject *module, PyObject *object, size_t *place)
{
    Py_ssize_t number = PyNumber_AsSsize_t(object, PyExc_OverflowError);
    *place = (size_t)number;
    if (number < 0 && (!PyErr_Occurred() || PyErr_ExceptionMatches(PyExc_OverflowError))) {
        PyErr_Clear();
        PyErr_SetString(state_of(module)->byte_unit_error, "validity must have a bit for each text");
    }
    return number >= 0;
}

/* parse_buffers(data, offsets, validity or None, validity_offset, bits, ignore_case, binary, words, is_strict) */
PyObject *parse_buffers(PyObject *module, PyObject *const *args, Py_ssize_t count)
{
    uint32_t is_strict = 0;
    Py_buffer data, offsets, bits;
    validity validity = {NULL, 0};
    texts texts = {.data = &data};
    rejection rejection;
    if (!has_arguments(count, 9) || !to_place(module, args[3], &validity.offset) ||
        !parse_flags(args + 4, &texts.flags) || !add_flag(args[8], "is_strict", 1, &is_strict) ||
        PyObject_GetBuffer(args[0], &data, PyBUF_SIMPLE)) {
        return NULL;
    }
    rejection.flags = texts.flags;
    texts.strict = is_strict ? &rejection : NULL;
    PyObject *result = NULL;
    bool has_bits = args[2] != Py_None;
    if (!PyObject_GetBuffer(args[1], &offsets, PyBUF_ND | PyBUF_FORMAT)) {
        if (!has_bits || !PyObject_GetBuffer(args[2], &bits, PyBUF_SIMPLE)) {
            result = parse_views(module, &texts, &offsets, has_bits ? &bits : NULL, &validity);
            if (has_bits) {
                PyBuffer_Release(&bits);
            }
        }
        PyBuffer_Release(&offsets);
    }
    PyBuffer_Release(&data);
    return result;
}
