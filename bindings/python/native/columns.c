/* Parsing of many texts: what lists and buffers share, and lists. */
#include "native.h"

#include <string.h>

bool new_column(Py_ssize_t count, column *column)
{
    column->sizes = column->codes = NULL;
    if (count > PY_SSIZE_T_MAX / (Py_ssize_t)sizeof(byte_unit_number)) {
        PyErr_NoMemory();
        return false;
    }
    column->sizes = PyBytes_FromStringAndSize(NULL, count * (Py_ssize_t)sizeof(byte_unit_number));
    column->codes = column->sizes ? PyBytes_FromStringAndSize(NULL, count) : NULL;
    return column->codes;
}

byte_unit_number *sizes_of(column *column)
{
    return (byte_unit_number *)(void *)PyBytes_AsString(column->sizes);
}

uint8_t *codes_of(column *column)
{
    return (uint8_t *)PyBytes_AsString(column->codes);
}

PyObject *from_column(column *column, bool holds)
{
    PyObject *pair = holds ? PyTuple_Pack(2, column->sizes, column->codes) : NULL;
    Py_CLEAR(column->sizes);
    Py_CLEAR(column->codes);
    return pair;
}

size_t parse_texts(const char *bytes, const int64_t *offsets, size_t count, uint32_t flags, rejection *strict,
                   byte_unit_number *sizes, uint8_t *codes)
{
    for (size_t i = 0; i < count; i++) {
        sizes[i] = (byte_unit_number){0, 0};
        if (codes[i] == NULL_TEXT) {
            continue;
        }
        const char *text = bytes ? bytes + (offsets[i] - offsets[0]) : NULL; /* no text has a byte */
        size_t len = (size_t)(offsets[i + 1] - offsets[i]);
        uint32_t code = byte_unit_parse(text, len, flags, sizes + i, strict ? &strict->error : NULL);
        codes[i] = (uint8_t)code;
        if (strict && code != BYTE_UNIT_OK) {
            strict->code = code;
            return i;
        }
    }
    return count;
}

bool reject_row(PyObject *module, rejection *rejection, PyObject *object, size_t row)
{
    rejection->object = object;
    rejection->row = (Py_ssize_t)row;
    if (borrow_text(object, &rejection->text)) {
        reject(module, rejection, byte_unit_explain);
        release_text(&rejection->text);
    }
    return false;
}

/* A piece of the items: copies of their texts, one after the other, which are parsed while the GIL is released. */
typedef struct piece {
    size_t count;
    char *bytes;
    size_t len, room; /* the length of what is copied to `bytes`, and of `bytes` */
    int64_t *offsets; /* of PIECE + 1 */
    uint8_t *codes;   /* in the column */
} piece;

/* A piece has at most so many texts, and no text more once it has so many bytes. It is long, since a thread that takes
 * the GIL back may wait some milliseconds; one with few texts and bytes is parsed without releasing it. */
enum { PIECE = 65536, PIECE_BYTES = 4194304, FEW = 4096, FEW_BYTES = 65536 };

/* Allocates a piece of at most `count` texts. Returns false, with an error set, if there is no memory. */
static bool new_piece(size_t count, piece *piece)
{
    size_t most = count < PIECE ? count : PIECE;
    *piece = (struct piece){.offsets = PyMem_Malloc((most + 1) * sizeof *piece->offsets)};
    if (!piece->offsets) {
        PyErr_NoMemory();
    }
    return piece->offsets;
}

static void free_piece(piece *piece)
{
    PyMem_Free(piece->bytes);
    PyMem_Free(piece->offsets);
}

/* Adds the bytes of a text. */
static bool copy_text(const text *text, piece *piece)
{
    size_t len = (size_t)text->len, needed = piece->len + len;
    if (needed > piece->room) {
        /* Room for the texts that follow, unless this is the last of the piece. */
        size_t room = needed < PIECE_BYTES ? needed + needed / 2 + 64 : needed;
        char *bytes = PyMem_Realloc(piece->bytes, room);
        if (!bytes) {
            PyErr_NoMemory();
            return false;
        }
        piece->bytes = bytes;
        piece->room = room;
    }
    if (len) {
        memcpy(piece->bytes + piece->len, text->bytes, len);
    }
    piece->len = needed;
    return true;
}

/* Names the item if it has the wrong type. Returns false. */
static bool wrong_item(PyObject *item, size_t i)
{
    char name[32];
    PyOS_snprintf(name, sizeof name, "texts[%zu]", i);
    return !PyErr_Occurred() && wrong_type(name, "str, bytes or null", item);
}

/* Adds the text of an item, or an empty one if it is null. */
static bool add_item(PyObject *module, PyObject *items, size_t i, piece *piece)
{
    text text;
    PyObject *item = PyTuple_GetItem(items, (Py_ssize_t)i);
    bool is_text = borrow_text(item, &text);
    if (!is_text && (PyErr_Occurred() || !is_null(module, item))) {
        return wrong_item(item, i);
    }
    if (is_text && !copy_text(&text, piece)) {
        release_text(&text);
        return false;
    }
    release_text(&text);
    piece->codes[piece->count++] = is_text ? BYTE_UNIT_OK : NULL_TEXT;
    piece->offsets[piece->count] = (int64_t)piece->len;
    return true;
}

/* Copies the texts of the items from the first on. */
static bool fill_piece(PyObject *module, PyObject *items, size_t first, piece *piece)
{
    size_t left = (size_t)PyTuple_Size(items) - first;
    piece->count = piece->len = 0;
    piece->offsets[0] = 0;
    while (piece->count < left && piece->count < PIECE && piece->len < PIECE_BYTES) {
        if (!add_item(module, items, first + piece->count, piece)) {
            return false;
        }
    }
    return true;
}

/* Parses the texts of a piece, without the GIL if they are not few. Returns what parse_texts does. */
static size_t parse_piece(const piece *piece, uint32_t flags, rejection *strict, byte_unit_number *sizes)
{
    bool is_long = piece->count >= FEW || piece->len >= FEW_BYTES;
    PyThreadState *thread = is_long ? PyEval_SaveThread() : NULL;
    size_t parsed = parse_texts(piece->bytes, piece->offsets, piece->count, flags, strict, sizes, piece->codes);
    if (is_long) {
        PyEval_RestoreThread(thread);
    }
    return parsed;
}

/* Parses the texts of a tuple. Returns false, with an error set, if there is no memory, an item is no text or, if it is
 * strict, a text is rejected. */
static bool parse_items(PyObject *module, PyObject *items, uint32_t flags, bool is_strict, column *column)
{
    size_t first = 0, count = (size_t)PyTuple_Size(items);
    rejection rejection = {.flags = flags};
    piece piece;
    bool holds = new_piece(count, &piece);
    while (holds && first < count) {
        piece.codes = codes_of(column) + first;
        holds = fill_piece(module, items, first, &piece);
        if (holds) {
            size_t parsed = parse_piece(&piece, flags, is_strict ? &rejection : NULL, sizes_of(column) + first);
            first += parsed;
            holds = parsed == piece.count ||
                    reject_row(module, &rejection, PyTuple_GetItem(items, (Py_ssize_t)first), first);
        }
    }
    free_piece(&piece);
    return holds;
}

/* Returns the items of an iterable as a tuple, which no other thread can change: a list it could, by the module gc. The
 * tuple is made of a list, since one that grows raises an error if another thread has it from there. */
static PyObject *to_items(PyObject *iterable)
{
    PyObject *list = PySequence_Fast(iterable, "texts must be an iterable of texts");
    PyObject *items = list ? PySequence_Tuple(list) : NULL;
    Py_XDECREF(list);
    return items;
}

/* parse_many(texts, bits, ignore_case, binary, words, is_strict) */
PyObject *parse_many(PyObject *module, PyObject *const *args, Py_ssize_t count)
{
    uint32_t flags, is_strict = 0;
    if (!has_arguments(count, 6) || !parse_flags(args + 1, &flags) || !add_flag(args[5], "is_strict", 1, &is_strict)) {
        return NULL;
    }
    PyObject *items = to_items(args[0]);
    if (!items) {
        return NULL;
    }
    column column;
    bool holds = new_column(PyTuple_Size(items), &column) && parse_items(module, items, flags, is_strict, &column);
    Py_DECREF(items);
    return from_column(&column, holds);
}
