/* byte_unit: exact sizes in bytes and in bits. The C API of a library that is written in Rattle and proved.
 *
 * Link libbyte_unit.a or libbyte_unit.so (`tools/make-libraries DIR` builds both), which run on every x86-64 processor.
 * The library calls memcpy, memmove and memset, and one function of libgcc, __udivti3. It does not allocate and keeps
 * no state between calls, so every call may be made from any thread. No call ends the program: built by cargo, the
 * library names abort in place of __udivti3, for checks that rustc adds; one that failed would call it, but none does,
 * by what is proved of the sources.
 *
 * Preconditions of every call, which nothing checks:
 *
 * - A pointer is valid for its type and its length: `text` for reading `len` bytes, `out` for writing `out_len` bytes,
 *   arrays for their number of elements. With a length of 0 it may be NULL, as an empty std::string_view, Go slice or
 *   Arrow buffer has it. `error` may be NULL. No other pointer to a single value may.
 * - What is written overlaps no other argument of the call, and no other thread uses it during the call. It need not be
 *   initialized. No other thread writes what is read.
 *
 * Every other argument is checked: a size that is out of range, an unknown code or flag, an invalid spec, offsets that
 * do not fit and, where a text is parsed, bytes that are not UTF-8 are reported, and nothing is written but what a call
 * says. The README.md of the C API has more.
 *
 * Callers by a foreign function interface: a `static inline` call is no symbol of the library. The symbol is the name
 * with `_to` added, and takes the length of each array after its pointer: byte_unit_parse_to(text, len, flags, size,
 * error, error_len), where error_len is 1, or 0 for no error. With BYTE_UNIT_WORDS byte_unit_parse calls
 * byte_unit_parse_words_to, and else with BYTE_UNIT_BINARY_PREFIXES byte_unit_parse_binary_to.
 */
#ifndef BYTE_UNIT_H
#define BYTE_UNIT_H

#include <stdbool.h>
#include <stddef.h>
#include <stdint.h>

#ifdef __cplusplus
extern "C" {
#endif

/* The version of this header: major * 1000000 + minor * 1000 + patch. */
#define BYTE_UNIT_VERSION_MAJOR 3
#define BYTE_UNIT_VERSION_MINOR 0
#define BYTE_UNIT_VERSION_PATCH 0
#define BYTE_UNIT_VERSION 3000000
#define BYTE_UNIT_VERSION_STRING "3.0.0"

/* An unsigned integer of 128 bits: high * 2^64 + low. On a little-endian machine, as x86-64 is, an array of these is
 * laid out as Arrow's Decimal128 of scale 0. */
typedef struct byte_unit_number {
    uint64_t low;
    uint64_t high;
} byte_unit_number;

/* The limit of sizes, 10^30: a size is less. BYTE_UNIT_SIZE_LIMIT_INIT initializes a byte_unit_number. */
#define BYTE_UNIT_SIZE_LIMIT_LOW UINT64_C(5076944270305263616)
#define BYTE_UNIT_SIZE_LIMIT_HIGH UINT64_C(54210108624)
#define BYTE_UNIT_SIZE_LIMIT_INIT { BYTE_UNIT_SIZE_LIMIT_LOW, BYTE_UNIT_SIZE_LIMIT_HIGH }

/* A decimal: whole + fraction / 10^28. The fraction is less than 10^28. */
typedef struct byte_unit_decimal {
    byte_unit_number whole;
    byte_unit_number fraction;
} byte_unit_decimal;

/* Flags. A flags word is the sum of its flags. Each call lists the flags that it knows; a call with any other is
 * rejected. */
enum {
    BYTE_UNIT_BYTES = 0,           /* sizes are in bytes: the default */
    BYTE_UNIT_BITS = 1,            /* sizes are in bits */
    BYTE_UNIT_IGNORE_CASE = 2,     /* parsing: the suffix `b` means bytes too */
    BYTE_UNIT_EITHER_KIND = 4,     /* choice of a unit: from the units of bytes and of bits */
    BYTE_UNIT_BINARY_PREFIXES = 8, /* parsing: `K` and `KB` are by 1024, as `Ki` and `KiB` are, up to `R` and `RB` */
    BYTE_UNIT_WORDS = 16           /* parsing: words for units are read too, as in `5 bytes` and `10 MegaBytes` */
};

/* A format spec, with the fields of a format spec of the Rust crate. If every field is zero, it is `{}`: digits
 * only. `{ .alternate = 1 }` is `{:#}`, `{ .width = 12, .alternate = 1 }` is `{:#12}`, and
 * `{ .precision = 2, .has_precision = 1 }` is `{:.2}`: C++20 takes these initializers too, which name the fields in
 * their order; with -Wextra, g++ warns of the fields that they leave out. BYTE_UNIT_SPEC_INIT initializes a
 * byte_unit_spec to zeros, in C and in C++. A spec with any other value in a field than those listed is invalid, and is
 * rejected. */
typedef struct byte_unit_spec {
    uint32_t precision;    /* digits after the decimal point, 0 to 65535, if has_precision is 1; otherwise 0 */
    uint32_t width;        /* minimum width in columns, 1 to 65535; 0: none */
    uint8_t has_precision; /* whether a precision is set: 0 or 1 */
    uint8_t alternate;     /* whether a size is formatted with a unit: 0 or 1 */
    uint8_t sign;          /* BYTE_UNIT_SIGN_.. */
    uint8_t align;         /* BYTE_UNIT_ALIGN_.. */
} byte_unit_spec;

#define BYTE_UNIT_SPEC_INIT { 0, 0, 0, 0, 0, 0 }

enum {
    BYTE_UNIT_SIGN_UNSET, /* no sign; one space before a unit */
    BYTE_UNIT_SIGN_PLUS,  /* a plus sign before digits only; the spaces and the unit take four columns */
    BYTE_UNIT_SIGN_MINUS  /* no sign; no space before a unit */
};

enum {
    BYTE_UNIT_ALIGN_UNSET, /* digits only: to the right; with a unit: the number to the left, the unit to the right */
    BYTE_UNIT_ALIGN_LEFT,
    BYTE_UNIT_ALIGN_CENTER,
    BYTE_UNIT_ALIGN_RIGHT
};

/* The details of a parse error. A field that the error's code does not use is zero. */
typedef struct byte_unit_error {
    uint32_t character;               /* NOT_NUMBER, UNIT: the character that is rejected; if the string ends too early,
                                       * the point at its end, or `i` if it ends in `bi` or `bI` */
    uint8_t also_expect_no_character; /* UNIT: 1 if the string could end before that character */
    char expected[16];                /* UNIT: the characters that are expected in its place, zero-terminated */
    byte_unit_decimal number;         /* EXCEEDED_BOUNDS: the number as it was written, without its unit */
    size_t position;                  /* all but EXCEEDED_BOUNDS: the index that the calls for positions write */
} byte_unit_error;

/* The codes that the parsing calls return. */
enum {
    BYTE_UNIT_OK,
    BYTE_UNIT_NO_VALUE,        /* the string is empty or only white space */
    BYTE_UNIT_NOT_NUMBER,      /* a digit is expected in place of the character, or after a point at the end */
    BYTE_UNIT_NUMBER_TOO_LONG, /* the integer part is 2^112 or more, or more than 28 digits follow the decimal point */
    BYTE_UNIT_EXCEEDED_BOUNDS, /* the size is 10^30 or more */
    BYTE_UNIT_UNIT,            /* the unit is misspelled */
    BYTE_UNIT_NOT_UTF8,        /* the bytes are not UTF-8 */
    BYTE_UNIT_INVALID_ARGUMENT /* an unknown flag, or offsets or lengths of many texts that do not fit */
};

/* First are the units without a prefix. Of each prefix, the units of bits are before those of bytes, and those by 1000
 * before those by 1024. The codes of the units. */
enum {
    BYTE_UNIT_BIT, BYTE_UNIT_B,
    BYTE_UNIT_KBIT, BYTE_UNIT_KIBIT, BYTE_UNIT_KB, BYTE_UNIT_KIB,
    BYTE_UNIT_MBIT, BYTE_UNIT_MIBIT, BYTE_UNIT_MB, BYTE_UNIT_MIB,
    BYTE_UNIT_GBIT, BYTE_UNIT_GIBIT, BYTE_UNIT_GB, BYTE_UNIT_GIB,
    BYTE_UNIT_TBIT, BYTE_UNIT_TIBIT, BYTE_UNIT_TB, BYTE_UNIT_TIB,
    BYTE_UNIT_PBIT, BYTE_UNIT_PIBIT, BYTE_UNIT_PB, BYTE_UNIT_PIB,
    BYTE_UNIT_EBIT, BYTE_UNIT_EIBIT, BYTE_UNIT_EB, BYTE_UNIT_EIB,
    BYTE_UNIT_ZBIT, BYTE_UNIT_ZIBIT, BYTE_UNIT_ZB, BYTE_UNIT_ZIB,
    BYTE_UNIT_YBIT, BYTE_UNIT_YIBIT, BYTE_UNIT_YB, BYTE_UNIT_YIB,
    BYTE_UNIT_RBIT, BYTE_UNIT_RIBIT, BYTE_UNIT_RB, BYTE_UNIT_RIB
};

/* The code that no unit has. */
#define BYTE_UNIT_NO_UNIT UINT32_MAX

/* The codes of the unit types: the units by 1024, those by 1000, and both. */
enum {
    BYTE_UNIT_BINARY,
    BYTE_UNIT_DECIMAL,
    BYTE_UNIT_BOTH
};

/* A buffer length that fits the message of every error, and every text of a size or a number without a width and with
 * a precision of at most 200 or none. */
#define BYTE_UNIT_BUFFER_SIZE 256

/* A buffer length that fits what byte_unit_quote writes. */
#define BYTE_UNIT_QUOTE_SIZE 482

/* Returns the version of the linked library, as BYTE_UNIT_VERSION is that of this header. */
uint32_t byte_unit_version(void);

/* The symbols of the inline calls below. */
uint32_t byte_unit_parse_to(const char *text, size_t len, uint32_t flags, byte_unit_number *size,
                            byte_unit_error *error, size_t error_len);
uint32_t byte_unit_parse_binary_to(const char *text, size_t len, uint32_t flags, byte_unit_number *size,
                                   byte_unit_error *error, size_t error_len);
uint32_t byte_unit_parse_words_to(const char *text, size_t len, uint32_t flags, byte_unit_number *size,
                                  byte_unit_error *error, size_t error_len);
uint32_t byte_unit_parse_unit_to(const char *text, size_t len, uint32_t flags, uint32_t *unit, byte_unit_error *error,
                                 size_t error_len);
uint32_t byte_unit_parse_many_to(const char *data, size_t data_len, const int64_t *offsets, size_t offsets_len,
                                 uint32_t flags, byte_unit_number *sizes, size_t sizes_len, uint8_t *codes,
                                 size_t codes_len);
uint32_t byte_unit_parse_many_32_to(const char *data, size_t data_len, const int32_t *offsets, size_t offsets_len,
                                    uint32_t flags, byte_unit_number *sizes, size_t sizes_len, uint8_t *codes,
                                    size_t codes_len);

/* Parses a size: the exact value, rounded up to a whole byte, or to a whole bit with BYTE_UNIT_BITS. Returns
 * BYTE_UNIT_OK and writes `size`, or returns the code of the error and writes its details to `error` if it is not
 * NULL. Writes nothing if it returns BYTE_UNIT_NOT_UTF8 or BYTE_UNIT_INVALID_ARGUMENT.
 * Flags: BITS, IGNORE_CASE (which has no effect with BITS), BINARY_PREFIXES, WORDS. */
static inline uint32_t byte_unit_parse(const char *text, size_t len, uint32_t flags, byte_unit_number *size,
                                       byte_unit_error *error)
{
    return flags < BYTE_UNIT_BINARY_PREFIXES
               ? byte_unit_parse_to(text, len, flags, size, error, error ? 1 : 0)
           : flags & BYTE_UNIT_WORDS
               ? byte_unit_parse_words_to(text, len, flags, size, error, error ? 1 : 0)
               : byte_unit_parse_binary_to(text, len, flags, size, error, error ? 1 : 0);
}

/* Parses a unit by its name or another of its spellings: `KiB`, `kib`, `K`, ` MBits `, and the empty string for B.
 * Returns BYTE_UNIT_OK and writes its code, or returns BYTE_UNIT_UNIT and writes the details to `error` if it is not
 * NULL. Writes nothing if it returns BYTE_UNIT_NOT_UTF8 or BYTE_UNIT_INVALID_ARGUMENT.
 * Flags: BITS (a spelling without a suffix is of bits: `K` is Kb), IGNORE_CASE. */
static inline uint32_t byte_unit_parse_unit(const char *text, size_t len, uint32_t flags, uint32_t *unit,
                                            byte_unit_error *error)
{
    return byte_unit_parse_unit_to(text, len, flags, unit, error, error ? 1 : 0);
}

/* Parses `count` texts, each as byte_unit_parse does. Text i is data[offsets[i]] up to data[offsets[i + 1]], so
 * `offsets` has count + 1 elements: Arrow's layout of a LargeUtf8 or LargeBinary column. If `count` is 0, `offsets`
 * may be NULL. Returns BYTE_UNIT_OK, and writes the code of each text to `codes` and its size to `sizes`, 0 there if
 * it has none. Returns BYTE_UNIT_INVALID_ARGUMENT and writes nothing if a flag is unknown, an offset is negative,
 * less than the one before it or greater than `data_len`.
 * Flags: BITS, IGNORE_CASE, BINARY_PREFIXES, WORDS. */
static inline uint32_t byte_unit_parse_many(const char *data, size_t data_len, const int64_t *offsets, size_t count,
                                            uint32_t flags, byte_unit_number *sizes, uint8_t *codes)
{
    return byte_unit_parse_many_to(data, data_len, offsets, offsets ? count + 1 : 0, flags, sizes, count, codes,
                                   count);
}

/* The same with offsets of 32 bits: Arrow's layout of a Utf8 or Binary column. */
static inline uint32_t byte_unit_parse_many_32(const char *data, size_t data_len, const int32_t *offsets, size_t count,
                                               uint32_t flags, byte_unit_number *sizes, uint8_t *codes)
{
    return byte_unit_parse_many_32_to(data, data_len, offsets, offsets ? count + 1 : 0, flags, sizes, count,
                                      codes, count);
}

/* Writes to `position` the index in bytes, from 0, of the first wrong character of a string that byte_unit_parse
 * rejects: up to there the string, without the white space at its ends, begins a size, and with that character it
 * begins none. If it ends too early, the index is that of its end, before white space there; of white space alone, its
 * length. The index is the same with all flags, and is the `position` of the error of byte_unit_parse. Returns false,
 * and writes nothing, if the string is a size without words, if only its size is 10^30 or more, or if the bytes are not
 * UTF-8. */
bool byte_unit_error_position(const char *text, size_t len, size_t *position);

/* The same for a string that byte_unit_parse_unit rejects, and for its error. */
bool byte_unit_unit_error_position(const char *text, size_t len, size_t *position);

/* The calls that write a text return its length, also if it is greater than `out_len`; then they write nothing. They
 * write no terminating zero, and leave the bytes after the text as they are. */

/* Writes the error message for a string that byte_unit_parse rejects, at most 256 bytes of UTF-8. It ends with the
 * number, counted from 1, of the character at the index that byte_unit_error_position writes: for `-1` it is
 * `the character '-' is not a number (character 1)`. If the string, without white space at its ends, ends too early,
 * as `1.`, the message ends with `(at the end of the text)`; it has neither if the size is 10^30 or more, if the bytes
 * are not UTF-8, or if a flag is unknown. Returns 0 if and only if all flags are known and the string represents a size: an
 * unknown flag has a message too.
 * Flags: BITS, IGNORE_CASE, BINARY_PREFIXES, WORDS. */
size_t byte_unit_explain(const char *text, size_t len, uint32_t flags, char *out, size_t out_len);

/* A buffer length that fits what byte_unit_hint writes. */
#define BYTE_UNIT_HINT_SIZE 64

/* Writes a hint for a string that byte_unit_parse rejects: how the size that was meant is written. For `5 bytes` it is
 * `write 'B', or read it with the option 'words'`, and for `1,024` `digits are not grouped, and the point is '.'`.
 * Returns 0 if the string is a size without words, if it has no hint, or if the bytes are not UTF-8. */
size_t byte_unit_hint(const char *text, size_t len, char *out, size_t out_len);

/* Writes the error message for a string that byte_unit_parse_unit rejects, at most 256 bytes of UTF-8. It ends with
 * such words unless the bytes are not UTF-8 or a flag is unknown. Returns 0 if and only if all flags are known and
 * the string is a unit: an unknown flag has a message too.
 * Flags: BITS, IGNORE_CASE. */
size_t byte_unit_explain_unit(const char *text, size_t len, uint32_t flags, char *out, size_t out_len);

/* Writes a string so that a message can show it: at most its first 80 bytes, in whole characters, and `..` if there are
 * more. Control characters, format characters and separators other than the space are escaped, as `\u{a0}`; if these
 * bytes are not UTF-8, each one that is not printable ASCII is, as `\xff`. No quotes are added, and those of the string
 * are not escaped, nor are backslashes. Returns 0 only for an empty string. */
size_t byte_unit_quote(const char *text, size_t len, char *out, size_t out_len);

/* Writes the text of a size: its digits, or in the alternate form the size in the largest unit of its kind, not
 * above it, that represents it exactly within the precision (3 if none is set, 28 at most), or in B or b if there is
 * none. Returns 0 if the size is out of range, the spec is invalid or a flag is unknown.
 * Flags: BITS. */
size_t byte_unit_text(byte_unit_number size, uint32_t flags, byte_unit_spec spec, char *out, size_t out_len);

/* Writes the text of a size in a unit. Without a precision the number has all its digits, and so it has in `b` and `B`
 * unless `alternate` is set. With a precision it is rounded to that number of digits after the point, ties to the even
 * digit; with `alternate` to at most 16 of them, ties up, without zeros at the end. Returns 0 if the size is out of
 * range, the unit or a flag is unknown, or the spec is invalid.
 * Flags: BITS. */
size_t byte_unit_adjusted_text(byte_unit_number size, uint32_t flags, uint32_t unit, byte_unit_spec spec, char *out,
                               size_t out_len);

/* Writes the text of a size, as byte_unit_adjusted_text does, in the unit that byte_unit_appropriate_unit returns: the
 * largest of the unit type that is not above the size. It is chosen before the number is rounded: with precision 1,
 * 999,999 bytes are "1000.0 KB". Returns 0 if the size is out of range, the unit type or a flag is unknown, or the spec
 * is invalid.
 * Flags: BITS. */
size_t byte_unit_approximate_text(byte_unit_number size, uint32_t flags, uint32_t unit_type, byte_unit_spec spec,
                                  char *out, size_t out_len);

/* Writes the name of a unit, such as "KiB". Returns 0 if the unit is unknown. */
size_t byte_unit_unit_name(uint32_t unit, char *out, size_t out_len);

/* Returns the largest unit of the size's kind and of the unit type that is not above the size, or B or b if there is
 * none. The number may be 10^30 or more. Returns BYTE_UNIT_NO_UNIT if the unit type or a flag is unknown.
 * Flags: BITS. */
uint32_t byte_unit_appropriate_unit(byte_unit_number size, uint32_t flags, uint32_t unit_type);

/* Returns the largest unit, not above the size, that divides it, or B or b if there is none, and writes the size in
 * that unit to `count`. The unit is of the size's kind, or of either kind with BYTE_UNIT_EITHER_KIND. Returns
 * BYTE_UNIT_NO_UNIT and writes nothing if the size is out of range or a flag is unknown.
 * Flags: BITS, EITHER_KIND. */
uint32_t byte_unit_exact_unit(byte_unit_number size, uint32_t flags, byte_unit_number *count);

/* The same, with the largest unit, not above the size, that represents it exactly within `precision` digits after the
 * decimal point, 28 at most.
 * Flags: BITS, EITHER_KIND. */
uint32_t byte_unit_recoverable_unit(byte_unit_number size, uint32_t flags, size_t precision, byte_unit_decimal *count);

/* Writes the size of `count` units, rounded up to a whole byte, or bit with BYTE_UNIT_BITS, and returns true.
 * Returns false and writes nothing if the size is 10^30 or more, or the unit or a flag is unknown.
 * Flags: BITS. */
bool byte_unit_from_unit(byte_unit_number count, uint32_t unit, uint32_t flags, byte_unit_number *size);

/* The calls below are the same for sizes in bytes and in bits. */

/* Writes the sum of two sizes, and returns true. Returns false and writes nothing if the sum is 10^30 or more. */
bool byte_unit_add(byte_unit_number a, byte_unit_number b, byte_unit_number *sum);

/* Writes the difference of two sizes, and returns true. Returns false and writes nothing if `b` is greater than `a`, or
 * if `a` is 10^30 or more. */
bool byte_unit_subtract(byte_unit_number a, byte_unit_number b, byte_unit_number *difference);

/* Returns -1 if `a` is less than `b`, 0 if they are equal, and 1 if `a` is greater. They may be 10^30 or more. */
int32_t byte_unit_compare(byte_unit_number a, byte_unit_number b);

/* Returns the size of a number of 64 bits, such as a uint64_t or a size_t of a program. It is never out of range. */
byte_unit_number byte_unit_from_u64(uint64_t value);

/* Writes a size as a number of 64 bits, and returns true. Returns false and writes nothing if it is 2^64 or more. */
bool byte_unit_to_u64(byte_unit_number size, uint64_t *value);

#ifdef __cplusplus
}
#endif

#endif
