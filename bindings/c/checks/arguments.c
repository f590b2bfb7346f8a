/* Arguments that are at the border of what each call takes, or past it: specs with one field that is invalid, flags
 * that are unknown, null pointers, and offsets that do not fit. Prints the number of checks, and exits with 1 if one
 * is wrong. What a call must not write has a 7, a 77 or an `x` before it. It is C and C++. */
#include "byte_unit.h"

#include <stdio.h>
#include <string.h>

static unsigned long checks, wrong;

static void check(const char *what, bool holds)
{
    checks++;
    if (!holds) {
        wrong++;
        printf("wrong: %s\n", what);
    }
}

static byte_unit_number number(uint64_t n)
{
    byte_unit_number result = { 0, 0 };
    result.low = n;
    return result;
}

/* Whether the calls that take a spec reject this one, and write nothing. */
static bool rejects(byte_unit_spec spec)
{
    char out[8] = { 'x', 'x', 'x', 'x', 'x', 'x', 'x', 'x' };
    size_t length = byte_unit_text(number(1), 0, spec, out, sizeof out);

    length += byte_unit_adjusted_text(number(1), 0, BYTE_UNIT_B, spec, out, sizeof out);
    length += byte_unit_approximate_text(number(1), 0, BYTE_UNIT_BOTH, spec, out, sizeof out);
    return length == 0 && memcmp(out, "xxxxxxxx", sizeof out) == 0;
}

static void specs(void)
{
    byte_unit_number greatest = BYTE_UNIT_SIZE_LIMIT_INIT;
    byte_unit_spec zero, spec;
    char out[BYTE_UNIT_BUFFER_SIZE];

    greatest.low--;
    memset(&zero, 0, sizeof zero);
    check("a zeroed spec", byte_unit_text(number(1536), 0, zero, out, sizeof out) == 4 && memcmp(out, "1536", 4) == 0);
    check("BYTE_UNIT_SIZE_LIMIT_INIT", byte_unit_text(greatest, 0, zero, out, sizeof out) == 30
                                           && memcmp(out, "999999999999999999999999999999", 30) == 0);
    spec = zero, spec.has_precision = 1;
    check("precision 0", byte_unit_adjusted_text(number(1536), 0, BYTE_UNIT_KIB, spec, out, sizeof out) == 5
                             && memcmp(out, "2 KiB", 5) == 0);
    for (spec.precision = 0; spec.precision <= 200; spec.precision++)
        for (uint32_t unit = 0; unit <= BYTE_UNIT_RIB; unit++)
            check("BYTE_UNIT_BUFFER_SIZE", byte_unit_adjusted_text(greatest, 0, unit, spec, out, sizeof out)
                                               <= sizeof out);
    spec.precision = 65535;
    check("precision 65535", !rejects(spec));
    for (int bit = 16; bit < 32; bit++) {
        spec.precision = UINT32_C(1) << bit;
        check("a precision that is too large", rejects(spec));
    }
    spec = zero, spec.precision = 1;
    check("a precision without has_precision", rejects(spec));
    spec = zero, spec.width = 65535;
    check("width 65535", !rejects(spec));
    for (int bit = 16; bit < 32; bit++) {
        spec.width = UINT32_C(1) << bit;
        check("a width that is too large", rejects(spec));
    }
    for (int code = 0; code < 256; code++) {
        spec = zero, spec.has_precision = (uint8_t)code;
        check("has_precision", rejects(spec) == (code > 1));
        spec = zero, spec.alternate = (uint8_t)code;
        check("alternate", rejects(spec) == (code > 1));
        spec = zero, spec.sign = (uint8_t)code;
        check("sign", rejects(spec) == (code > BYTE_UNIT_SIGN_MINUS));
        spec = zero, spec.align = (uint8_t)code;
        check("align", rejects(spec) == (code > BYTE_UNIT_ALIGN_RIGHT));
    }
}

/* Each call with these flags, by whether it knows them. The lengths are those of the messages "no value can be found
 * (at the end of the text)", "a flag is unknown" and "the character 'x' is incorrect ('t' is expected) (character 3)". */
static void flags(uint32_t word)
{
    static const int64_t offsets[] = { 0, 1 };
    bool parses_units = (word & ~(uint32_t)(BYTE_UNIT_BITS | BYTE_UNIT_IGNORE_CASE)) == 0;
    bool parses = (word & ~(uint32_t)(BYTE_UNIT_BITS | BYTE_UNIT_IGNORE_CASE | BYTE_UNIT_BINARY_PREFIXES
                                      | BYTE_UNIT_WORDS)) == 0;
    bool formats = (word & ~(uint32_t)BYTE_UNIT_BITS) == 0;
    bool chooses = (word & ~(uint32_t)(BYTE_UNIT_BITS | BYTE_UNIT_EITHER_KIND)) == 0;
    byte_unit_number size = { 7, 7 };
    byte_unit_decimal decimal = { { 7, 7 }, { 7, 7 } };
    byte_unit_error error;
    byte_unit_spec spec;
    uint32_t unit = 77;
    uint8_t code = 77;
    char out[64];

    memset(&spec, 0, sizeof spec);
    memset(&error, 'x', sizeof error);
    check("parse", byte_unit_parse("x", 1, word, &size, &error)
                       == (parses ? (uint32_t)BYTE_UNIT_NOT_NUMBER : (uint32_t)BYTE_UNIT_INVALID_ARGUMENT));
    check("error", error.character == (parses ? 'x' : UINT32_C(0x78787878)) && (error.position == 0) == parses);
    check("size", size.low == 7 && (byte_unit_parse("1", 1, word, &size, NULL) == BYTE_UNIT_OK) == parses
                      && size.low == (parses ? 1 : 7));
    check("parse_unit", (byte_unit_parse_unit("b", 1, word, &unit, NULL) == BYTE_UNIT_OK) == parses_units
                            && (unit == 77) == !parses_units);
    check("parse_many", (byte_unit_parse_many("1", 1, offsets, 1, word, &size, &code) == BYTE_UNIT_OK) == parses
                            && code == (parses ? 0 : 77));
    check("explain", byte_unit_explain("", 0, word, out, sizeof out) == (parses ? 46u : 17u)
                         && memcmp(out, parses ? "no value" : "a flag i", 8) == 0);
    check("explain_unit", byte_unit_explain_unit("bix", 3, word, out, sizeof out) == (parses_units ? 62u : 17u)
                              && memcmp(out, parses_units ? "the char" : "a flag i", 8) == 0);
    check("text", (byte_unit_text(number(1), word, spec, out, sizeof out) != 0) == formats);
    check("adjusted_text", (byte_unit_adjusted_text(number(1), word, 0, spec, out, sizeof out) != 0) == formats);
    check("approximate_text", (byte_unit_approximate_text(number(1), word, 0, spec, out, sizeof out) != 0) == formats);
    check("appropriate_unit", (byte_unit_appropriate_unit(number(1), word, 0) != BYTE_UNIT_NO_UNIT) == formats);
    size.high = 7;
    check("from_unit", byte_unit_from_unit(number(1), 0, word, &size) == formats && (size.high == 7) == !formats);
    size.high = 7;
    check("exact_unit", (byte_unit_exact_unit(number(1), word, &size) != BYTE_UNIT_NO_UNIT) == chooses
                            && (size.high == 7) == !chooses);
    check("recoverable_unit", (byte_unit_recoverable_unit(number(1), word, 0, &decimal) != BYTE_UNIT_NO_UNIT) == chooses
                                  && (decimal.whole.high == 7) == !chooses);
}

/* NULL with length 0, and without an error. The lengths of messages are those above. */
static void nulls(void)
{
    static const int64_t zeros[3] = { 0, 0, 0 };
    byte_unit_number size = { 7, 7 }, sizes[2] = { { 7, 7 }, { 7, 7 } };
    uint8_t codes[2] = { 77, 77 };
    byte_unit_error error;
    byte_unit_spec spec;
    uint32_t unit = 77;
    size_t position = 77;

    memset(&spec, 0, sizeof spec);
    check("parse", byte_unit_parse(NULL, 0, 0, &size, &error) == BYTE_UNIT_NO_VALUE && size.low == 7);
    check("parse without error", byte_unit_parse(NULL, 0, 0, &size, NULL) == BYTE_UNIT_NO_VALUE);
    check("each error without a place for it", byte_unit_parse("x", 1, 0, &size, NULL) == BYTE_UNIT_NOT_NUMBER
              && byte_unit_parse("1x", 2, 0, &size, NULL) == BYTE_UNIT_UNIT
              && byte_unit_parse("1000 RB", 7, 0, &size, NULL) == BYTE_UNIT_EXCEEDED_BOUNDS
              && byte_unit_parse("\xff", 1, 0, &size, NULL) == BYTE_UNIT_NOT_UTF8
              && byte_unit_parse_unit("x", 1, 0, &unit, NULL) == BYTE_UNIT_UNIT);
    check("parse_unit", byte_unit_parse_unit(NULL, 0, 0, &unit, NULL) == BYTE_UNIT_OK && unit == BYTE_UNIT_B);
    check("explain", byte_unit_explain(NULL, 0, 0, NULL, 0) == 46 && byte_unit_explain("1", 1, 0, NULL, 0) == 0
                         && byte_unit_explain("1", 1, BYTE_UNIT_EITHER_KIND, NULL, 0) == 17);
    check("explain_unit", byte_unit_explain_unit(NULL, 0, 0, NULL, 0) == 0
                              && byte_unit_explain_unit("bix", 3, 0, NULL, 0) == 62);
    check("error_position", byte_unit_error_position(NULL, 0, &position) && position == 0);
    check("unit_error_position", !byte_unit_unit_error_position(NULL, 0, &position)
                                     && !byte_unit_error_position("1\xff", 2, &position) && position == 0);
    check("text", byte_unit_text(number(1536), 0, spec, NULL, 0) == 4);
    check("adjusted_text", byte_unit_adjusted_text(number(1536), 0, BYTE_UNIT_KIB, spec, NULL, 0) == 7);
    check("approximate_text", byte_unit_approximate_text(number(1536), 0, BYTE_UNIT_BOTH, spec, NULL, 0) == 7);
    check("unit_name", byte_unit_unit_name(BYTE_UNIT_KIB, NULL, 0) == 3);
    check("parse_many", byte_unit_parse_many(NULL, 0, NULL, 0, 0, NULL, NULL) == BYTE_UNIT_OK);
    check("parse_many_32", byte_unit_parse_many_32(NULL, 0, NULL, 0, 0, NULL, NULL) == BYTE_UNIT_OK);
    check("empty texts without data", byte_unit_parse_many(NULL, 0, zeros, 2, 0, sizes, codes) == BYTE_UNIT_OK
              && codes[0] == BYTE_UNIT_NO_VALUE && codes[1] == BYTE_UNIT_NO_VALUE && sizes[1].low == 0);
}

/* A text as a message repeats it: escaped, cut between characters, and never longer than BYTE_UNIT_QUOTE_SIZE. */
static void quotes(void)
{
    char out[BYTE_UNIT_QUOTE_SIZE] = "x", text[82];

    check("quote", byte_unit_quote("5\tKB", 4, out, sizeof out) == 8 && memcmp(out, "5\\u{9}KB", 8) == 0);
    check("not UTF-8", byte_unit_quote("~\x7f\xc3", 3, out, sizeof out) == 9 && memcmp(out, "~\\x7f\\xc3", 9) == 0);
    memset(text, 'y', sizeof text);
    check("80 bytes", byte_unit_quote(text, 80, out, sizeof out) == 80 && memcmp(out, text, 80) == 0);
    memcpy(text + 79, "\xc3\xa9", 2);
    check("a character at byte 80", byte_unit_quote(text, 82, out, sizeof out) == 81
                                        && memcmp(out + 78, "y..", 3) == 0 && out[81] != '.');
    memset(text, 27, sizeof text);
    check("no room", byte_unit_quote(text, 81, out, sizeof out - 1) == sizeof out && memcmp(out + 78, "y..", 3) == 0);
    check("the longest", byte_unit_quote(text, 81, out, sizeof out) == sizeof out
                             && memcmp(out + 468, "\\u{1b}\\u{1b}..", 14) == 0);
    check("nothing", byte_unit_quote(NULL, 0, NULL, 0) == 0);
}

/* Words are read with their flag, beside the others; a hint fits BYTE_UNIT_HINT_SIZE, and tells what to write. */
static void words_and_hints(void)
{
    static const char rate[] = "a size has no rate: leave out what it is per second";
    static const char word[] = "write 'KB', or read it with the option 'words'";
    const uint32_t binary = BYTE_UNIT_BINARY_PREFIXES | BYTE_UNIT_WORDS;
    byte_unit_number size = { 7, 7 };
    char out[BYTE_UNIT_HINT_SIZE];

    check("a word", byte_unit_parse("5 kBytes", 8, BYTE_UNIT_WORDS, &size, NULL) == BYTE_UNIT_OK && size.low == 5000
                        && size.high == 0);
    check("a binary word", byte_unit_parse("5 kBytes", 8, binary, &size, NULL) == BYTE_UNIT_OK && size.low == 5120);
    check("bits", byte_unit_parse("5 bytes", 7, BYTE_UNIT_BITS | BYTE_UNIT_WORDS, &size, NULL) == BYTE_UNIT_OK
                      && size.low == 40);
    check("no words", byte_unit_parse("5 bytes", 7, BYTE_UNIT_BINARY_PREFIXES, &size, NULL) == BYTE_UNIT_UNIT
                          && size.low == 40);
    check("no hint", byte_unit_hint("5 KB", 4, out, sizeof out) == 0 && byte_unit_hint("\xff", 1, out, sizeof out) == 0);
    check("a hint", byte_unit_hint("5 kBytes", 8, out, sizeof out) == strlen(word)
                        && memcmp(out, word, strlen(word)) == 0);
    check("the longest hint", byte_unit_hint("1 Mbps", 6, out, sizeof out) == strlen(rate)
                                  && memcmp(out, rate, strlen(rate)) == 0);
    memset(out, 'x', sizeof out);
    check("no room", byte_unit_hint("1 Mbps", 6, out, strlen(rate) - 1) == strlen(rate) && out[0] == 'x');
}

/* The position of an error is the same with all flags; the test vectors compare it with that of the call. */
static void positions(void)
{
    static const uint32_t words[] = { 0, BYTE_UNIT_BITS, BYTE_UNIT_IGNORE_CASE, BYTE_UNIT_BINARY_PREFIXES,
                                      BYTE_UNIT_WORDS };
    byte_unit_number size;
    byte_unit_error error;

    for (size_t at = 0; at < sizeof words / sizeof *words; at++) {
        memset(&error, 'x', sizeof error);
        check("the end", byte_unit_parse("1 bi \n", 6, words[at], &size, &error) == BYTE_UNIT_UNIT
                             && error.position == 4);
        check("a number that is too long",
              byte_unit_parse(" 5192296858534827628530496329220096x", 36, words[at], &size, &error)
                      == BYTE_UNIT_NUMBER_TOO_LONG && error.position == 34);
        check("no position", byte_unit_parse(" 1000000 RB", 11, words[at], &size, &error) == BYTE_UNIT_EXCEEDED_BOUNDS
                                 && error.position == 0);
    }
    memset(&error, 0, sizeof error);
    check("no error in a zeroed struct", byte_unit_parse(" 1 KiB", 6, 0, &size, &error) == BYTE_UNIT_OK
              && byte_unit_parse("1\xff", 2, 0, &size, &error) == BYTE_UNIT_NOT_UTF8
              && byte_unit_parse("1x", 2, 64, &size, &error) == BYTE_UNIT_INVALID_ARGUMENT && error.position == 0);
}

/* Sizes of 10^30 or more, and codes past 37, that of the last unit. Less 35, they are past 2, that of the last unit
 * type. */
static void out_of_range(void)
{
    static const uint32_t codes[] = { 38, 39, 255, 256, UINT32_C(65536), UINT32_C(0x80000000), UINT32_MAX };
    byte_unit_number sizes[3] = { BYTE_UNIT_SIZE_LIMIT_INIT, { 0, UINT64_MAX }, { UINT64_MAX, UINT64_MAX } }, count;
    byte_unit_decimal decimal;
    byte_unit_spec spec;
    char out[64];

    memset(&spec, 0, sizeof spec);
    for (int at = 0; at < 3; at++) {
        check("text", byte_unit_text(sizes[at], 0, spec, out, sizeof out) == 0);
        check("adjusted_text", byte_unit_adjusted_text(sizes[at], 0, 0, spec, out, sizeof out) == 0);
        check("approximate_text", byte_unit_approximate_text(sizes[at], 0, 0, spec, out, sizeof out) == 0);
        check("exact_unit", byte_unit_exact_unit(sizes[at], 0, &count) == BYTE_UNIT_NO_UNIT);
        check("recoverable_unit", byte_unit_recoverable_unit(sizes[at], 0, 0, &decimal) == BYTE_UNIT_NO_UNIT);
        check("from_unit", !byte_unit_from_unit(sizes[at], BYTE_UNIT_B, 0, &count));
        check("appropriate_unit", byte_unit_appropriate_unit(sizes[at], 0, BYTE_UNIT_BOTH) == BYTE_UNIT_RIB);
    }
    for (size_t at = 0; at < sizeof codes / sizeof *codes; at++) {
        check("unit_name", byte_unit_unit_name(codes[at], out, sizeof out) == 0);
        check("adjusted_text", byte_unit_adjusted_text(number(1), 0, codes[at], spec, out, sizeof out) == 0);
        check("from_unit", !byte_unit_from_unit(number(1), codes[at], 0, &count));
        check("unit type", byte_unit_appropriate_unit(number(1), 0, codes[at] - 35) == BYTE_UNIT_NO_UNIT
                               && byte_unit_approximate_text(number(1), 0, codes[at] - 35, spec, out, sizeof out) == 0);
    }
}

/* Sums, differences, comparisons and 64-bit values at the borders: of 64 bits, of sizes and of 128 bits. */
static void calculations(void)
{
    const byte_unit_number limit = BYTE_UNIT_SIZE_LIMIT_INIT, last = { UINT64_MAX, UINT64_MAX }, next = { 0, 1 };
    byte_unit_number greatest = limit, size = { 7, 7 };
    uint64_t value = 7;

    greatest.low--;
    check("nothing written", !byte_unit_add(greatest, number(1), &size) && !byte_unit_add(greatest, greatest, &size)
              && !byte_unit_add(limit, number(0), &size) && !byte_unit_add(last, last, &size)
              && !byte_unit_subtract(number(1), number(2), &size) && !byte_unit_subtract(number(1), last, &size)
              && !byte_unit_subtract(limit, number(1), &size) && !byte_unit_subtract(last, last, &size)
              && size.low == 7 && size.high == 7);
    check("the greatest", byte_unit_add(greatest, number(0), &size) && byte_unit_compare(size, greatest) == 0);
    check("zero", byte_unit_subtract(greatest, greatest, &size) && byte_unit_compare(size, number(0)) == 0);
    check("carry", byte_unit_add(number(UINT64_MAX), number(1), &size) && byte_unit_compare(size, next) == 0);
    check("borrow", byte_unit_subtract(size, number(1), &size) && size.low == UINT64_MAX && size.high == 0);
    check("order", byte_unit_compare(next, number(UINT64_MAX)) == 1 && byte_unit_compare(greatest, limit) == -1
                       && byte_unit_compare(limit, last) == -1 && byte_unit_compare(number(1), number(2)) == -1
                       && byte_unit_compare(last, last) == 0);
    check("no 64 bits", !byte_unit_to_u64(next, &value) && !byte_unit_to_u64(last, &value) && value == 7);
    check("64 bits", byte_unit_to_u64(byte_unit_from_u64(UINT64_MAX), &value) && value == UINT64_MAX);
}

/* Offsets of both widths: each list, with 8 bytes of data, is right or is rejected with nothing written. */
static void offsets(bool right, int64_t first, int64_t second, int64_t third)
{
    int64_t wide[3];
    int32_t narrow[3];
    byte_unit_number sizes[2] = { { 7, 7 }, { 7, 7 } };
    uint8_t codes[2] = { 77, 77 };
    uint32_t expected = right ? BYTE_UNIT_OK : BYTE_UNIT_INVALID_ARGUMENT;

    wide[0] = first, wide[1] = second, wide[2] = third;
    check("offsets", byte_unit_parse_many("1 KB2 MB", 8, wide, 2, 0, sizes, codes) == expected);
    check("nothing written", right || (codes[0] == 77 && codes[1] == 77 && sizes[0].low == 7 && sizes[1].low == 7));
    check("both written", !right || (codes[0] != 77 && codes[1] != 77 && sizes[0].high == 0 && sizes[1].high == 0));
    for (int at = 0; at < 3; at++) {
        if (wide[at] != (int32_t)wide[at])
            return;
        narrow[at] = (int32_t)wide[at];
    }
    codes[0] = codes[1] = 77;
    check("offsets of 32 bits", byte_unit_parse_many_32("1 KB2 MB", 8, narrow, 2, 0, sizes, codes) == expected);
    check("nothing written", right == (codes[0] != 77));
}

/* Each list of three borders: from 0, which is the fourth, up to 8, which is the sixth, without a decrease is right. */
static void many_offsets(void)
{
    static const int64_t borders[] = { INT64_MIN, INT32_MIN, -1, 0, 4, 8, 9, INT32_MAX, INT64_MAX };
    byte_unit_number size;
    uint8_t code;
    int64_t zero[2] = { 0, 0 };

    for (int i = 0; i < 9; i++)
        for (int j = 0; j < 9; j++)
            for (int k = 0; k < 9; k++)
                offsets(i >= 3 && i <= j && j <= k && k <= 5, borders[i], borders[j], borders[k]);
    check("lengths that differ",
          byte_unit_parse_many_to("1", 1, zero, 2, 0, &size, 1, &code, 0) == BYTE_UNIT_INVALID_ARGUMENT
              && byte_unit_parse_many_to("1", 1, zero, 2, 0, &size, 0, &code, 1) == BYTE_UNIT_INVALID_ARGUMENT
              && byte_unit_parse_many_to("1", 1, zero, 1, 0, &size, 1, &code, 1) == BYTE_UNIT_INVALID_ARGUMENT
              && byte_unit_parse_many_to("1", 1, NULL, 0, 0, &size, 1, &code, 1) == BYTE_UNIT_INVALID_ARGUMENT);
}

int main(void)
{
    specs();
    /* All sums of the five flags and an unknown one, and each other bit. */
    for (uint32_t word = 0; word < 64; word++)
        flags(word);
    for (int bit = 6; bit < 32; bit++)
        flags(UINT32_C(1) << bit);
    nulls();
    quotes();
    words_and_hints();
    positions();
    out_of_range();
    calculations();
    many_offsets();
    printf("%lu checks, %lu wrong\n", checks, wrong);
    return wrong != 0;
}
