/* Every call of the C API once, in C and in C++. Prints what it returns; the last line is the number of results that are
 * not as written here.
 *
 *     cc -I DIR example.c DIR/libbyte_unit.a
 */
#include "byte_unit.h"

#include <stdio.h>
#include <string.h>

static int wrong;

/* Compares a text with the expected one. */
static void expect(const char *what, const char *got, size_t length, const char *expected)
{
    bool same = length == strlen(expected) && memcmp(got, expected, length) == 0;
    wrong += !same;
    printf("%-28s %.*s%s%s\n", what, (int)length, got, same ? "" : "   EXPECTED ", same ? "" : expected);
}

static void expect_true(const char *what, bool holds)
{
    wrong += !holds;
    printf("%-28s %s\n", what, holds ? "yes" : "NO");
}

static byte_unit_number number(uint64_t n)
{
    byte_unit_number result = { 0, 0 };
    result.low = n;
    return result;
}

/* Parses a string: its size with a unit, or the error message. */
static void line(const char *text, uint32_t flags, const char *expected)
{
    byte_unit_number size;
    byte_unit_spec with_unit = BYTE_UNIT_SPEC_INIT;
    char out[BYTE_UNIT_BUFFER_SIZE];
    size_t length;

    with_unit.alternate = 1;
    if (byte_unit_parse(text, strlen(text), flags, &size, NULL) == BYTE_UNIT_OK)
        length = byte_unit_text(size, flags & BYTE_UNIT_BITS, with_unit, out, sizeof out);
    else
        length = byte_unit_explain(text, strlen(text), flags, out, sizeof out);
    expect(text, out, length, expected);
}

static void parse_sizes(void)
{
    byte_unit_number size;
    byte_unit_error error;
    char hint[BYTE_UNIT_HINT_SIZE];
    size_t position = 7, length = byte_unit_hint("2 gigs", 6, hint, sizeof hint);

    line("100 MB", 0, "100 MB");
    line("9 b", 0, "2 B");
    line("9 b", BYTE_UNIT_IGNORE_CASE, "9 B");
    line("1 KB", BYTE_UNIT_BITS, "8 Kb");
    line("10m", BYTE_UNIT_BINARY_PREFIXES, "10 MiB");
    line("5 kilobytes", BYTE_UNIT_WORDS, "5 KB");
    line("1 byte", 0, "the character 'y' is incorrect ('i' or no character is expected) (character 4)");
    line("1", BYTE_UNIT_EITHER_KIND, "a flag is unknown");
    expect_true("a unit that is wrong", byte_unit_parse("12 Kiq", 6, 0, &size, &error) == BYTE_UNIT_UNIT
                                            && error.character == 'q' && error.also_expect_no_character
                                            && strcmp(error.expected, "Bb") == 0 && error.position == 5);
    /* The fraction is 5 * 10^27, and its upper 64 bits are 271050543. */
    expect_true("a size that is too large",
                byte_unit_parse("1000.5 RB", 9, 0, &size, &error) == BYTE_UNIT_EXCEEDED_BOUNDS
                    && error.number.whole.low == 1000 && error.number.fraction.high == 271050543);
    expect("a hint", hint, length, "write 'GB'");
    expect_true("the position", byte_unit_error_position("  1. ", 5, &position) && position == 4);
}

static void parse_units(void)
{
    uint32_t unit;
    size_t position;
    char out[BYTE_UNIT_BUFFER_SIZE];

    expect_true("mbits", byte_unit_parse_unit("mbits", 5, 0, &unit, NULL) == BYTE_UNIT_OK && unit == BYTE_UNIT_MBIT);
    expect_true("K of bits", byte_unit_parse_unit("K", 1, BYTE_UNIT_BITS, &unit, NULL) == BYTE_UNIT_OK
                                 && unit == BYTE_UNIT_KBIT);
    expect("bix", out, byte_unit_explain_unit("bix", 3, 0, out, sizeof out),
           "the character 'x' is incorrect ('t' is expected) (character 3)");
    expect_true("its position", byte_unit_unit_error_position("bix", 3, &position) && position == 2);
    expect("a name", out, byte_unit_unit_name(BYTE_UNIT_RIBIT, out, sizeof out), "Rib");
    expect("what is typed", out, byte_unit_quote("1\tKB", 4, out, sizeof out), "1\\u{9}KB");
}

static void parse_many_texts(void)
{
    static const char data[] = "1.5 KiB2 xxx\xff 8 b";
    static const int64_t offsets[] = { 0, 7, 10, 12, 13, 17 };
    static const int32_t decreasing[] = { 0, 7, 6 };
    byte_unit_number sizes[5];
    uint8_t codes[5];

    expect_true("many texts", byte_unit_parse_many(data, 17, offsets, 5, 0, sizes, codes) == BYTE_UNIT_OK
                                  && sizes[0].low == 1536 && sizes[1].low == 0 && sizes[4].low == 1);
    expect_true("their codes", codes[0] == BYTE_UNIT_OK && codes[1] == BYTE_UNIT_UNIT
                                   && codes[2] == BYTE_UNIT_NOT_NUMBER && codes[3] == BYTE_UNIT_NOT_UTF8);
    expect_true("offsets that decrease", byte_unit_parse_many_32(data, 17, decreasing, 2, 0, sizes, codes)
                                             == BYTE_UNIT_INVALID_ARGUMENT);
}

static void format_sizes(void)
{
    byte_unit_spec spec = BYTE_UNIT_SPEC_INIT; /* `{}` */
    char out[9] = "########", all[BYTE_UNIT_BUFFER_SIZE];

    expect("in KiB", all, byte_unit_adjusted_text(number(123456), 0, BYTE_UNIT_KIB, spec, all, sizeof all),
           "120.5625 KiB");
    spec.has_precision = 1;
    spec.precision = 1;
    expect("about", all, byte_unit_approximate_text(number(123456), 0, BYTE_UNIT_BINARY, spec, all, sizeof all),
           "120.6 KiB");
    spec.alternate = 1;
    expect_true("six bytes are too few", byte_unit_text(number(1536), 0, spec, out, 6) == 7 && out[0] == '#');
    expect_true("seven are enough", byte_unit_text(number(1536), 0, spec, out, 7) == 7
                                        && memcmp(out, "1.5 KiB#", 8) == 0);
}

static void choose_units(void)
{
    byte_unit_number size = number(50840000), count;
    byte_unit_decimal decimal;

    expect_true("50840 KB exactly", byte_unit_exact_unit(size, 0, &count) == BYTE_UNIT_KB && count.low == 50840);
    expect_true("50.84 MB in two places", byte_unit_recoverable_unit(size, 0, 2, &decimal) == BYTE_UNIT_MB
                                              && decimal.whole.low == 50);
    expect_true("about in MiB", byte_unit_appropriate_unit(size, 0, BYTE_UNIT_BINARY) == BYTE_UNIT_MIB);
    expect_true("17 bits in 3 bytes", byte_unit_from_unit(number(17), BYTE_UNIT_BIT, 0, &size) && size.low == 3);
    expect_true("version 3.0.0", byte_unit_version() == BYTE_UNIT_VERSION && BYTE_UNIT_VERSION == 3000000);
}

static void calculate(void)
{
    byte_unit_number total = byte_unit_from_u64(UINT64_MAX);
    uint64_t value = 7;

    expect_true("a sum of 64 bits", byte_unit_add(total, number(1), &total) && total.low == 0 && total.high == 1);
    expect_true("is above 64 bits", !byte_unit_to_u64(total, &value) && value == 7);
    expect_true("and above 1 KB", byte_unit_compare(total, number(1000)) > 0);
    expect_true("its difference", byte_unit_subtract(total, number(1), &total) && byte_unit_to_u64(total, &value)
                                      && value == UINT64_MAX);
    expect_true("no size is negative", !byte_unit_subtract(number(1), total, &total));
}

int main(void)
{
    parse_sizes();
    parse_units();
    parse_many_texts();
    format_sizes();
    choose_units();
    calculate();
    printf("%d wrong\n", wrong);
    return wrong != 0;
}
