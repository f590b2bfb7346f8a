/* Draws arguments of the library's calls: strings that are sizes and units or nearly are, numbers near powers and
 * limits, and flags, codes and specs, of which one in 16 is unknown or invalid. */
#include "byte_unit.h"

#include <string.h>

__extension__ typedef unsigned __int128 wide;

/* No string is longer. */
enum { LONGEST = 160 };

typedef struct string {
    char bytes[LONGEST];
    size_t len;
} string;

/* Strings of a list, of which some are drawn. */
static string *listed;
static size_t listed_count;

static uint64_t state; /* of the generator, SplitMix64 */

static uint64_t draw(void)
{
    uint64_t z = state += UINT64_C(0x9e3779b97f4a7c15);

    z = (z ^ z >> 30) * UINT64_C(0xbf58476d1ce4e5b9);
    z = (z ^ z >> 27) * UINT64_C(0x94d049bb133111eb);
    return z ^ z >> 31;
}

/* Draws a number below n. */
static uint32_t below(uint32_t n)
{
    return (uint32_t)((draw() >> 32) * n >> 32);
}

static bool one_in(uint32_t n)
{
    return below(n) == 0;
}

#define ONE_OF(list) (list)[below(sizeof(list) / sizeof *(list))]

/* Appends bytes, if there is room. */
static void append(string *to, const char *bytes, size_t len)
{
    if (to->len + len <= LONGEST) {
        memcpy(to->bytes + to->len, bytes, len);
        to->len += len;
    }
}

static void append_spaces(string *to)
{
    static const char *const spaces[] = { " ", " ", " ", "\t", "\n", "\v", "\r", "\xc2\x85", "\xc2\xa0", "\xe1\x9a\x80",
                                          "\xe2\x80\x83", "\xe2\x80\xa8", "\xe3\x80\x80" };

    for (uint32_t left = 1 + below(2); left > 0; left--) {
        const char *space = ONE_OF(spaces);
        append(to, space, strlen(space));
    }
}

/* Appends digits: mostly few, and zeros or nines in place of many. */
static void append_digits(string *to, uint32_t most)
{
    uint32_t count = 1 + below(one_in(4) ? most : 4);
    bool is_one = one_in(8), is_nine = one_in(2);

    for (; count > 0; count--) {
        char digit = (char)('0' + (is_one ? 9 * is_nine : (int)below(10)));
        append(to, &digit, 1);
    }
}

static void append_unit(string *to)
{
    static const char prefixes[] = "KMGTPEZYRkmgtpezyr";
    static const char *const suffixes[] = { "", "B", "B", "b", "bit", "bits", "Bits", "BIT", "bi", "byte" };
    const char *suffix = ONE_OF(suffixes);

    if (!one_in(5)) {
        append(to, &prefixes[below(sizeof prefixes - 1)], 1);
        if (one_in(2))
            append(to, &"iiiI"[below(4)], 1);
    }
    append(to, suffix, strlen(suffix));
}

/* Changes, inserts or removes a piece of a string. */
static void change(string *one)
{
    static const char *const pieces[] = { "x", "-", "+", ",", ".", "0", "9", "e", "i", "I", "b", "B", "K", "k", "R",
                                          "byte", "s", "kilo", "ps", "/s", " ", "_", "\x7f", "\xc3\xa9", "\xc3",
                                          "\xa9", "\xff", "\xc2\xa0", "\xc2\xad",
                                          "\xe2\x80\xae", "\xe2\x82", "\xed\xa0\x80", "\xf0\x9f\x98\x80",
                                          "\xf4\x90\x80\x80" };
    char any = (char)below(256);
    const char *piece = one_in(4) ? NULL : ONE_OF(pieces);
    size_t len = piece ? strlen(piece) : 1, at = below((uint32_t)one->len + 1), gone = below(3);
    string rest = { .len = 0 };

    gone = gone < one->len - at ? gone : one->len - at;
    append(&rest, one->bytes + at + gone, one->len - at - gone);
    one->len = at;
    if (!one_in(4))
        append(one, piece ? piece : &any, len);
    append(one, rest.bytes, rest.len);
}

/* Returns the code point at a place of a string, and its number of bytes, which is 1 if there is none. */
static uint32_t code_at(const string *one, size_t at, size_t *len)
{
    const unsigned char *byte = (const unsigned char *)one->bytes + at;
    size_t count = byte[0] < 0xc2 ? 1 : byte[0] < 0xe0 ? 2 : byte[0] < 0xf0 ? 3 : byte[0] < 0xf5 ? 4 : 1;
    uint32_t code = count == 1 ? byte[0] & 0x7f : byte[0] & (0xffu >> (count + 1));

    *len = 1;
    if (at + count > one->len)
        return 0;
    for (size_t next = 1; next < count; next++) {
        if ((byte[next] & 0xc0) != 0x80)
            return 0;
        code = code << 6 | (byte[next] & 0x3f);
    }
    *len = count;
    return code;
}

/* Whether each character past ASCII is in a block of which no version of Unicode that a compiler has leaves one out: a
 * message quotes others as the tables of Rattle or of rustc have them. */
static bool is_settled(const string *one)
{
    static const uint32_t blocks[][2] = { { 0, 0x377 }, { 0x400, 0x52f }, { 0x1680, 0x169c }, { 0x2000, 0x2064 },
                                          { 0x20a0, 0x20bf }, { 0x2100, 0x218b }, { 0x3000, 0x303f },
                                          { 0x4e00, 0x9fef }, { 0x1f600, 0x1f64f } };
    size_t len;

    for (size_t at = 0; at < one->len; at += len) {
        uint32_t code = code_at(one, at, &len);
        bool is_in = false;
        for (size_t block = 0; block < sizeof blocks / sizeof *blocks; block++)
            is_in = is_in || (blocks[block][0] <= code && code <= blocks[block][1]);
        if (!is_in)
            return false;
    }
    return true;
}

/* Draws a string: a number and a unit, or with `is_unit` a unit alone. One in four is changed then, if what comes out is
 * settled, and one in 32 is of the list. */
static string draw_string(bool is_unit)
{
    string made = { .len = 0 };

    if (listed_count > 0 && one_in(32)) {
        made = listed[below((uint32_t)listed_count)];
    } else {
        if (one_in(8))
            append_spaces(&made);
        if (!is_unit) {
            append_digits(&made, 40);
            if (one_in(2)) {
                append(&made, ".", 1);
                append_digits(&made, 32);
            }
            if (one_in(2))
                append_spaces(&made);
        }
        append_unit(&made);
        if (one_in(8))
            append_spaces(&made);
    }
    if (one_in(4)) {
        string changed = made;
        for (uint32_t left = 1 + below(3); left > 0; left--)
            change(&changed);
        if (is_settled(&changed))
            return changed;
    }
    return made;
}

static wide power(uint32_t base, uint32_t exponent)
{
    wide result = 1;

    while (exponent-- > 0)
        result *= base;
    return result;
}

static byte_unit_number number_of(wide n)
{
    return (byte_unit_number){ (uint64_t)n, (uint64_t)(n >> 64) };
}

static wide value_of(byte_unit_number n)
{
    return (wide)n.high << 64 | n.low;
}

/* Draws a number: of any length, near a power of ten, or a part of a unit. One in 32 may be 10^30 or more. */
static byte_unit_number draw_number(void)
{
    wide n = (wide)draw() << 64 | draw();

    switch (below(4)) {
    case 0:
        n >>= below(128);
        break;
    case 1:
        n = power(10, below(31)) + below(3) - 1;
        break;
    case 2:
        n = below(10000) * (power(1000, 1 + below(8)) / power(10, below(4)));
        break;
    default:
        n = below(10000) * (power(1024, 1 + below(8)) >> below(11));
    }
    n += one_in(8) ? below(3) : 0;
    n = one_in(32) ? n : n % power(10, 30);
    return number_of(n);
}

/* Draws flags among those that a call knows; one in 16 has another. */
static uint32_t draw_flags(uint32_t known)
{
    return ((uint32_t)draw() & known) | (one_in(16) ? UINT32_C(1) << below(32) : 0);
}

/* Draws a code below `count`; one in 16 is any number, or has one more bit than such a code. */
static uint32_t draw_code(uint32_t count)
{
    uint32_t code = below(count);

    if (!one_in(16))
        return code;
    return one_in(2) ? (uint32_t)draw() >> below(32) : code | UINT32_C(1) << below(32);
}

/* Draws a length: mostly below `usual`, rarely up to 65535. */
static uint32_t draw_length(uint32_t usual)
{
    return below(one_in(32768) ? 65536 : one_in(64) ? 300 : usual);
}

/* Draws a spec, of which one in 16 has any value in one of its fields. */
static byte_unit_spec draw_spec(void)
{
    byte_unit_spec spec = { .has_precision = (uint8_t)below(2), .alternate = (uint8_t)below(2),
                            .sign = (uint8_t)below(3), .align = (uint8_t)below(4) };

    spec.precision = spec.has_precision ? draw_length(one_in(4) ? 32 : 5) : 0;
    spec.width = one_in(2) ? draw_length(24) : 0;
    if (one_in(16)) {
        uint32_t any = (uint32_t)draw() >> below(32);
        uint8_t *const bytes[] = { &spec.has_precision, &spec.alternate, &spec.sign, &spec.align };
        switch (below(3)) {
        case 0:
            spec.precision = any;
            break;
        case 1:
            spec.width = any;
            break;
        default:
            *ONE_OF(bytes) = (uint8_t)any;
        }
    }
    return spec;
}
