/* Makes each call with memory that has no value yet, as malloc returns it. Run by valgrind, it shows that no call reads
 * such memory or passes its end, and that what a call says it writes has a value. */
#include "byte_unit.h"

#include <stdlib.h>
#include <string.h>

static volatile unsigned seen;

/* Uses each byte in a branch, which valgrind reports if the byte has no value. */
static void use(const void *data, size_t len)
{
    for (const unsigned char *byte = data; len--; byte++)
        if (*byte)
            seen++;
}

/* Makes a call that writes a text to `out`, of the length `room`: for its length, and with one byte too few and as many
 * as it needs. */
#define TEXT(call)                                                                                                     \
    do {                                                                                                               \
        char *out = NULL;                                                                                              \
        size_t room = 0, whole = (call);                                                                               \
        for (room = whole ? whole - 1 : 0; room <= whole; room++) {                                                    \
            out = malloc(room);                                                                                        \
            (void)(call);                                                                                              \
            use(out, room == whole ? whole : 0);                                                                       \
            free(out);                                                                                                 \
        }                                                                                                              \
    } while (0)

static void use_error(const byte_unit_error *error)
{
    use(&error->character, sizeof error->character);
    use(&error->also_expect_no_character, 1);
    use(error->expected, sizeof error->expected);
    use(&error->number, sizeof error->number);
    use(&error->position, sizeof error->position);
}

static void parse(const char *given, uint32_t flags)
{
    size_t len = strlen(given), *position = malloc(sizeof *position);
    char *text = memcpy(malloc(len + 1), given, len + 1);
    byte_unit_number *size = malloc(sizeof *size);
    byte_unit_error *error = malloc(sizeof *error), *of_unit = malloc(sizeof *of_unit);
    uint32_t *unit = malloc(sizeof *unit);
    uint32_t code = byte_unit_parse(text, len, flags, size, error);

    use(size, code == BYTE_UNIT_OK ? sizeof *size : 0);
    if (code != BYTE_UNIT_OK && code < BYTE_UNIT_NOT_UTF8)
        use_error(error);
    code = byte_unit_parse_unit(text, len, flags, unit, of_unit);
    use(unit, code == BYTE_UNIT_OK ? sizeof *unit : 0);
    if (code == BYTE_UNIT_UNIT)
        use_error(of_unit);
    use(position, byte_unit_error_position(text, len, position) ? sizeof *position : 0);
    use(position, byte_unit_unit_error_position(text, len, position) ? sizeof *position : 0);
    TEXT(byte_unit_explain(text, len, flags, out, room));
    TEXT(byte_unit_explain_unit(text, len, flags, out, room));
    TEXT(byte_unit_quote(text, len, out, room));
    free(position), free(text), free(size), free(error), free(of_unit), free(unit);
}

static void parse_many(void)
{
    const int64_t offsets[] = { 0, 4, 6, 6 };
    const int32_t short_offsets[] = { 0, 4, 6, 6 };
    for (uint32_t flags = 0; flags < 32; flags++) {
        byte_unit_number *sizes = malloc(3 * sizeof *sizes);
        uint8_t *codes = malloc(3);
        uint32_t code = flags & 1 ? byte_unit_parse_many("1 KB2x", 6, offsets, 3, flags, sizes, codes)
                                  : byte_unit_parse_many_32("1 KB2x", 6, short_offsets, 3, flags, sizes, codes);
        use(sizes, code == BYTE_UNIT_OK ? 3 * sizeof *sizes : 0);
        use(codes, code == BYTE_UNIT_OK ? 3 : 0);
        free(sizes), free(codes);
    }
}

static void format(byte_unit_number size, uint32_t flags, uint32_t unit, byte_unit_spec spec)
{
    byte_unit_number *count = malloc(sizeof *count), *found = malloc(sizeof *found);
    byte_unit_decimal *exact = malloc(sizeof *exact);

    TEXT(byte_unit_text(size, flags, spec, out, room));
    TEXT(byte_unit_adjusted_text(size, flags, unit, spec, out, room));
    TEXT(byte_unit_approximate_text(size, flags, unit % 4, spec, out, room));
    TEXT(byte_unit_unit_name(unit, out, room));
    use(count, byte_unit_exact_unit(size, flags, count) != BYTE_UNIT_NO_UNIT ? sizeof *count : 0);
    use(exact, byte_unit_recoverable_unit(size, flags, unit, exact) != BYTE_UNIT_NO_UNIT ? sizeof *exact : 0);
    use(found, byte_unit_from_unit(size, unit, flags, found) ? sizeof *found : 0);
    free(count), free(found), free(exact);
}

static void calculate(byte_unit_number a, byte_unit_number b)
{
    byte_unit_number *sum = malloc(sizeof *sum), *difference = malloc(sizeof *difference), made;
    uint64_t *value = malloc(sizeof *value);
    int32_t order = byte_unit_compare(a, b);

    use(&order, sizeof order);
    use(sum, byte_unit_add(a, b, sum) ? sizeof *sum : 0);
    use(difference, byte_unit_subtract(a, b, difference) ? sizeof *difference : 0);
    use(value, byte_unit_to_u64(a, value) ? sizeof *value : 0);
    made = byte_unit_from_u64(b.low);
    use(&made, sizeof made);
    free(sum), free(difference), free(value);
}

int main(void)
{
    static const char *const texts[] = { "", "1.5 KiB", "1 byte", "x", "1.", "-1", "KiB", "Kx", " Mbi", "1 \xff",
                                         "\u00e9", "1 Ki\u202e", "1.00000000000000000000000000001", "9999999999 RB" };
    static const byte_unit_number sizes[] = { { 0, 0 }, { 1536, 0 }, { 123456789, 0 }, { 7, 1 << 30 },
                                              BYTE_UNIT_SIZE_LIMIT_INIT };
    static const byte_unit_spec specs[] = { { 0, 0, 0, 0, 0, 0 }, { 0, 0, 0, 1, 0, 0 }, { 2, 0, 1, 0, 0, 0 },
                                            { 28, 40, 1, 1, 1, 3 }, { 120, 300, 1, 0, 2, 2 }, { 1, 0, 0, 0, 0, 0 } };

    for (uint32_t flags = 0; flags < 32; flags++) {
        for (size_t at = 0; at < sizeof texts / sizeof *texts; at++)
            parse(texts[at], flags);
        for (size_t at = 0; flags < 8 && at < sizeof sizes / sizeof *sizes; at++)
            for (size_t spec = 0; spec < sizeof specs / sizeof *specs; spec++)
                for (uint32_t unit = 0; unit < 39; unit++)
                    format(sizes[at], flags, unit, specs[spec]);
    }
    for (size_t at = 0; at < 25; at++)
        calculate(sizes[at / 5], sizes[at % 5]);
    parse_many();
    return 0;
}
