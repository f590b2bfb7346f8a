/* Makes one call of the library again and again: `speed CALL WORD COUNT`, where WORD is a text or a number of bytes.
 * `tools/dev measure` times it and counts its instructions, beside those of bindings/rust/checks/speed.rs. */
#include "byte_unit.h"

#include <stdlib.h>
#include <string.h>

static volatile size_t seen; /* keeps each result in use */

#define IF(name, result)                                                                                               \
    if (!strcmp(argv[1], name))                                                                                        \
        for (long at = 0; at < count; at++)                                                                            \
            seen = (result)

int main(int argc, char **argv)
{
    const byte_unit_spec plain = { 0 }, unit = { .alternate = 1 }, two = { .has_precision = 1, .precision = 2 };
    const byte_unit_spec places = { .has_precision = 1, .precision = 28, .alternate = 1 };
    char out[BYTE_UNIT_BUFFER_SIZE];
    byte_unit_number size;
    byte_unit_error error;

    if (argc != 4)
        return 2;
    const char *text = argv[2];
    size_t len = strlen(text);
    byte_unit_number n = { strtoull(text, NULL, 10), 0 };
    long count = atol(argv[3]);
    IF("parse", byte_unit_parse(text, len, 0, &size, &error));
    IF("explain", byte_unit_explain(text, len, 0, out, sizeof out));
    IF("digits", byte_unit_text(n, 0, plain, out, sizeof out));
    IF("unit", byte_unit_text(n, 0, unit, out, sizeof out));
    IF("places", byte_unit_text(n, 0, places, out, sizeof out));
    IF("in-KiB", byte_unit_adjusted_text(n, 0, BYTE_UNIT_KIB, plain, out, sizeof out));
    IF("in-KiB-two", byte_unit_adjusted_text(n, 0, BYTE_UNIT_KIB, two, out, sizeof out));
    return 0;
}
