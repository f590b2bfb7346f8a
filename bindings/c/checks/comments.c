/* Compiles if each piece of code in the comments of byte_unit.h is valid in C and C++. Its status is the number of the
 * initializers of specs and of the precisions, there and in README.md, that do not write what they should. `tools/dev
 * test c` writes both included files: functions with the pieces of code, and a call for each initializer, or precision.
 */
#include "byte_unit.h"

#include <string.h>

/* Whether a spec does not write these texts: of 1536 bytes, and of 1537 bytes in KiB. */
static int is_wrong(byte_unit_spec spec, const char *text, const char *in_kib)
{
    byte_unit_number size = { 1536, 0 }, larger = { 1537, 0 };
    char out[BYTE_UNIT_BUFFER_SIZE];
    size_t len = byte_unit_text(size, 0, spec, out, sizeof out);
    int differs = len != strlen(text) || memcmp(out, text, len) != 0;
    len = byte_unit_adjusted_text(larger, 0, BYTE_UNIT_KIB, spec, out, sizeof out);
    return differs || len != strlen(in_kib) || memcmp(out, in_kib, len) != 0;
}

/* Whether a text of the greatest size with this precision does not fit the buffer that is said to fit it. */
static int is_too_long(uint32_t precision)
{
    byte_unit_number size = BYTE_UNIT_SIZE_LIMIT_INIT;
    byte_unit_spec spec = { 0 };
    size_t longest = 0;
    size.low--, spec.has_precision = 1, spec.precision = precision;
    for (uint32_t unit = 0; unit <= BYTE_UNIT_RIB; unit++) {
        size_t len = byte_unit_adjusted_text(size, 0, unit, spec, NULL, 0);
        longest = len > longest ? len : longest;
    }
    return longest > BYTE_UNIT_BUFFER_SIZE;
}

#include "uses.inc"

int main(void)
{
    int wrong = 0;
#include "specs.inc"
    return wrong;
}
