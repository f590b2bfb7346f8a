/* Words in the arguments of SQL's functions: what both extensions take them for. Each includes this file once. */
#ifndef BYTE_UNIT_SQL_WORDS_H
#define BYTE_UNIT_SQL_WORDS_H

#include "byte_unit.h"

#include <string.h>

/* Returns the flag with a name, and 0 if there is none. */
static uint32_t flag_of(const char *word, size_t len)
{
    static const struct {
        const char *name;
        uint32_t flag;
    } flags[] = { { "bits", BYTE_UNIT_BITS },
                  { "ignore-case", BYTE_UNIT_IGNORE_CASE },
                  { "binary", BYTE_UNIT_BINARY_PREFIXES },
                  { "words", BYTE_UNIT_WORDS } };

    for (size_t at = 0; at < sizeof flags / sizeof *flags; at++)
        if (strlen(flags[at].name) == len && memcmp(flags[at].name, word, len) == 0)
            return flags[at].flag;
    return 0;
}

/* Adds the flags in a text of words, separated by spaces. Returns false if one of them is not in `allowed`. */
static bool add_flags(const char *words, size_t len, uint32_t allowed, uint32_t *flags)
{
    for (size_t begin = 0, end; begin < len; begin = end + 1) {
        for (end = begin; end < len && words[end] != ' ';)
            end++;
        uint32_t flag = flag_of(words + begin, end - begin) & allowed;
        if (flag == 0 && end > begin)
            return false;
        *flags |= flag;
    }
    return true;
}

/* Sets the unit type with a name, and returns whether there is one. The names are in the order of the codes. */
static bool set_unit_type(const char *name, size_t len, uint32_t *type)
{
    static const char *const names[] = { "binary", "decimal", "both" };

    for (*type = BYTE_UNIT_BINARY; *type <= BYTE_UNIT_BOTH; ++*type)
        if (strlen(names[*type]) == len && memcmp(names[*type], name, len) == 0)
            return true;
    return false;
}

/* Whether a text that is the name of this unit is blank: the library takes it for B, and SQL for no name. Any other name
 * of a unit without a prefix has the letter. */
static bool is_blank(const char *name, size_t len, uint32_t unit)
{
    return unit <= BYTE_UNIT_B && memchr(name, 'b', len) == NULL && memchr(name, 'B', len) == NULL;
}

#endif
