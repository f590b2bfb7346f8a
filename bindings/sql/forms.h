/* The texts of sizes that SQL's functions write. Each extension includes this file once. */
#ifndef BYTE_UNIT_SQL_FORMS_H
#define BYTE_UNIT_SQL_FORMS_H

#include "byte_unit.h"

enum { GREATEST_PRECISION = 65535 }; /* of a byte_unit_spec */

/* What is written: a size by the call `write`, in a unit or in one of a type, or by byte_unit_text if that is NULL. */
struct form {
    size_t (*write)(byte_unit_number size, uint32_t flags, uint32_t unit_or_type, byte_unit_spec spec, char *out,
                    size_t out_len);
    byte_unit_number size;
    byte_unit_spec spec;
    uint32_t unit_or_type;
    uint32_t flags;
};

/* Writes a text as the calls of byte_unit.h do. The other flags are for the name of the unit, which is read already. */
static size_t write_form(const struct form *form, char *out, size_t out_len)
{
    uint32_t flags = form->flags & BYTE_UNIT_BITS;

    if (form->write == NULL)
        return byte_unit_text(form->size, flags, form->spec, out, out_len);
    return form->write(form->size, flags, form->unit_or_type, form->spec, out, out_len);
}

#endif
