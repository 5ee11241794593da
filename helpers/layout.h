/* Places of a sheet's bytes, for the helpers alone. Not proved. */
#ifndef ROZHELP_LAYOUT_H
#define ROZHELP_LAYOUT_H

#include "rozhinal_helpers.h"

enum {
    FIELD_BYTES = 3,      /* tag and length, before the content of a field */
    HEAD_FIELD_BYTES = 7, /* the first field, with edition and item count */
    FIGURE_BYTES = 4,     /* rule, keep, spread and parent count, before the parents */
    PARENT_BYTES = 2,
    SPREAD_AT = FIELD_BYTES + 2
};

static inline size_t rozhelp_two_bytes(const uint8_t *at)
{
    return (size_t)at[0] + 256 * (size_t)at[1];
}

/* Whether a whole field begins at the offset; the length of its content. */
static inline bool rozhelp_whole_field(const uint8_t *sheet, size_t sheet_len, size_t offset,
                                       size_t *length)
{
    if (offset > sheet_len || sheet_len - offset < FIELD_BYTES)
        return false;
    *length = rozhelp_two_bytes(sheet + offset + 1);
    return *length <= sheet_len - offset - FIELD_BYTES;
}

static inline bool rozhelp_is_name(const uint8_t *bytes, size_t length)
{
    if (length == 0 || length > ROZHINAL_MAX_NAME)
        return false;
    for (size_t k = 0; k < length; k++)
        if (bytes[k] < '!' || bytes[k] > '~')
            return false;
    return true;
}

#endif
