/* Reading a sheet's items. Not proved; tested by tests/helpers. */
#include "layout.h"

#include <string.h>

/* The item count of a head that opens, else 0. */
static size_t stated_items(const uint8_t *sheet, size_t sheet_len)
{
    size_t length, count = rozhinal_item_count(sheet, sheet_len), most = 0;
    if (!rozhelp_whole_field(sheet, sheet_len, 0, &length) || sheet[0] != ROZHINAL_TAG_HEAD
        || length != HEAD_FIELD_BYTES - FIELD_BYTES)
        return 0;
    if (rozhinal_edition(sheet, sheet_len) == ROZHINAL_EDITION_1)
        most = ROZHINAL_MAX_ITEMS_EDITION_1;
    else if (rozhinal_edition(sheet, sheet_len) == ROZHINAL_EDITION_2)
        most = ROZHINAL_MAX_ITEMS_EDITION_2;
    return count <= most ? count : 0;
}

/* Reads the content of a figure, and gives where its name begins: at the end if it is at fault. */
static size_t read_figure(const uint8_t *content, size_t length, rozhelp_item *item)
{
    if (length < FIGURE_BYTES)
        return length;
    item->figure = true;
    item->rule = content[0];
    item->keep = content[1];
    item->spread = content[2];
    item->parent_count = content[3];
    if (item->parent_count > ROZHINAL_MAX_PARENTS
        || length - FIGURE_BYTES < PARENT_BYTES * item->parent_count)
        return length;
    for (size_t k = 0; k < item->parent_count; k++) {
        item->parents[k] = rozhelp_two_bytes(content + FIGURE_BYTES + PARENT_BYTES * k);
        if (item->parents[k] >= item->number)
            return length;
    }
    return FIGURE_BYTES + PARENT_BYTES * item->parent_count;
}

/* The item whose field begins at the offset, and the field's size; 0, and no item, if none does. */
static size_t read_item(const uint8_t *sheet, size_t sheet_len, size_t offset, size_t number,
                        rozhelp_item *item)
{
    size_t length;
    if (!rozhelp_whole_field(sheet, sheet_len, offset, &length))
        return 0;
    uint8_t tag = sheet[offset];
    if (tag != ROZHINAL_TAG_ENTRY && tag != ROZHINAL_TAG_FIGURE)
        return 0;
    rozhelp_item found = { .number = number, .offset = offset };
    const uint8_t *content = sheet + offset + FIELD_BYTES;
    size_t name_at = tag == ROZHINAL_TAG_FIGURE ? read_figure(content, length, &found) : 0;
    if (!rozhelp_is_name(content + name_at, length - name_at))
        return 0;
    memcpy(found.name, content + name_at, length - name_at);
    *item = found;
    return FIELD_BYTES + length;
}

rozhelp_walk rozhelp_walk_items(const uint8_t *sheet, size_t sheet_len)
{
    return (rozhelp_walk){ .sheet = sheet, .sheet_len = sheet_len, .offset = HEAD_FIELD_BYTES };
}

bool rozhelp_next(rozhelp_walk *walk, rozhelp_item *item)
{
    if (walk->number >= stated_items(walk->sheet, walk->sheet_len))
        return false;
    size_t size = read_item(walk->sheet, walk->sheet_len, walk->offset, walk->number, item);
    if (size == 0)
        return false;
    walk->number++;
    walk->offset += size;
    return true;
}

bool rozhelp_item_at(const uint8_t *sheet, size_t sheet_len, const uint8_t *idx, size_t idx_len,
                     size_t number, rozhelp_item *item)
{
    if (number >= idx_len / ROZHINAL_OFFSET_BYTES || number >= stated_items(sheet, sheet_len))
        return false;
    const uint8_t *at = idx + ROZHINAL_INDEX_BYTES(number);
    size_t offset = rozhelp_two_bytes(at) + 65536 * rozhelp_two_bytes(at + 2);
    return read_item(sheet, sheet_len, offset, number, item) != 0;
}

size_t rozhelp_find(const uint8_t *sheet, size_t sheet_len, const char *name, size_t *first)
{
    size_t found = 0, lowest = ROZHELP_NO_ITEM;
    rozhelp_walk walk = rozhelp_walk_items(sheet, sheet_len);
    rozhelp_item item;
    while (name != NULL && rozhelp_next(&walk, &item)) {
        if (strcmp(item.name, name) == 0 && found++ == 0)
            lowest = item.number;
    }
    if (first != NULL)
        *first = lowest;
    return found;
}
