/* Writing a sheet. Not proved; tested by tests/helpers. */
#include "layout.h"

#include <string.h>

static void put_two_bytes(uint8_t *to, size_t number)
{
    to[0] = (uint8_t)(number & 0xFF);
    to[1] = (uint8_t)(number >> 8);
}

void rozhelp_begin(rozhelp_writer *writer, uint8_t *bytes, size_t room)
{
    *writer = (rozhelp_writer){ .bytes = bytes, .room = room, .length = HEAD_FIELD_BYTES };
    if (room < HEAD_FIELD_BYTES)
        writer->fault = ROZHINAL_REFUSED_FIELD;
}

/* Room for a field with so much content, its tag and length written; null if there is none. */
static uint8_t *begin_field(rozhelp_writer *writer, enum rozhinal_tag tag, size_t length)
{
    if (writer->room - writer->length < FIELD_BYTES + length) {
        writer->fault = ROZHINAL_REFUSED_FIELD;
        return NULL;
    }
    uint8_t *field = writer->bytes + writer->length;
    field[0] = (uint8_t)tag;
    put_two_bytes(field + 1, length);
    writer->length += FIELD_BYTES + length;
    return field + FIELD_BYTES;
}

static size_t end_item(rozhelp_writer *writer, unsigned level)
{
    writer->levels[writer->count] = (uint8_t)level;
    return writer->count++;
}

/* Whether one more item with this name can be written; the name's length. */
static bool takes_item(rozhelp_writer *writer, const char *name, size_t *length)
{
    if (writer->fault != 0)
        return false;
    *length = name == NULL ? 0 : strlen(name);
    if (writer->ended)
        writer->fault = ROZHINAL_REFUSED_TAG;
    else if (writer->count == ROZHINAL_MAX_ITEMS)
        writer->fault = ROZHINAL_REFUSED_COUNT;
    else if (!rozhelp_is_name((const uint8_t *)name, *length))
        writer->fault = ROZHINAL_REFUSED_LENGTH;
    return writer->fault == 0;
}

size_t rozhelp_entry(rozhelp_writer *writer, const char *name)
{
    size_t length;
    if (!takes_item(writer, name, &length))
        return ROZHELP_NO_ITEM;
    uint8_t *content = begin_field(writer, ROZHINAL_TAG_ENTRY, length);
    if (content == NULL)
        return ROZHELP_NO_ITEM;
    memcpy(content, name, length);
    return end_item(writer, 0);
}

static bool takes_parents(unsigned rule, size_t count)
{
    switch (rule) {
    case ROZHINAL_SUM:
    case ROZHINAL_SMALLEST:
    case ROZHINAL_LARGEST:
    case ROZHINAL_COUNT:
        return count >= 1 && count <= ROZHINAL_MAX_PARENTS;
    case ROZHINAL_DIFFERENCE:
    case ROZHINAL_SHARE:
    case ROZHINAL_AT_LEAST:
        return count == 2;
    case ROZHINAL_CHOICE:
        return count == 3;
    default:
        return false;
    }
}

/* One above the highest parent; 0, and the fault, if a parent or the level is wrong. */
static unsigned level_of(rozhelp_writer *writer, const size_t *parents, size_t count)
{
    unsigned level = 0;
    for (size_t k = 0; k < count; k++) {
        if (parents == NULL || parents[k] >= writer->count) {
            writer->fault = ROZHINAL_REFUSED_PARENT;
            return 0;
        }
        if (writer->levels[parents[k]] >= level)
            level = writer->levels[parents[k]] + 1U;
    }
    if (level > ROZHINAL_MAX_LEVEL) {
        writer->fault = ROZHINAL_REFUSED_LEVEL;
        return 0;
    }
    return level;
}

size_t rozhelp_figure(rozhelp_writer *writer, const char *name, unsigned rule, bool keep,
                      unsigned spread, const size_t *parents, size_t parent_count)
{
    size_t name_len;
    if (!takes_item(writer, name, &name_len))
        return ROZHELP_NO_ITEM;
    if (!takes_parents(rule, parent_count) || spread > ROZHINAL_RENEW) {
        writer->fault = ROZHINAL_REFUSED_RULE;
        return ROZHELP_NO_ITEM;
    }
    unsigned level = level_of(writer, parents, parent_count);
    size_t name_at = FIGURE_BYTES + PARENT_BYTES * parent_count;
    uint8_t *content = level == 0 ? NULL
                                  : begin_field(writer, ROZHINAL_TAG_FIGURE, name_at + name_len);
    if (content == NULL)
        return ROZHELP_NO_ITEM;
    content[0] = (uint8_t)rule;
    content[1] = keep;
    content[2] = (uint8_t)spread;
    content[3] = (uint8_t)parent_count;
    for (size_t k = 0; k < parent_count; k++)
        put_two_bytes(content + FIGURE_BYTES + PARENT_BYTES * k, parents[k]);
    memcpy(content + name_at, name, name_len);
    return end_item(writer, level);
}

size_t rozhelp_end(rozhelp_writer *writer)
{
    if (writer->fault == 0 && writer->count == 0)
        writer->fault = ROZHINAL_REFUSED_COUNT;
    if (writer->fault == 0 && !writer->ended && begin_field(writer, ROZHINAL_TAG_END, 0) != NULL) {
        uint8_t *head = writer->bytes;
        head[0] = ROZHINAL_TAG_HEAD;
        put_two_bytes(head + 1, HEAD_FIELD_BYTES - FIELD_BYTES);
        put_two_bytes(head + 3, ROZHINAL_EDITION_FOR(writer->count));
        put_two_bytes(head + 5, writer->count);
        writer->ended = true;
    }
    return writer->fault == 0 ? writer->length : 0;
}
