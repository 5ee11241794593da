/* Refusals and values in words. Not proved; tested by tests/helpers. */
#include "layout.h"

#include <inttypes.h>
#include <stdarg.h>
#include <stdio.h>
#include <string.h>

/* The words are rows of bytes: pointers to them would be relocated, in pages that are written. */
#define WORDS(words) (sizeof(words) / sizeof *(words))

const char *rozhelp_rule_word(unsigned rule)
{
    static const char words[][12] = { "?", "sum", "difference", "smallest", "largest",
                                      "share", "choice", "count", "at-least" };
    return words[rule < WORDS(words) ? rule : 0];
}

const char *rozhelp_spread_word(unsigned spread)
{
    static const char words[][20] = { "defer", "renew", "forget (as defer)" };
    return spread < WORDS(words) ? words[spread] : "?";
}

const char *rozhelp_refusal_text(uint64_t number)
{
    static const char words[][96] = {
        "accepted",
        "a field runs past the end, or is absent",
        "a tag is wrong for its place, or bytes follow the last field",
        "a field's length or a name is wrong",
        "the edition or the item count is wrong",
        "the rule, keep, spread or number of parents is wrong",
        "a parent is not an earlier item",
        "a level is above 64",
        "the index or the table has the wrong length",
        "the index is not the one of this sheet",
        "a record of the table breaks its form or range, or an owed byte is false",
        "there is no such item",
        "only an entry is posted to or swapped, and only a figure is kept or dropped",
        "a value is neither null nor a number within the range, or a swap would leave the range",
        "the item has no mark",
        "the scratch is too small",
        "a field of the day log is wrong",
        "the list of a board or of its results has the wrong length",
        "giver and taker are one entry, or the quantity is under 1",
        "the file of the sheet is too long for the day program",
    };
    return number < WORDS(words) ? words[number] : "an unknown refusal";
}

/* Text that is put together, cut where its room ends. */
struct text {
    char *bytes;
    size_t room, length;
};

#ifdef __GNUC__
__attribute__((format(printf, 2, 3)))
#endif
static void add(struct text *text, const char *form, ...)
{
    va_list values;
    va_start(values, form);
    size_t room = text->length < text->room ? text->room - text->length : 0;
    int length = vsnprintf(room > 0 ? text->bytes + text->length : NULL, room, form, values);
    va_end(values);
    text->length += length > 0 ? (size_t)length : 0;
}

/* Which field begins at the offset: 0 is the head, then the items, then the end. */
static size_t field_number(const uint8_t *sheet, size_t sheet_len, size_t offset)
{
    size_t number = 0, length;
    for (size_t at = 0; at < offset && rozhelp_whole_field(sheet, sheet_len, at, &length); number++)
        at += FIELD_BYTES + length;
    return number;
}

/* The bytes of the field at the offset, as far as they are there, and of a long one the front. */
static void add_bytes(struct text *text, const uint8_t *sheet, size_t sheet_len, size_t offset)
{
    enum { SHOWN = 24 };
    size_t size = sheet_len - offset, length;
    if (rozhelp_whole_field(sheet, sheet_len, offset, &length))
        size = FIELD_BYTES + length;
    for (size_t k = 0; k < size && k < SHOWN; k++)
        add(text, " %02X", sheet[offset + k]);
    add(text, size > SHOWN ? " ...\n" : "\n");
}

/* Of a figure with the retired spread, which edition 2 alone refuses: where, and what to write. */
static void add_retired(struct text *text, const uint8_t *sheet, size_t sheet_len, size_t offset)
{
    unsigned edition = rozhinal_edition(sheet, sheet_len);
    if (edition != ROZHINAL_EDITION_2 || sheet_len - offset <= SPREAD_AT
        || sheet[offset + SPREAD_AT] != ROZHINAL_FORGET)
        return;
    add(text, "its spread, at offset %zu, is %d (forget), which edition %u does not take; ",
        offset + SPREAD_AT, ROZHINAL_FORGET, edition);
    add(text, "write %d (defer) or %d (renew)\n", ROZHINAL_DEFER, ROZHINAL_RENEW);
}

/* What the head states, and what it may. */
static void add_editions(struct text *text, const uint8_t *sheet, size_t sheet_len)
{
    size_t count = rozhinal_item_count(sheet, sheet_len);
    add(text, "it is of edition %u, with %zu item%s; ", rozhinal_edition(sheet, sheet_len), count,
        count == 1 ? "" : "s");
    add(text, "edition 1 has 1 to %d items, edition 2 1 to %d\n", ROZHINAL_MAX_ITEMS_EDITION_1,
        ROZHINAL_MAX_ITEMS_EDITION_2);
}

static void add_place(struct text *text, const uint8_t *sheet, size_t sheet_len, size_t offset)
{
    size_t count = rozhinal_item_count(sheet, sheet_len);
    size_t number = field_number(sheet, sheet_len, offset);
    add(text, "at offset %zu, ", offset);
    if (number == 0)
        add(text, "the head");
    else if (number <= count)
        add(text, "item %zu", number - 1);
    else
        add(text, number == count + 1 ? "the last field" : "after the last field");
}

size_t rozhelp_explain(char *text, size_t room, const uint8_t *sheet, size_t sheet_len,
                       rozhinal_answer answer)
{
    struct text words = { text, room < ROZHELP_TEXT_BYTES ? room : ROZHELP_TEXT_BYTES, 0 };
    const char *meaning = rozhelp_refusal_text(answer.number);
    if (answer.number == ROZHINAL_ACCEPTED)
        add(&words, "%s\n", meaning);
    else
        add(&words, "refused with %" PRIu64 ": %s\n", answer.number, meaning);
    if (answer.number < ROZHINAL_REFUSED_FIELD || answer.number > ROZHINAL_REFUSED_LEVEL
        || answer.offset > sheet_len)
        return words.length;
    size_t offset = (size_t)answer.offset;
    add_place(&words, sheet, sheet_len, offset);
    if (offset == sheet_len) {
        add(&words, ": the sheet ends here\n");
        return words.length;
    }
    add(&words, ":");
    add_bytes(&words, sheet, sheet_len, offset);
    if (answer.number == ROZHINAL_REFUSED_COUNT)
        add_editions(&words, sheet, sheet_len);
    if (answer.number == ROZHINAL_REFUSED_RULE)
        add_retired(&words, sheet, sheet_len, offset);
    return words.length;
}

int64_t rozhelp_number(const uint8_t *bytes)
{
    uint64_t bits = 0;
    for (size_t k = 8; k > 0; k--)
        bits = bits << 8 | bytes[k - 1];
    int64_t number;
    memcpy(&number, &bits, sizeof number);
    return number;
}

const char *rozhelp_value_text(uint64_t kind, int64_t number, char text[ROZHELP_VALUE_BYTES])
{
    uint8_t scratch[ROZHINAL_PRINT_BYTES];
    int64_t length = rozhinal_print(kind, number, scratch, sizeof scratch);
    memcpy(text, "UNK", 4);
    if (length > 0) {
        memcpy(text, scratch, (size_t)length);
        text[length] = '\0';
    }
    return text;
}
