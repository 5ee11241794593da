/*
 * The quota engine in plain C: the sheet is read and checked at each call, and items are then read
 * from its bytes where they stand. No heap and no state between calls.
 */
#include "plain.h"

#include <stdbool.h>
#include <string.h>

enum { FIELD_HEADER = 3, HEAD_LENGTH = 4, FIRST_NAME_BYTE = 33, LAST_NAME_BYTE = 126 };

/* where the parts of a figure stand in its field, and of a record in the table */
enum { RULE_AT = 3, KEEP_AT = 4, SPREAD_AT = 5, PARENT_COUNT_AT = 6, PARENTS_AT = 7 };
enum { KIND_AT = 0, MARK_AT = 1, NUMBER_AT = 2, OWED_AT = 10 };

/* item 0 is no figure, so that a link is never NO_LINK */
enum { MOST_LINKS = (ROZHINAL_MAX_ITEMS - 1) * ROZHINAL_MAX_PARENTS, NO_LINK = 0xFFFF };
_Static_assert(MOST_LINKS <= NO_LINK, "a link fits two bytes");

/*
 * What the reading of a sheet leaves: how many items there are, and where. There is room for either
 * edition, and only what the sheet needs is written.
 */
struct layout {
    size_t count;
    uint32_t offset[ROZHINAL_MAX_ITEMS];
    uint8_t level[ROZHINAL_MAX_ITEMS];
};

struct value {
    int64_t number; /* 0 unless the kind is ROZHINAL_NUMBER */
    uint8_t kind;
    bool flag; /* of a value that was looked up or worked out */
};

/*
 * The work of a call. A figure that is looked up and not stored is remembered until the next pass.
 * The children of an item are a list of links, the lowest first.
 *
 * Stepping and catching up change no owed byte: no figure becomes unstored, and what they store was
 * owed, so that its parents were owed already. What is looked up then may not have been: the owed
 * bytes are written anew after it.
 */
struct desk {
    const uint8_t *sheet;
    const struct layout *layout;
    uint8_t *table;
    bool listed; /* the children */
    uint32_t pass;
    uint32_t seen_in[ROZHINAL_MAX_ITEMS];
    struct value seen[ROZHINAL_MAX_ITEMS];
    uint16_t first_link[ROZHINAL_MAX_ITEMS];
    uint16_t next_link[MOST_LINKS];
    uint16_t child[MOST_LINKS];
};

static const struct value null_value = { 0, ROZHINAL_NULL, false };
static const struct value out_value = { 0, ROZHINAL_OUT, false };
static const rozhinal_answer accepted = { ROZHINAL_ACCEPTED, 0 };

static rozhinal_answer refuse(uint64_t number, size_t offset)
{
    return (rozhinal_answer){ number, offset };
}

/* ---- Numbers in bytes ------------------------------------------------------------------------ */

static size_t get_u16(const uint8_t *from)
{
    return (size_t)from[0] | (size_t)from[1] << 8;
}

static uint32_t get_u32(const uint8_t *from)
{
    return (uint32_t)from[0] | (uint32_t)from[1] << 8 | (uint32_t)from[2] << 16
           | (uint32_t)from[3] << 24;
}

static void put_u32(uint8_t *to, uint32_t number)
{
    to[0] = (uint8_t)number;
    to[1] = (uint8_t)(number >> 8);
    to[2] = (uint8_t)(number >> 16);
    to[3] = (uint8_t)(number >> 24);
}

static int64_t get_i64(const uint8_t *from)
{
    uint64_t number = get_u32(from) | (uint64_t)get_u32(from + 4) << 32;
    int64_t result;
    memcpy(&result, &number, sizeof result);
    return result;
}

static void put_i64(uint8_t *to, int64_t number)
{
    put_u32(to, (uint32_t)(uint64_t)number);
    put_u32(to + 4, (uint32_t)((uint64_t)number >> 32));
}

/* ---- Values and rules ------------------------------------------------------------------------ */

static bool in_range(int64_t number)
{
    return -ROZHINAL_LIMIT <= number && number <= ROZHINAL_LIMIT;
}

static bool same(struct value a, struct value b)
{
    return a.kind == b.kind && a.number == b.number;
}

/* A result, tested for the range. */
static struct value number_value(int64_t number)
{
    return in_range(number) ? (struct value){ number, ROZHINAL_NUMBER, false } : out_value;
}

static bool parents_allowed(uint8_t rule, size_t count)
{
    switch (rule) {
    case ROZHINAL_SUM:
    case ROZHINAL_SMALLEST:
    case ROZHINAL_LARGEST:
    case ROZHINAL_COUNT:
        return 1 <= count && count <= ROZHINAL_MAX_PARENTS;
    case ROZHINAL_DIFFERENCE:
    case ROZHINAL_SHARE:
    case ROZHINAL_AT_LEAST:
        return count == 2;
    case ROZHINAL_CHOICE:
        return count == 3;
    default:
        return false;
    }
}

static struct value sum(const struct value *parents, size_t count)
{
    int64_t total = 0;
    bool any = false;
    for (size_t k = 0; k < count; k++) {
        total += parents[k].number;
        any |= parents[k].kind == ROZHINAL_NUMBER;
    }
    return any ? number_value(total) : null_value;
}

/* The smallest of the parents, or the largest. */
static struct value extreme(const struct value *parents, size_t count, bool largest)
{
    struct value best = null_value;
    for (size_t k = 0; k < count; k++) {
        if (parents[k].kind != ROZHINAL_NUMBER)
            continue;
        if (best.kind == ROZHINAL_NULL || (parents[k].number > best.number) == largest)
            best = parents[k];
    }
    return best;
}

static struct value count_numbers(const struct value *parents, size_t count)
{
    int64_t numbers = 0;
    for (size_t k = 0; k < count; k++)
        numbers += parents[k].kind == ROZHINAL_NUMBER;
    return numbers == 0 ? null_value : number_value(numbers);
}

static struct value difference(struct value a, struct value b)
{
    if (a.kind == ROZHINAL_NULL && b.kind == ROZHINAL_NULL)
        return null_value;
    return number_value(a.number - b.number);
}

/*
 * The product of the two, up to 10^19, can leave a signed 64-bit number. So the units of 10,000 in
 * the first are multiplied alone, and only what is over, 0 to 9,999, is also divided: both products
 * here are at most 10^15.
 */
static struct value share(struct value whole, struct value parts)
{
    if (whole.kind == ROZHINAL_NULL || parts.kind == ROZHINAL_NULL)
        return null_value;
    if (parts.number < 0 || ROZHINAL_WHOLE < parts.number)
        return out_value;
    int64_t units = whole.number / ROZHINAL_WHOLE;
    int64_t over = whole.number % ROZHINAL_WHOLE;
    if (over < 0) {
        units--;
        over += ROZHINAL_WHOLE;
    }
    return number_value(units * parts.number + over * parts.number / ROZHINAL_WHOLE);
}

/* What is not picked counts for nothing, OUT included. */
static struct value choice(struct value test, struct value yes, struct value no)
{
    if (test.kind != ROZHINAL_NUMBER)
        return test;
    return test.number > 0 ? yes : no;
}

static struct value at_least(struct value a, struct value b)
{
    if (a.kind == ROZHINAL_NULL || b.kind == ROZHINAL_NULL)
        return null_value;
    return number_value(a.number >= b.number);
}

/* Taken into both functions that work out; for one of them alone gcc would do so by itself. */
__attribute__((always_inline))
static inline struct value apply(uint8_t rule, const struct value *parents, size_t count)
{
    if (rule == ROZHINAL_CHOICE)
        return choice(parents[0], parents[1], parents[2]);
    for (size_t k = 0; k < count; k++)
        if (parents[k].kind == ROZHINAL_OUT)
            return out_value;
    switch (rule) {
    case ROZHINAL_SUM:
        return sum(parents, count);
    case ROZHINAL_DIFFERENCE:
        return difference(parents[0], parents[1]);
    case ROZHINAL_SMALLEST:
    case ROZHINAL_LARGEST:
        return extreme(parents, count, rule == ROZHINAL_LARGEST);
    case ROZHINAL_SHARE:
        return share(parents[0], parents[1]);
    case ROZHINAL_COUNT:
        return count_numbers(parents, count);
    default: /* ROZHINAL_AT_LEAST */
        return at_least(parents[0], parents[1]);
    }
}

/* ---- The sheet ------------------------------------------------------------------------------- */

/* Whether a whole field stands at the offset. */
static bool field_fits(const uint8_t *sheet, size_t sheet_len, size_t at)
{
    size_t left = sheet_len - at;
    return left >= FIELD_HEADER && left - FIELD_HEADER >= get_u16(sheet + at + 1);
}

static bool name_allowed(const uint8_t *name, size_t length)
{
    if (length < 1 || ROZHINAL_MAX_NAME < length)
        return false;
    for (size_t k = 0; k < length; k++)
        if (name[k] < FIRST_NAME_BYTE || LAST_NAME_BYTE < name[k])
            return false;
    return true;
}

/* The cause to refuse the parents of item i, or 0; the item's level is noted. */
static uint64_t check_parents(const uint8_t *parents, size_t count, size_t i, uint8_t *level)
{
    uint8_t highest = 0;
    for (size_t k = 0; k < count; k++) {
        size_t parent = get_u16(parents + 2 * k);
        if (parent >= i)
            return ROZHINAL_REFUSED_PARENT;
        if (level[parent] > highest)
            highest = level[parent];
    }
    if (highest >= ROZHINAL_MAX_LEVEL)
        return ROZHINAL_REFUSED_LEVEL;
    level[i] = highest + 1;
    return 0;
}

/* The highest spread of an edition that has items. */
static uint8_t most_spread(size_t edition)
{
    return edition == ROZHINAL_EDITION_1 ? ROZHINAL_FORGET : ROZHINAL_RENEW;
}

/* The cause to refuse the field of a figure, item i, or 0. */
static uint64_t check_figure(const uint8_t *field, size_t length, size_t i, uint8_t *level,
                             uint8_t spreads)
{
    if (length < PARENTS_AT - FIELD_HEADER)
        return ROZHINAL_REFUSED_LENGTH;
    size_t count = field[PARENT_COUNT_AT];
    size_t name_at = PARENTS_AT + 2 * count;
    if (FIELD_HEADER + length < name_at
        || !name_allowed(field + name_at, FIELD_HEADER + length - name_at))
        return ROZHINAL_REFUSED_LENGTH;
    if (!parents_allowed(field[RULE_AT], count) || field[KEEP_AT] > 1
        || field[SPREAD_AT] > spreads)
        return ROZHINAL_REFUSED_RULE;
    return check_parents(field + PARENTS_AT, count, i, level);
}

/* The cause to refuse the field of item i, or 0. Spreads go up to the one given. */
static uint64_t check_item(const uint8_t *field, size_t length, size_t i, uint8_t *level,
                           uint8_t spreads)
{
    if (field[0] == ROZHINAL_TAG_FIGURE)
        return check_figure(field, length, i, level, spreads);
    if (field[0] != ROZHINAL_TAG_ENTRY)
        return ROZHINAL_REFUSED_TAG;
    level[i] = 0;
    return name_allowed(field + FIELD_HEADER, length) ? 0 : ROZHINAL_REFUSED_LENGTH;
}

/* No sheet of another edition has any items. */
static size_t most_items(size_t edition)
{
    switch (edition) {
    case ROZHINAL_EDITION_1:
        return ROZHINAL_MAX_ITEMS_EDITION_1;
    case ROZHINAL_EDITION_2:
        return ROZHINAL_MAX_ITEMS_EDITION_2;
    default:
        return 0;
    }
}

/* The cause to refuse the first field, or 0. */
static uint64_t check_head(const uint8_t *sheet, size_t sheet_len)
{
    if (!field_fits(sheet, sheet_len, 0))
        return ROZHINAL_REFUSED_FIELD;
    if (sheet[0] != ROZHINAL_TAG_HEAD)
        return ROZHINAL_REFUSED_TAG;
    if (get_u16(sheet + 1) != HEAD_LENGTH)
        return ROZHINAL_REFUSED_LENGTH;
    size_t count = get_u16(sheet + 5);
    if (count < 1 || most_items(get_u16(sheet + 3)) < count)
        return ROZHINAL_REFUSED_COUNT;
    return 0;
}

static rozhinal_answer check_end(const uint8_t *sheet, size_t sheet_len, size_t at)
{
    if (!field_fits(sheet, sheet_len, at))
        return refuse(ROZHINAL_REFUSED_FIELD, at);
    if (sheet[at] != ROZHINAL_TAG_END)
        return refuse(ROZHINAL_REFUSED_TAG, at);
    if (get_u16(sheet + at + 1) != 0)
        return refuse(ROZHINAL_REFUSED_LENGTH, at);
    if (at + FIELD_HEADER < sheet_len)
        return refuse(ROZHINAL_REFUSED_TAG, at + FIELD_HEADER);
    return accepted;
}

static rozhinal_answer read_sheet(const uint8_t *sheet, size_t sheet_len, struct layout *layout)
{
    uint64_t cause = check_head(sheet, sheet_len);
    if (cause != 0)
        return refuse(cause, 0);
    layout->count = get_u16(sheet + 5);
    uint8_t spreads = most_spread(get_u16(sheet + 3));
    size_t at = FIELD_HEADER + HEAD_LENGTH;
    for (size_t i = 0; i < layout->count; i++) {
        if (!field_fits(sheet, sheet_len, at))
            return refuse(ROZHINAL_REFUSED_FIELD, at);
        size_t length = get_u16(sheet + at + 1);
        cause = check_item(sheet + at, length, i, layout->level, spreads);
        if (cause != 0)
            return refuse(cause, at);
        layout->offset[i] = (uint32_t)at;
        at += FIELD_HEADER + length;
    }
    return check_end(sheet, sheet_len, at);
}

/* ---- Index and table ------------------------------------------------------------------------- */

static uint8_t *record_of(uint8_t *table, size_t i)
{
    return table + ROZHINAL_RECORD_BYTES * i;
}

static struct value stored(const uint8_t *record)
{
    return (struct value){ get_i64(record + NUMBER_AT), record[KIND_AT],
                           record[MARK_AT] == ROZHINAL_MARK_NOTICE };
}

/* Writes all but the owed byte. */
static void store(uint8_t *record, struct value value, uint8_t mark)
{
    record[KIND_AT] = value.kind;
    record[MARK_AT] = mark;
    put_i64(record + NUMBER_AT, value.number);
}

/* Stores what was looked up. */
static void store_seen(uint8_t *record, struct value value)
{
    store(record, value, value.flag ? ROZHINAL_MARK_NOTICE : ROZHINAL_MARK_NONE);
}

/* A record of UNK with a mark. */
static void store_unk(uint8_t *record, uint8_t mark)
{
    store(record, (struct value){ 0, ROZHINAL_UNK, false }, mark);
}

static bool index_matches(const struct layout *layout, const uint8_t *idx)
{
    for (size_t i = 0; i < layout->count; i++)
        if (get_u32(idx + ROZHINAL_OFFSET_BYTES * i) != layout->offset[i])
            return false;
    return true;
}

static bool record_allowed(const uint8_t *record, bool figure)
{
    uint8_t kind = record[KIND_AT], mark = record[MARK_AT];
    if (kind > ROZHINAL_NUMBER || mark > ROZHINAL_MARK_NOTICE)
        return false;
    if (!figure && (kind == ROZHINAL_UNK || kind == ROZHINAL_OUT))
        return false;
    if (mark == ROZHINAL_MARK_REFRESH && (!figure || kind == ROZHINAL_UNK))
        return false;
    int64_t number = get_i64(record + NUMBER_AT);
    return kind == ROZHINAL_NUMBER ? in_range(number) : number == 0;
}

static bool is_figure(const uint8_t *sheet, const struct layout *layout, size_t i)
{
    return sheet[layout->offset[i]] == ROZHINAL_TAG_FIGURE;
}

/* Makes the parents of a figure owed that is stored, or is owed itself. */
static void owe_parents(const uint8_t *field, uint8_t *owed, size_t width)
{
    for (size_t k = 0; k < field[PARENT_COUNT_AT]; k++)
        owed[width * get_u16(field + PARENTS_AT + 2 * k)] = 1;
}

/* The children of an item stand above it: with the highest item first each owed byte is known. */
static bool table_allowed(const uint8_t *sheet, const struct layout *layout, uint8_t *table)
{
    uint8_t owed[ROZHINAL_MAX_ITEMS];
    memset(owed, 0, layout->count);
    for (size_t i = layout->count; i-- > 0;) {
        const uint8_t *field = sheet + layout->offset[i], *record = record_of(table, i);
        bool figure = field[0] == ROZHINAL_TAG_FIGURE;
        if (record[OWED_AT] != owed[i] || !record_allowed(record, figure))
            return false;
        if (figure && (record[KIND_AT] != ROZHINAL_UNK || owed[i]))
            owe_parents(field, owed, 1);
    }
    return true;
}

/* Writes the owed bytes anew. */
static void write_owed(const uint8_t *sheet, const struct layout *layout, uint8_t *table)
{
    for (size_t i = 0; i < layout->count; i++)
        record_of(table, i)[OWED_AT] = 0;
    for (size_t i = layout->count; i-- > 0;) {
        const uint8_t *field = sheet + layout->offset[i], *record = record_of(table, i);
        if (field[0] == ROZHINAL_TAG_FIGURE && (record[KIND_AT] != ROZHINAL_UNK || record[OWED_AT]))
            owe_parents(field, table + OWED_AT, ROZHINAL_RECORD_BYTES);
    }
}

/* The tests of 1 to 8. */
static rozhinal_answer measure(const uint8_t *sheet, size_t sheet_len, size_t idx_len,
                               size_t table_len, struct layout *layout)
{
    rozhinal_answer answer = read_sheet(sheet, sheet_len, layout);
    if (answer.number == 0
        && (idx_len != ROZHINAL_INDEX_BYTES(layout->count)
            || table_len != ROZHINAL_TABLE_BYTES(layout->count)))
        return refuse(ROZHINAL_REFUSED_SIZES, 0);
    return answer;
}

/* The tests of 1 to 10. */
static rozhinal_answer enter(const uint8_t *sheet, size_t sheet_len, const uint8_t *idx,
                             size_t idx_len, uint8_t *table, size_t table_len,
                             struct layout *layout)
{
    rozhinal_answer answer = measure(sheet, sheet_len, idx_len, table_len, layout);
    if (answer.number != 0)
        return answer;
    if (!index_matches(layout, idx))
        return refuse(ROZHINAL_REFUSED_INDEX, 0);
    if (!table_allowed(sheet, layout, table))
        return refuse(ROZHINAL_REFUSED_TABLE, 0);
    return accepted;
}

/* ---- Looking up and working out -------------------------------------------------------------- */

static const uint8_t *field_of(const struct desk *desk, size_t i)
{
    return desk->sheet + desk->layout->offset[i];
}

static void sit_down(struct desk *desk, const uint8_t *sheet, const struct layout *layout,
                     uint8_t *table)
{
    desk->sheet = sheet;
    desk->layout = layout;
    desk->table = table;
    desk->listed = false;
    desk->pass = 1;
    memset(desk->seen_in, 0, layout->count * sizeof desk->seen_in[0]);
}

/* At the end of a call that has looked up. */
static void stand_up(const struct desk *desk)
{
    write_owed(desk->sheet, desk->layout, desk->table);
}

/* Stores an unstored figure that was looked up. */
static void keep_seen(struct desk *desk, size_t i, struct value value)
{
    store_seen(record_of(desk->table, i), value);
}

static struct value look_up(struct desk *desk, size_t i);

static struct value work_out(struct desk *desk, size_t i)
{
    const uint8_t *field = field_of(desk, i);
    size_t count = field[PARENT_COUNT_AT];
    struct value parents[ROZHINAL_MAX_PARENTS];
    bool flag = false;
    for (size_t k = 0; k < count; k++) {
        parents[k] = look_up(desk, get_u16(field + PARENTS_AT + 2 * k));
        flag |= parents[k].flag;
    }
    struct value value = apply(field[RULE_AT], parents, count);
    value.flag = flag;
    return value;
}

static struct value look_up(struct desk *desk, size_t i)
{
    uint8_t *record = record_of(desk->table, i);
    if (record[KIND_AT] != ROZHINAL_UNK)
        return stored(record);
    if (desk->seen_in[i] == desk->pass)
        return desk->seen[i];
    struct value value = work_out(desk, i);
    value.flag |= record[MARK_AT] == ROZHINAL_MARK_NOTICE;
    if (field_of(desk, i)[KEEP_AT]) {
        keep_seen(desk, i, value);
    } else {
        desk->seen_in[i] = desk->pass;
        desk->seen[i] = value;
    }
    return value;
}

/* ---- Telling and stepping -------------------------------------------------------------------- */

/* Lists the children of every item. The highest child is put in first, and each of them once. */
static void list_children(struct desk *desk)
{
    size_t links = 0;
    for (size_t i = 0; i < desk->layout->count; i++)
        desk->first_link[i] = NO_LINK;
    for (size_t i = desk->layout->count; i-- > 0;) {
        const uint8_t *field = field_of(desk, i);
        if (field[0] != ROZHINAL_TAG_FIGURE)
            continue;
        for (size_t k = 0; k < field[PARENT_COUNT_AT]; k++) {
            size_t parent = get_u16(field + PARENTS_AT + 2 * k);
            uint16_t first = desk->first_link[parent];
            if (first != NO_LINK && desk->child[first] == i)
                continue;
            desk->child[links] = (uint16_t)i;
            desk->next_link[links] = first;
            desk->first_link[parent] = (uint16_t)links++;
        }
    }
}

/* Works out a stored figure anew. */
static void renew(struct desk *desk, size_t i)
{
    uint8_t *record = record_of(desk->table, i);
    struct value value = work_out(desk, i);
    if (!same(value, stored(record)))
        store(record, value, ROZHINAL_MARK_NOTICE);
    else if (record[MARK_AT] == ROZHINAL_MARK_REFRESH)
        record[MARK_AT] = ROZHINAL_MARK_NONE;
}

/* Every spread but renew defers. */
static void tell_child(struct desk *desk, size_t i)
{
    uint8_t *record = record_of(desk->table, i);
    if (record[KIND_AT] == ROZHINAL_UNK) {
        if (record[OWED_AT])
            record[MARK_AT] = ROZHINAL_MARK_NOTICE;
        return;
    }
    if (field_of(desk, i)[SPREAD_AT] == ROZHINAL_RENEW || record[MARK_AT] == ROZHINAL_MARK_NOTICE)
        renew(desk, i);
    else
        record[MARK_AT] = ROZHINAL_MARK_REFRESH;
}

/* Tells the children, which are listed when the first item is met that has any to be told. */
static void tell(struct desk *desk, size_t i)
{
    if (!desk->listed)
        list_children(desk);
    desk->listed = true;
    for (uint16_t link = desk->first_link[i]; link != NO_LINK; link = desk->next_link[link])
        tell_child(desk, desk->child[link]);
}

/* Steps a marked item, in a pass of its own. Of one that is not owed no child is to be told. */
static void step(struct desk *desk, size_t i)
{
    uint8_t *record = record_of(desk->table, i);
    desk->pass++;
    if (record[MARK_AT] == ROZHINAL_MARK_REFRESH) {
        renew(desk, i);
        return;
    }
    if (record[OWED_AT])
        tell(desk, i);
    record[MARK_AT] = ROZHINAL_MARK_NONE;
}

/* A step marks only the item itself or higher ones, so one sweep finds every mark. */
static void catch_up(struct desk *desk)
{
    for (size_t i = 0; i < desk->layout->count; i++) {
        const uint8_t *mark = record_of(desk->table, i) + MARK_AT;
        while (*mark != ROZHINAL_MARK_NONE)
            step(desk, i);
    }
    desk->pass++;
}

/* ---- Openings -------------------------------------------------------------------------------- */

static rozhinal_answer open_by(const uint8_t *sheet, size_t sheet_len, uint8_t *idx,
                               size_t idx_len, uint8_t *table, size_t table_len, bool full)
{
    struct layout layout;
    rozhinal_answer answer = measure(sheet, sheet_len, idx_len, table_len, &layout);
    if (answer.number != 0)
        return answer;
    for (size_t i = 0; i < layout.count; i++) {
        const uint8_t *field = sheet + layout.offset[i];
        bool figure = field[0] == ROZHINAL_TAG_FIGURE;
        uint8_t *record = record_of(table, i);
        put_u32(idx + ROZHINAL_OFFSET_BYTES * i, layout.offset[i]);
        record[OWED_AT] = 0;
        if (full || !figure)
            store(record, null_value, ROZHINAL_MARK_NONE);
        else
            store_unk(record, ROZHINAL_MARK_NONE);
        if (full && figure)
            owe_parents(field, table + OWED_AT, ROZHINAL_RECORD_BYTES);
    }
    return accepted;
}

rozhinal_answer plain_open_bare(const uint8_t *sheet, size_t sheet_len,
                                uint8_t *idx, size_t idx_len,
                                uint8_t *table, size_t table_len)
{
    return open_by(sheet, sheet_len, idx, idx_len, table, table_len, false);
}

rozhinal_answer plain_open_full(const uint8_t *sheet, size_t sheet_len,
                                uint8_t *idx, size_t idx_len,
                                uint8_t *table, size_t table_len)
{
    return open_by(sheet, sheet_len, idx, idx_len, table, table_len, true);
}

/* ---- Calls ----------------------------------------------------------------------------------- */

rozhinal_answer plain_post(const uint8_t *sheet, size_t sheet_len,
                           const uint8_t *idx, size_t idx_len,
                           uint8_t *table, size_t table_len,
                           uint64_t item, uint64_t kind, int64_t number)
{
    struct layout layout;
    rozhinal_answer answer =
        enter(sheet, sheet_len, idx, idx_len, table, table_len, &layout);
    if (answer.number != 0)
        return answer;
    if (item >= layout.count)
        return refuse(ROZHINAL_REFUSED_ITEM, 0);
    if (is_figure(sheet, &layout, (size_t)item))
        return refuse(ROZHINAL_REFUSED_SORT, 0);
    if (!(kind == ROZHINAL_NULL && number == 0) && !(kind == ROZHINAL_NUMBER && in_range(number)))
        return refuse(ROZHINAL_REFUSED_POSTED, 0);
    uint8_t *record = record_of(table, (size_t)item);
    struct value value = { number, (uint8_t)kind, false };
    if (!same(value, stored(record)))
        store(record, value, ROZHINAL_MARK_NOTICE);
    return accepted;
}

rozhinal_answer plain_swap(const uint8_t *sheet, size_t sheet_len,
                           const uint8_t *idx, size_t idx_len,
                           uint8_t *table, size_t table_len,
                           uint64_t giver, uint64_t taker, int64_t quantity)
{
    struct layout layout;
    rozhinal_answer answer =
        enter(sheet, sheet_len, idx, idx_len, table, table_len, &layout);
    if (answer.number != 0)
        return answer;
    if (giver >= layout.count || taker >= layout.count)
        return refuse(ROZHINAL_REFUSED_ITEM, 0);
    if (is_figure(sheet, &layout, (size_t)giver) || is_figure(sheet, &layout, (size_t)taker))
        return refuse(ROZHINAL_REFUSED_SORT, 0);
    if (giver == taker || quantity < 1)
        return refuse(ROZHINAL_REFUSED_SWAP, 0);
    /* No giver has more than twice the limit to give; with any other quantity nothing overflows. */
    if (quantity > 2 * ROZHINAL_LIMIT)
        return refuse(ROZHINAL_REFUSED_POSTED, 0);
    uint8_t *from = record_of(table, (size_t)giver), *to = record_of(table, (size_t)taker);
    struct value less = number_value(stored(from).number - quantity);
    struct value more = number_value(stored(to).number + quantity);
    if (less.kind == ROZHINAL_OUT || more.kind == ROZHINAL_OUT)
        return refuse(ROZHINAL_REFUSED_POSTED, 0);
    store(from, less, ROZHINAL_MARK_NOTICE);
    store(to, more, ROZHINAL_MARK_NOTICE);
    return accepted;
}

rozhinal_answer plain_keep(const uint8_t *sheet, size_t sheet_len,
                           const uint8_t *idx, size_t idx_len,
                           uint8_t *table, size_t table_len,
                           uint64_t item)
{
    struct layout layout;
    rozhinal_answer answer =
        enter(sheet, sheet_len, idx, idx_len, table, table_len, &layout);
    if (answer.number != 0)
        return answer;
    if (item >= layout.count)
        return refuse(ROZHINAL_REFUSED_ITEM, 0);
    if (!is_figure(sheet, &layout, (size_t)item))
        return refuse(ROZHINAL_REFUSED_SORT, 0);
    uint8_t *record = record_of(table, (size_t)item);
    if (record[KIND_AT] == ROZHINAL_UNK) {
        struct desk desk;
        sit_down(&desk, sheet, &layout, table);
        struct value value = look_up(&desk, (size_t)item);
        if (record[KIND_AT] == ROZHINAL_UNK)
            keep_seen(&desk, (size_t)item, value);
    }
    write_owed(sheet, &layout, table);
    return accepted;
}

rozhinal_answer plain_drop(const uint8_t *sheet, size_t sheet_len,
                           const uint8_t *idx, size_t idx_len,
                           uint8_t *table, size_t table_len,
                           uint64_t item)
{
    struct layout layout;
    rozhinal_answer answer =
        enter(sheet, sheet_len, idx, idx_len, table, table_len, &layout);
    if (answer.number != 0)
        return answer;
    if (item >= layout.count)
        return refuse(ROZHINAL_REFUSED_ITEM, 0);
    if (!is_figure(sheet, &layout, (size_t)item))
        return refuse(ROZHINAL_REFUSED_SORT, 0);
    uint8_t *record = record_of(table, (size_t)item);
    bool marked = record[MARK_AT] != ROZHINAL_MARK_NONE;
    store_unk(record, marked ? ROZHINAL_MARK_NOTICE : ROZHINAL_MARK_NONE);
    write_owed(sheet, &layout, table);
    return accepted;
}

rozhinal_answer plain_step(const uint8_t *sheet, size_t sheet_len,
                           const uint8_t *idx, size_t idx_len,
                           uint8_t *table, size_t table_len,
                           uint64_t item)
{
    struct layout layout;
    rozhinal_answer answer =
        enter(sheet, sheet_len, idx, idx_len, table, table_len, &layout);
    if (answer.number != 0)
        return answer;
    if (item >= layout.count)
        return refuse(ROZHINAL_REFUSED_ITEM, 0);
    if (record_of(table, (size_t)item)[MARK_AT] == ROZHINAL_MARK_NONE)
        return refuse(ROZHINAL_REFUSED_UNMARKED, 0);
    struct desk desk;
    sit_down(&desk, sheet, &layout, table);
    step(&desk, (size_t)item);
    return accepted;
}

rozhinal_reading plain_ask(const uint8_t *sheet, size_t sheet_len,
                           const uint8_t *idx, size_t idx_len,
                           uint8_t *table, size_t table_len,
                           uint64_t item)
{
    struct layout layout;
    rozhinal_answer answer =
        enter(sheet, sheet_len, idx, idx_len, table, table_len, &layout);
    if (answer.number == 0 && item >= layout.count)
        answer = refuse(ROZHINAL_REFUSED_ITEM, 0);
    if (answer.number != 0)
        return (rozhinal_reading){ answer.number, answer.offset, ROZHINAL_UNK, 0 };
    struct desk desk;
    sit_down(&desk, sheet, &layout, table);
    catch_up(&desk);
    struct value value = look_up(&desk, (size_t)item);
    stand_up(&desk);
    return (rozhinal_reading){ ROZHINAL_ACCEPTED, 0, value.kind, value.number };
}

/* The tests of 17 and 11. */
static rozhinal_answer check_lists(const uint8_t *items, size_t items_len, size_t results_len,
                                   size_t item_count)
{
    size_t listed = items_len / ROZHINAL_BOARD_ITEM_BYTES;
    if (items_len % ROZHINAL_BOARD_ITEM_BYTES != 0 || listed > ROZHINAL_MAX_BOARD
        || results_len != ROZHINAL_RESULTS_BYTES(listed))
        return refuse(ROZHINAL_REFUSED_LISTS, 0);
    for (size_t k = 0; k < listed; k++)
        if (get_u16(items + ROZHINAL_ITEMS_BYTES(k)) >= item_count)
            return refuse(ROZHINAL_REFUSED_ITEM, 0);
    return accepted;
}

rozhinal_answer plain_board(const uint8_t *sheet, size_t sheet_len,
                            const uint8_t *idx, size_t idx_len,
                            uint8_t *table, size_t table_len,
                            const uint8_t *items, size_t items_len,
                            uint8_t *results, size_t results_len)
{
    struct layout layout;
    rozhinal_answer answer =
        enter(sheet, sheet_len, idx, idx_len, table, table_len, &layout);
    if (answer.number == 0)
        answer = check_lists(items, items_len, results_len, layout.count);
    if (answer.number != 0 || items_len == 0)
        return answer;
    struct desk desk;
    sit_down(&desk, sheet, &layout, table);
    catch_up(&desk);
    for (size_t k = 0; k < items_len / ROZHINAL_BOARD_ITEM_BYTES; k++) {
        struct value value = look_up(&desk, get_u16(items + ROZHINAL_ITEMS_BYTES(k)));
        uint8_t *result = results + ROZHINAL_RESULTS_BYTES(k);
        result[0] = value.kind;
        put_i64(result + 1, value.number);
    }
    stand_up(&desk);
    return accepted;
}

/* A figure that is to be stored, from the records of its parents; all of them are, and are owed. */
static struct value work_out_stored(const uint8_t *field, uint8_t *table)
{
    size_t count = field[PARENT_COUNT_AT];
    struct value parents[ROZHINAL_MAX_PARENTS];
    for (size_t k = 0; k < count; k++) {
        uint8_t *record = record_of(table, get_u16(field + PARENTS_AT + 2 * k));
        parents[k] = stored(record);
        record[OWED_AT] = 1;
    }
    return apply(field[RULE_AT], parents, count);
}

rozhinal_answer plain_close(const uint8_t *sheet, size_t sheet_len,
                            const uint8_t *idx, size_t idx_len,
                            uint8_t *table, size_t table_len)
{
    struct layout layout;
    rozhinal_answer answer =
        enter(sheet, sheet_len, idx, idx_len, table, table_len, &layout);
    if (answer.number != 0)
        return answer;
    for (size_t i = 0; i < layout.count; i++) {
        const uint8_t *field = sheet + layout.offset[i];
        uint8_t *record = record_of(table, i);
        if (field[0] == ROZHINAL_TAG_FIGURE)
            store(record, work_out_stored(field, table), ROZHINAL_MARK_NONE);
        else
            record[MARK_AT] = ROZHINAL_MARK_NONE;
    }
    return accepted;
}

/* ---- Printer --------------------------------------------------------------------------------- */

/* Writes a number that is in the range, and gives the length. */
static size_t put_number(int64_t number, uint8_t *scratch)
{
    uint8_t text[ROZHINAL_PRINT_BYTES];
    size_t at = sizeof text;
    uint64_t rest = (uint64_t)(number < 0 ? -number : number);
    do {
        text[--at] = (uint8_t)('0' + rest % 10);
        rest /= 10;
    } while (rest > 0);
    if (number < 0)
        text[--at] = '-';
    memcpy(scratch, text + at, sizeof text - at);
    return sizeof text - at;
}

int64_t plain_print(uint64_t kind, int64_t number, uint8_t *scratch, size_t scratch_len)
{
    if (kind < ROZHINAL_NULL || ROZHINAL_NUMBER < kind
        || !(kind == ROZHINAL_NUMBER ? in_range(number) : number == 0))
        return -ROZHINAL_REFUSED_TABLE;
    if (scratch_len < ROZHINAL_PRINT_BYTES)
        return -ROZHINAL_REFUSED_SCRATCH;
    if (kind == ROZHINAL_NUMBER)
        return (int64_t)put_number(number, scratch);
    if (kind == ROZHINAL_OUT) {
        memcpy(scratch, "OUT", 3);
        return 3;
    }
    scratch[0] = '-';
    return 1;
}
