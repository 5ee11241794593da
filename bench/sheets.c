#include "sheets.h"

struct figure {
    uint8_t rule; /* 0: an entry */
    uint8_t keep;
    uint8_t spread;
    size_t parent_count;
    size_t parents[ROZHINAL_MAX_PARENTS]; /* in the group, or COMMON + a common entry */
    size_t name_length;
    uint8_t name[ROZHINAL_MAX_NAME];
    size_t level;
    int64_t most; /* its number is never larger, if entries are at most MOST_POSTED */
};

enum { COMMON = 1000, RECENT = 16 };

static uint64_t state;
static size_t offsets[ROZHINAL_MAX_ITEMS];
static size_t top_level;

/* A number below a bound, from a sequence that begins anew with each sheet. */
static uint32_t draw(uint32_t below)
{
    state = state * UINT64_C(6364136223846793005) + UINT64_C(1442695040888963407);
    return (uint32_t)(state >> 33) % below;
}

/* ---- Bytes ----------------------------------------------------------------------------------- */

static void put(struct sheet *sheet, size_t byte)
{
    sheet->bytes[sheet->length++] = (uint8_t)byte;
}

static void put_two(struct sheet *sheet, size_t number)
{
    put(sheet, number & 0xFF);
    put(sheet, number >> 8);
}

static void begin_sheet(struct sheet *sheet, size_t count)
{
    state = UINT64_C(20260101);
    top_level = 0;
    sheet->length = 0;
    sheet->count = 0;
    put(sheet, ROZHINAL_TAG_HEAD);
    put_two(sheet, 4);
    put_two(sheet, ROZHINAL_EDITION_FOR(count));
    put_two(sheet, count);
}

static void end_sheet(struct sheet *sheet)
{
    put(sheet, ROZHINAL_TAG_END);
    put_two(sheet, 0);
}

/* The item of a group that begins at the item number base. */
static void put_item(struct sheet *sheet, const struct figure *item, size_t base)
{
    if (item->level >= top_level) {
        top_level = item->level;
        sheet->top = sheet->count;
    }
    offsets[sheet->count++] = sheet->length;
    if (item->rule == 0) {
        put(sheet, ROZHINAL_TAG_ENTRY);
        put_two(sheet, item->name_length);
    } else {
        put(sheet, ROZHINAL_TAG_FIGURE);
        put_two(sheet, 4 + 2 * item->parent_count + item->name_length);
        put(sheet, item->rule);
        put(sheet, item->keep);
        put(sheet, item->spread);
        put(sheet, item->parent_count);
        for (size_t k = 0; k < item->parent_count; k++) {
            size_t parent = item->parents[k];
            put_two(sheet, parent >= COMMON ? parent - COMMON : base + parent);
        }
    }
    for (size_t k = 0; k < item->name_length; k++)
        put(sheet, item->name[k]);
}

int is_entry(const struct sheet *sheet, size_t item)
{
    return sheet->bytes[offsets[item]] == ROZHINAL_TAG_ENTRY;
}

/* ---- Items ----------------------------------------------------------------------------------- */

static void draw_name(struct figure *item)
{
    item->name_length = 4 + draw(9);
    for (size_t k = 0; k < item->name_length; k++)
        item->name[k] = (uint8_t)('a' + draw(26));
}

static uint8_t draw_spread(void)
{
    return draw(2) ? ROZHINAL_RENEW : ROZHINAL_DEFER;
}

static uint8_t draw_rule(void)
{
    static const uint8_t rules[] = {
        ROZHINAL_SUM,        ROZHINAL_SUM,        ROZHINAL_SUM,      ROZHINAL_SUM,
        ROZHINAL_SUM,        ROZHINAL_SUM,        ROZHINAL_SUM,      ROZHINAL_DIFFERENCE,
        ROZHINAL_DIFFERENCE, ROZHINAL_DIFFERENCE, ROZHINAL_SMALLEST, ROZHINAL_LARGEST,
        ROZHINAL_SHARE,      ROZHINAL_CHOICE,     ROZHINAL_COUNT,    ROZHINAL_AT_LEAST,
    };
    return rules[draw(sizeof rules)];
}

static size_t draw_parent_count(uint8_t rule)
{
    switch (rule) {
    case ROZHINAL_DIFFERENCE:
    case ROZHINAL_SHARE:
    case ROZHINAL_AT_LEAST:
        return 2;
    case ROZHINAL_CHOICE:
        return 3;
    default:
        return 1 + draw(ROZHINAL_MAX_PARENTS);
    }
}

/* A parent of item i: a common entry, one of the last items, or any. None that is too large. */
static size_t draw_parent(const struct figure *group, size_t i)
{
    size_t parent = draw(2) ? i - 1 - draw((uint32_t)(i < RECENT ? i : RECENT)) : draw((uint32_t)i);
    if (draw(8) == 0 || group[parent].most > ROZHINAL_LIMIT / ROZHINAL_MAX_PARENTS)
        return COMMON + draw(COMMON_ENTRIES);
    return parent;
}

static void draw_figure(struct figure *group, size_t i)
{
    struct figure *item = &group[i];
    item->rule = draw_rule();
    item->keep = (uint8_t)draw(2);
    item->spread = draw_spread();
    item->parent_count = draw_parent_count(item->rule);
    item->level = 1;
    item->most = 0;
    for (size_t k = 0; k < item->parent_count; k++) {
        size_t parent = item->rule == ROZHINAL_SHARE && k == 1 ? COMMON + RATE
                                                               : draw_parent(group, i);
        const struct figure *from = &group[parent % COMMON];
        item->parents[k] = parent;
        item->most += from->most;
        if (item->level <= from->level)
            item->level = from->level + 1;
    }
    draw_name(item);
}

static void draw_item(struct figure *group, size_t i)
{
    if (i >= COMMON_ENTRIES && draw(4) != 0) {
        draw_figure(group, i);
        return;
    }
    group[i].rule = 0;
    group[i].level = 0;
    group[i].most = MOST_POSTED;
    draw_name(&group[i]);
}

/* ---- Sheets ---------------------------------------------------------------------------------- */

void make_example(struct sheet *sheet)
{
    static const struct figure items[] = {
        { .name_length = 1, .name = "A" },
        { .name_length = 1, .name = "L" },
        { .name_length = 1, .name = "S" },
        { ROZHINAL_SUM, 1, ROZHINAL_DEFER, 2, { 0, 2 }, 1, "T", 1, 0 },
        { ROZHINAL_DIFFERENCE, 0, ROZHINAL_DEFER, 2, { 3, 1 }, 1, "B", 2, 0 },
    };
    enum { ITEMS = sizeof items / sizeof *items };
    begin_sheet(sheet, ITEMS);
    for (size_t i = 0; i < ITEMS; i++)
        put_item(sheet, &items[i], 0);
    end_sheet(sheet);
}

void make_ledger(struct sheet *sheet, size_t groups, int keeping)
{
    static struct figure group[GROUP_ITEMS];
    begin_sheet(sheet, groups * GROUP_ITEMS);
    for (size_t i = 0; i < GROUP_ITEMS; i++) {
        draw_item(group, i);
        if (!keeping)
            group[i].keep = 0;
    }
    for (size_t g = 0; g < groups; g++)
        for (size_t i = 0; i < GROUP_ITEMS; i++)
            put_item(sheet, &group[i], g * GROUP_ITEMS);
    end_sheet(sheet);
}

void make_chain(struct sheet *sheet)
{
    struct figure item = { .rule = 0 };
    begin_sheet(sheet, 1 + ROZHINAL_MAX_LEVEL);
    for (size_t i = 0; i <= ROZHINAL_MAX_LEVEL; i++) {
        item.level = i;
        if (i > 0) {
            item.rule = i % 2 ? ROZHINAL_SMALLEST : ROZHINAL_LARGEST;
            item.parent_count = ROZHINAL_MAX_PARENTS;
            for (size_t k = 0; k < ROZHINAL_MAX_PARENTS; k++)
                item.parents[k] = i - 1;
        }
        draw_name(&item);
        put_item(sheet, &item, 0);
    }
    end_sheet(sheet);
}

static void put_entries(struct sheet *sheet, size_t count)
{
    struct figure item = { .rule = 0 };
    for (size_t i = 0; i < count; i++) {
        draw_name(&item);
        put_item(sheet, &item, 0);
    }
}

void make_fan(struct sheet *sheet, size_t figures, int keeping)
{
    struct figure item = { .rule = ROZHINAL_SUM, .level = 1 };
    begin_sheet(sheet, COMMON_ENTRIES + figures);
    put_entries(sheet, COMMON_ENTRIES);
    for (size_t i = 0; i < figures; i++) {
        item.keep = (uint8_t)draw(2);
        if (!keeping)
            item.keep = 0;
        item.spread = draw_spread();
        item.parent_count = 1 + draw(4);
        for (size_t k = 1; k < item.parent_count; k++)
            item.parents[k] = draw(COMMON_ENTRIES);
        draw_name(&item);
        put_item(sheet, &item, 0);
    }
    end_sheet(sheet);
}

void make_shares(struct sheet *sheet, size_t figures)
{
    struct figure item = { .rule = ROZHINAL_SHARE, .level = 1, .parent_count = 2 };
    begin_sheet(sheet, RATES + SHARED + figures);
    put_entries(sheet, RATES + SHARED);
    for (size_t i = 0; i < figures; i++) {
        item.spread = draw_spread();
        item.parents[0] = RATES + draw(SHARED);
        item.parents[1] = draw(RATES);
        draw_name(&item);
        put_item(sheet, &item, 0);
    }
    end_sheet(sheet);
}

static void put_guarded(struct sheet *sheet, uint8_t rule, size_t a, size_t b, size_t c)
{
    struct figure item = {
        .rule = rule,
        .level = rule == ROZHINAL_CHOICE ? 2 : 1,
        .spread = draw_spread(),
        .parent_count = rule == ROZHINAL_CHOICE ? 3 : 2,
        .parents = { a, b, c },
    };
    draw_name(&item);
    put_item(sheet, &item, 0);
}

void make_guarded_shares(struct sheet *sheet, size_t guards)
{
    struct figure sum = { .rule = ROZHINAL_SUM, .level = 3 };
    size_t sums = (guards + ROZHINAL_MAX_PARENTS - 1) / ROZHINAL_MAX_PARENTS;
    begin_sheet(sheet, GUARDS_AT + GUARD_ITEMS * guards + sums);
    put_entries(sheet, GUARDS_AT);
    for (size_t g = 0; g < guards; g++) {
        size_t share = sheet->count, test = share + 1, rate = g % RATES;
        put_guarded(sheet, ROZHINAL_SHARE, RATES + draw(SHARED), rate, 0);
        put_guarded(sheet, ROZHINAL_AT_LEAST, BOUND, rate, 0);
        put_guarded(sheet, ROZHINAL_CHOICE, test, share, RATES + draw(SHARED));
    }
    for (size_t g = 0; g < guards; g += sum.parent_count) {
        sum.spread = draw_spread();
        sum.parent_count = guards - g < ROZHINAL_MAX_PARENTS ? guards - g : ROZHINAL_MAX_PARENTS;
        for (size_t k = 0; k < sum.parent_count; k++)
            sum.parents[k] = GUARDS_AT + GUARD_ITEMS * (g + k) + GUARD_ITEMS - 1;
        draw_name(&sum);
        put_item(sheet, &sum, 0);
    }
    end_sheet(sheet);
}
