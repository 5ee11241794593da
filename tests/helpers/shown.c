/* Each helper on the example and on what is wrong with it, for a look at what it gives. */
#include "rozhinal_helpers.h"

#include <inttypes.h>
#include <stdio.h>
#include <string.h>

static const uint8_t example[] = {
    1, 4, 0, 1, 0, 5, 0,                  /* edition 1, 5 items */
    2, 1, 0, 'A',                         /* item 0, at 7 */
    2, 1, 0, 'L',                         /* item 1, at 11 */
    2, 1, 0, 'S',                         /* item 2, at 15 */
    3, 9, 0, 1, 1, 0, 2, 0, 0, 2, 0, 'T', /* item 3, at 19 */
    3, 9, 0, 2, 0, 0, 2, 3, 0, 1, 0, 'B', /* item 4, at 31 */
    4, 0, 0,                              /* at 43 */
};

static const uint8_t places[] = {
    7, 0, 0, 0, 11, 0, 0, 0, 15, 0, 0, 0, 19, 0, 0, 0, 31, 0, 0, 0,
};

/* An entry, and its sum with 17 parents: the length of the field is right, the count too high. */
static const uint8_t crowded[] = {
    1, 4, 0, 1, 0, 2, 0, 2, 1, 0, 'A', 3, 39, 0, 1, 1, 0, 17, [11 + 41] = 'B', 4, 0, 0,
};

/* The example with bytes of it changed. */
static uint8_t changed[sizeof example];

static uint8_t *change(size_t at, uint8_t byte)
{
    memcpy(changed, example, sizeof example);
    changed[at] = byte;
    return changed;
}

/* ---- Words and values ---- */

static void show_words(void)
{
    for (unsigned rule = 0; rule < 10; rule++)
        printf("rule %u: %s\n", rule, rozhelp_rule_word(rule));
    for (unsigned spread = 0; spread < 4; spread++)
        printf("spread %u: %s\n", spread, rozhelp_spread_word(spread));
    printf("no such: %s %s\n", rozhelp_rule_word(256), rozhelp_spread_word(256));
    for (uint64_t number = 0; number < 21; number++)
        printf("refusal %" PRIu64 ": %s\n", number, rozhelp_refusal_text(number));
    printf("refusal 2^64 - 1: %s\n", rozhelp_refusal_text(UINT64_MAX));
}

static void show_values(void)
{
    static const uint8_t bytes[][8] = {
        { 0 }, { 1 }, { 0xE8, 3 }, { 255, 255, 255, 255, 255, 255, 255, 255 },
        { 0, 0, 0, 0, 0, 0, 0, 0x80 }, { 255, 255, 255, 255, 255, 255, 255, 0x7F },
    };
    for (size_t k = 0; k < sizeof bytes / sizeof *bytes; k++)
        printf("number: %" PRId64 "\n", rozhelp_number(bytes[k]));
    static const int64_t numbers[] = {
        0, 7, -ROZHINAL_LIMIT, ROZHINAL_LIMIT, ROZHINAL_LIMIT + 1, INT64_MIN,
    };
    char text[ROZHELP_VALUE_BYTES];
    for (size_t k = 0; k < sizeof numbers / sizeof *numbers; k++)
        for (uint64_t kind = 0; kind < 5; kind++)
            printf("%s%c", rozhelp_value_text(kind, numbers[k], text), kind < 4 ? ' ' : '\n');
}

/* ---- Items ---- */

static void show_item(const rozhelp_item *item)
{
    printf("  %zu at %zu: %s %s", item->number, item->offset, item->figure ? "figure" : "entry",
           item->name);
    if (item->figure)
        printf(" %u %u %u", item->rule, item->keep, item->spread);
    for (size_t k = 0; k < item->parent_count; k++)
        printf(" %zu", item->parents[k]);
    putchar('\n');
}

static void show_walk(const char *what, const uint8_t *sheet, size_t sheet_len)
{
    printf("walk, %s:\n", what);
    rozhelp_walk walk = rozhelp_walk_items(sheet, sheet_len);
    rozhelp_item item;
    while (rozhelp_next(&walk, &item))
        show_item(&item);
}

static void show_walks(void)
{
    show_walk("the example", example, sizeof example);
    show_walk("nothing", NULL, 0);
    show_walk("no more than the head", example, 7);
    show_walk("cut in item 2", example, 17);
    show_walk("another first tag", change(0, 2), sizeof changed);
    show_walk("another length of the head", change(1, 5), sizeof changed);
    show_walk("edition 0", change(3, 0), sizeof changed);
    show_walk("edition 2", change(3, 2), sizeof changed);
    show_walk("edition 3", change(3, 3), sizeof changed);
    show_walk("3 items stated", change(5, 3), sizeof changed);
    show_walk("6 items stated", change(5, 6), sizeof changed);
    show_walk("1,029 items stated in edition 1", change(6, 4), sizeof changed);
    show_walk("4,101 items stated in edition 2", (change(6, 16)[3] = 2, changed), sizeof changed);
    show_walk("another tag of item 1", change(11, 4), sizeof changed);
    show_walk("a blank for a name", change(14, ' '), sizeof changed);
    show_walk("17 parents", change(25, 17), sizeof changed);
    show_walk("17 parents, all of them there", crowded, sizeof crowded);
    show_walk("no parents, and so a longer name", change(25, 0), sizeof changed);
    show_walk("a parent that is the item itself", change(26, 3), sizeof changed);
    show_walk("bytes of rule, keep and spread that are none",
              (change(22, 99)[23] = 98, changed[24] = 97, changed), sizeof changed);
}

static void show_item_at(const char *what, const uint8_t *idx, size_t idx_len, size_t number)
{
    rozhelp_item item;
    bool found = rozhelp_item_at(example, sizeof example, idx, idx_len, number, &item);
    printf("item %zu, %s:%s\n", number, what, found ? "" : " none");
    if (found)
        show_item(&item);
}

static void show_items_at(void)
{
    for (size_t i = 0; i < 6; i++)
        show_item_at("by the index", places, sizeof places, i);
    show_item_at("by an index with a byte too few", places, sizeof places - 1, 4);
    show_item_at("by no index", NULL, 0, 0);
    uint8_t longer[sizeof places + 4] = { 0 };
    memcpy(longer, places, sizeof places);
    longer[sizeof places] = 7;
    show_item_at("by an index of six", longer, sizeof longer, 5);
    show_item_at("by the index", places, sizeof places, SIZE_MAX);
    show_item_at("by the offset of the head", (const uint8_t[]){ 0, 0, 0, 0 }, 4, 0);
    show_item_at("by the offset of the end", (const uint8_t[]){ 43, 0, 0, 0 }, 4, 0);
    show_item_at("by the sheet's length", (const uint8_t[]){ 46, 0, 0, 0 }, 4, 0);
    show_item_at("by the highest offset", (const uint8_t[]){ 255, 255, 255, 255 }, 4, 0);
    show_item_at("by item 3's offset", (const uint8_t[]){ 19, 0, 0, 0 }, 4, 0);
    show_item_at("by item 1's offset", (const uint8_t[]){ 11, 0, 0, 0 }, 4, 0);
}

static void show_find(const uint8_t *sheet, size_t sheet_len, const char *name)
{
    size_t first, found = rozhelp_find(sheet, sheet_len, name, &first);
    printf("find %s: %zu", name == NULL ? "null" : name, found);
    printf(first == ROZHELP_NO_ITEM ? "\n" : ", the first %zu\n", first);
}

static void show_finds(void)
{
    show_find(example, sizeof example, "A");
    show_find(example, sizeof example, "B");
    show_find(example, sizeof example, "a");
    show_find(example, sizeof example, "");
    show_find(example, sizeof example, NULL);
    show_find(example, sizeof example, "ABCDEFGHIJKLMNOPQRSTUVWXYZ");
    show_find(change(18, 'T'), sizeof example, "T");
    show_find(NULL, 0, "A");
}

/* ---- Answers in words ---- */

static void explain(const char *what, const uint8_t *sheet, size_t sheet_len)
{
    char text[ROZHELP_TEXT_BYTES];
    uint8_t idx[ROZHINAL_INDEX_BYTES(6)], table[ROZHINAL_TABLE_BYTES(6)];
    rozhinal_answer answer = rozhinal_open_bare(sheet, sheet_len, idx, ROZHINAL_INDEX_BYTES(5),
                                                table, ROZHINAL_TABLE_BYTES(5));
    size_t length = rozhelp_explain(text, sizeof text, sheet, sheet_len, answer);
    printf("%s: %zu bytes\n%s", what, length, text);
}

static void explain_openings(void)
{
    explain("the example", example, sizeof example);
    explain("nothing", NULL, 0);
    explain("cut in the head", example, 6);
    explain("cut before item 1", example, 11);
    explain("cut in the end", example, 44);
    explain("another first tag", change(0, 2), sizeof changed);
    explain("another last tag", change(43, 2), sizeof changed);
    explain("4 items stated", change(5, 4), sizeof changed);
    explain("6 items stated", change(5, 6), sizeof changed);
    explain("a blank for a name", change(14, ' '), sizeof changed);
    explain("a length beyond the sheet", change(20, 200), sizeof changed);
    explain("edition 3", change(3, 3), sizeof changed);
    explain("no items", change(5, 0), sizeof changed);
    explain("1,029 items in edition 1", change(6, 4), sizeof changed);
    explain("rule 9", change(22, 9), sizeof changed);
    explain("spread 2 in edition 1", change(24, 2), sizeof changed);
    explain("spread 2 in edition 2", (change(36, 2)[3] = 2, changed), sizeof changed);
    explain("rule 9 and spread 2 in edition 1", (change(22, 9)[24] = 2, changed), sizeof changed);
    explain("parent 3 of item 3", change(26, 3), sizeof changed);
    static const uint8_t all_shown[24] = { 1, 21, 0 }, one_more[25] = { 1, 22, 0 };
    explain("a field of 24 bytes", all_shown, sizeof all_shown);
    explain("a field of 25 bytes", one_more, sizeof one_more);
}

static void explain_answer(uint64_t number, uint64_t offset)
{
    char text[ROZHELP_TEXT_BYTES];
    rozhinal_answer answer = { number, offset };
    rozhelp_explain(text, sizeof text, example, sizeof example, answer);
    printf("%" PRIu64 " at %" PRIu64 ": %s", number, offset, text);
}

static void explain_others(void)
{
    for (uint64_t number = 7; number < 21; number++)
        explain_answer(number, number == 7 ? 31 : 0);
    explain_answer(UINT64_MAX, UINT64_MAX);
    explain_answer(1, UINT64_MAX);
    explain_answer(2, 47);
    explain_answer(2, 46);
    explain_answer(3, 45);
    for (size_t room = 0; room < 20; room += 1 + room / 3) {
        char text[20] = "...................";
        rozhinal_answer answer = { ROZHINAL_REFUSED_ITEM, 0 };
        char *lent = room > 0 ? text : NULL;
        size_t length = rozhelp_explain(lent, room, example, sizeof example, answer);
        printf("room for %zu of %zu: \"%s\"\n", room, length, text);
    }
}

/* ---- Writing ---- */

static rozhelp_writer writer;
static uint8_t sheet[ROZHINAL_MAX_SHEET_BYTES(5)];

static void show_fault(const char *what, size_t item)
{
    uint64_t fault = writer.fault;
    size_t length = rozhelp_end(&writer);
    printf("write %s: ", what);
    printf(item == ROZHELP_NO_ITEM ? "no item" : "item %zu", item);
    printf(", fault %" PRIu64 "; end: %zu, fault %" PRIu64 "\n", fault, length, writer.fault);
}

/* A sheet with the entries A and L, to go on with. */
static rozhelp_writer *begun(void)
{
    rozhelp_begin(&writer, sheet, sizeof sheet);
    rozhelp_entry(&writer, "A");
    rozhelp_entry(&writer, "L");
    return &writer;
}

static size_t figure(unsigned rule, unsigned spread, const size_t *parents, size_t count)
{
    return rozhelp_figure(begun(), "F", rule, true, spread, parents, count);
}

static void write_figures(void)
{
    static const size_t good[ROZHINAL_MAX_PARENTS + 1] = { 0, 1 }, itself[] = { 0, 2 };
    static const size_t cut[] = { 65536, 65537 }, last[] = { SIZE_MAX, 0 };
    show_fault("rule 0", figure(0, 0, good, 2));
    show_fault("rule 9", figure(9, 0, good, 2));
    show_fault("rule 257", figure(257, 0, good, 2));
    show_fault("a retired spread", figure(ROZHINAL_SUM, ROZHINAL_FORGET, good, 2));
    show_fault("spread 256", figure(ROZHINAL_SUM, 256, good, 2));
    show_fault("no parents", figure(ROZHINAL_SUM, 0, NULL, 0));
    show_fault("16 parents", figure(ROZHINAL_SUM, 0, good, 16));
    show_fault("17 parents", figure(ROZHINAL_SUM, 0, good, 17));
    show_fault("257 parents", figure(ROZHINAL_SUM, 0, good, 257));
    show_fault("a difference of 3", figure(ROZHINAL_DIFFERENCE, 0, good, 3));
    show_fault("a choice of 2", figure(ROZHINAL_CHOICE, 0, good, 2));
    show_fault("null for 2 parents", figure(ROZHINAL_SUM, 0, NULL, 2));
    show_fault("itself as a parent", figure(ROZHINAL_SUM, 0, itself, 2));
    show_fault("parents above 65,535", figure(ROZHINAL_SUM, 0, cut, 2));
    show_fault("the highest parent", figure(ROZHINAL_SUM, 0, last, 2));
}

static void write_entries(void)
{
    show_fault("an entry", rozhelp_entry(begun(), "S"));
    show_fault("an entry, null", rozhelp_entry(begun(), NULL));
    show_fault("a figure, null", rozhelp_figure(begun(), NULL, ROZHINAL_SUM, true, 0, NULL, 0));
    show_fault("an empty name", rozhelp_entry(begun(), ""));
    show_fault("16 bytes of name", rozhelp_entry(begun(), "ABCDEFGHIJKLMNOP"));
    show_fault("17 bytes of name", rozhelp_entry(begun(), "ABCDEFGHIJKLMNOPQ"));
    show_fault("a blank in a name", rozhelp_entry(begun(), "A S"));
    show_fault("a byte above 126 in a name", rozhelp_entry(begun(), "\xC3\xA6"));
    rozhelp_entry(begun(), "");
    show_fault("after a fault", rozhelp_entry(&writer, "S"));
    rozhelp_end(begun());
    show_fault("after the end", rozhelp_entry(&writer, "S"));
    rozhelp_begin(&writer, sheet, sizeof sheet);
    show_fault("nothing at all", ROZHELP_NO_ITEM);
    rozhelp_begin(&writer, NULL, 0);
    show_fault("into no room", rozhelp_entry(&writer, "A"));
    rozhelp_begin(&writer, sheet, 11);
    show_fault("with no room for the end", rozhelp_entry(&writer, "A"));
}

/* The example itself, byte for byte; ended twice. */
static void write_example(void)
{
    static const size_t sum[] = { 0, 2 }, difference[] = { 3, 1 };
    rozhelp_entry(begun(), "S");
    rozhelp_figure(&writer, "T", ROZHINAL_SUM, true, ROZHINAL_DEFER, sum, 2);
    rozhelp_figure(&writer, "B", ROZHINAL_DIFFERENCE, false, ROZHINAL_DEFER, difference, 2);
    size_t length = rozhelp_end(&writer);
    printf("write the example: %zu bytes, %s, then %zu\n", length,
           length == sizeof example && memcmp(sheet, example, length) == 0 ? "the same" : "others",
           rozhelp_end(&writer));
}

int main(void)
{
    show_words();
    show_values();
    show_walks();
    show_items_at();
    show_finds();
    explain_openings();
    explain_others();
    write_entries();
    write_figures();
    write_example();
    return 0;
}
