/* Reports that change nothing: every item with its value, and the posts that make all entries. */
#include "office.h"

#include <fnmatch.h>
#include <stdio.h>
#include <stdlib.h>
#include <string.h>

uint8_t *closed_copy(const struct office *office)
{
    struct ledger copy = office->ledger;
    copy.table = malloc(copy.table_len);
    if (copy.table == NULL) {
        puts("not done: there is not enough memory");
        return NULL;
    }
    memcpy(copy.table, office->ledger.table, copy.table_len);
    rozhinal_answer answer = rozhinal_close(LENT(&copy));
    if (answer.number == ROZHINAL_ACCEPTED)
        return copy.table;
    refuse(answer.number);
    free(copy.table);
    return NULL;
}

/* ---- Show ---- */

/* A name fits itself too, where it has a letter that stands for others. */
static bool fits(const char *name, const char *pattern)
{
    return pattern == NULL || strcmp(name, pattern) == 0 || fnmatch(pattern, name, 0) == 0;
}

static void show_row(const struct office *office, const uint8_t *table, size_t i)
{
    const uint8_t *record = record_of(table, i);
    const rozhelp_item *item = &office->items[i];
    printf("%4zu  %-16s  %-6s  ", i, item->name, item->figure ? "figure" : "entry");
    print_value(VALUE_COLUMNS, record[0], rozhelp_number(record + NUMBER_AT));
    putchar('\n');
}

bool show(const struct office *office, const char *pattern)
{
    uint8_t *table = closed_copy(office);
    if (table == NULL)
        return false;
    size_t shown = 0;
    for (size_t i = 0; i < office->count; i++) {
        if (!fits(office->items[i].name, pattern))
            continue;
        if (shown++ == 0)
            printf("item  %-16s  %-6s  %*s\n", "name", "sort", VALUE_COLUMNS, "value");
        show_row(office, table, i);
    }
    free(table);
    if (shown > 0)
        return true;
    fputs("no name fits ", stdout);
    print_word(pattern);
    puts(": type part of a name with * before or after it, or show alone for all items");
    return false;
}

/* ---- Dump ---- */

bool dump(const struct office *office)
{
    for (size_t i = 0; i < office->count; i++) {
        char item[ITEM_WORD_BYTES], value[ROZHELP_VALUE_BYTES];
        if (office->items[i].figure)
            continue;
        const char *word = item_word(office, i, item);
        if (is_by_number(word))
            printf("# item %zu is named %s; on a changed sheet, check the number\n", i,
                   office->items[i].name);
        printf("post %s %s\n", word, value_word(record_of(office->ledger.table, i), value));
    }
    return true;
}
