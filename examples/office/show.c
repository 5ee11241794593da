/* Items on the screen. */
#include "office.h"

#include <stdio.h>
#include <string.h>

const uint8_t *record_of(const uint8_t *table, size_t i)
{
    return table + ROZHINAL_TABLE_BYTES(i);
}

void print_value(int columns, uint64_t kind, int64_t number)
{
    char text[ROZHELP_VALUE_BYTES];
    printf("%*s", columns, rozhelp_value_text(kind, number, text));
}

void print_label(const struct office *office, size_t i)
{
    char text[ITEM_WORD_BYTES];
    const char *name = office->items[i].name, *word = item_word(office, i, text);
    if (strcmp(word, name) != 0)
        printf("%s ", word);
    fputs(name, stdout);
}

void show_answer(const struct office *office, size_t i, uint64_t kind, int64_t number)
{
    print_label(office, i);
    fputs(" = ", stdout);
    print_value(0, kind, number);
    puts(kind == ROZHINAL_NULL ? " (nothing recorded)" : "");
}

void show_heads(void)
{
    puts("item  name              state       mark     owed  value");
}

void show_item(const struct office *office, size_t i)
{
    static const char *const marks[] = { "-", "refresh", "notice" };
    const uint8_t *record = record_of(office->ledger.table, i);
    const rozhelp_item *item = &office->items[i];
    const char *state = !item->figure ? "entry"
                        : record[0] != ROZHINAL_UNK ? "stored" : "not stored";
    const char *mark = record[MARK_AT] <= ROZHINAL_MARK_NOTICE ? marks[record[MARK_AT]] : "?";
    const char *owed = record[OWED_AT] != 0 ? "owed" : "-";
    printf("%4zu  %-16s  %-10s  %-7s  %-4s  ", i, item->name, state, mark, owed);
    print_value(0, record[0], rozhelp_number(record + NUMBER_AT));
    putchar('\n');
}

void show_value(const struct office *office, const uint8_t *table, size_t i)
{
    const uint8_t *record = record_of(table, i);
    printf("%4zu  %-16s  ", i, office->items[i].name);
    print_value(VALUE_COLUMNS, record[0], rozhelp_number(record + NUMBER_AT));
    putchar('\n');
}

void show_items(const struct office *office)
{
    show_heads();
    for (size_t i = 0; i < office->count; i++)
        show_item(office, i);
}
