/*
 * A sheet as a table for spreadsheets (RFC 4180): an item a line.
 *
 * A spreadsheet takes a cell that begins with = + - or @ for a formula. Such a cell gets a ' before
 * it, and so does one that begins with '. Take one ' off, and what was there is left.
 */
#include "lister.h"

#include <stdio.h>
#include <string.h>

/* A cell, and what ends it. */
static void put_cell(const char *text, const char *end)
{
    bool quoted = strpbrk(text, ",\"") != NULL;
    if (quoted)
        putchar('"');
    if (text[0] != '\0' && strchr("=+-@'", text[0]) != NULL)
        putchar('\'');
    for (; *text != '\0'; text++) {
        if (*text == '"')
            putchar('"');
        putchar(*text);
    }
    if (quoted)
        putchar('"');
    fputs(end, stdout);
}

/* The parents in two cells, their numbers and their names, in each with blanks between them. */
static void put_parents(const struct listed *sheet, const rozhelp_item *item)
{
    char names[ROZHINAL_MAX_PARENTS * (ROZHINAL_MAX_NAME + 1) + 1] = "";
    for (size_t k = 0; k < item->parent_count; k++) {
        const char *blank = k > 0 ? " " : "";
        printf("%s%zu", blank, item->parents[k]);
        strcat(names, blank);
        strcat(names, sheet->items[item->parents[k]].name);
    }
    putchar(',');
    put_cell(names, "\r\n");
}

int write_csv(const struct listed *sheet)
{
    fputs("item,name,sort,level,rule,keep,spread,parents,parent names\r\n", stdout);
    for (size_t i = 0; i < sheet->count; i++) {
        const rozhelp_item *item = &sheet->items[i];
        printf("%zu,", i);
        put_cell(item->name, ",");
        printf("%s,%zu,", item->figure ? "figure" : "entry", sheet->levels[i]);
        put_cell(item->figure ? rozhelp_rule_word(item->rule) : "", ",");
        put_cell(item->figure ? keep_word(item) : "", ",");
        put_cell(item->figure ? rozhelp_spread_word(item->spread) : "", ",");
        put_parents(sheet, item);
    }
    return 0;
}
