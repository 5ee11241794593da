/* A sheet as a list for the screen: its edition, then an item a line. */
#include "lister.h"

#include <stdio.h>
#include <string.h>

/* The columns that spreads take: more for one that is retired, which has more words. */
static int spread_columns(const struct listed *sheet)
{
    size_t columns = strlen("spread");
    for (size_t i = 0; i < sheet->count; i++) {
        size_t length = strlen(rozhelp_spread_word(sheet->items[i].spread));
        if (sheet->items[i].figure && length > columns)
            columns = length;
    }
    return (int)columns;
}

static void list_item(const struct listed *sheet, const rozhelp_item *item, int columns)
{
    printf("%4zu  %-16s  %5zu", item->number, item->name, sheet->levels[item->number]);
    if (!item->figure) {
        puts("  entry");
        return;
    }
    printf("  %-10s  %-6s  %-*s ", rozhelp_rule_word(item->rule), keep_word(item), columns,
           rozhelp_spread_word(item->spread));
    for (size_t k = 0; k < item->parent_count; k++)
        printf(" %zu:%s", item->parents[k], sheet->items[item->parents[k]].name);
    putchar('\n');
}

int write_list(const struct listed *sheet)
{
    int columns = spread_columns(sheet);
    printf("edition %u, %zu item%s\n", sheet->edition, sheet->count, sheet->count == 1 ? "" : "s");
    printf("item  name              level  rule        keep    %-*s  parents\n", columns, "spread");
    for (size_t i = 0; i < sheet->count; i++)
        list_item(sheet, &sheet->items[i], columns);
    return 0;
}
