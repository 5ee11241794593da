/* A sheet as the text that the maker makes it from. */
#include "lister.h"

#include <stdio.h>
#include <stdlib.h>
#include <string.h>

static int by_name(const void *first, const void *second)
{
    const rozhelp_item *const *a = first, *const *b = second;
    return strcmp((*a)->name, (*b)->name);
}

/* Sets the flag of each item whose name another item has too; false if there is no memory. */
static bool find_shared(const struct listed *sheet, bool *shared)
{
    const rozhelp_item **sorted = malloc(sheet->count * sizeof *sorted);
    if (sorted == NULL)
        return false;
    for (size_t i = 0; i < sheet->count; i++)
        sorted[i] = &sheet->items[i];
    qsort(sorted, sheet->count, sizeof *sorted, by_name);
    for (size_t i = 1; i < sheet->count; i++)
        if (by_name(&sorted[i - 1], &sorted[i]) == 0)
            shared[sorted[i - 1]->number] = shared[sorted[i]->number] = true;
    free(sorted);
    return true;
}

/*
 * Whether the name means something else in text: # alone begins a comment, and # with digits is the
 * number of an item. Its own number an item may have for a name.
 */
static bool is_other_in_text(const rozhelp_item *item)
{
    const char *digits = item->name + 1;
    if (item->name[0] != '#' || digits[strspn(digits, "0123456789")] != '\0')
        return false;
    char own[24];
    snprintf(own, sizeof own, "#%zu", item->number);
    return strcmp(item->name, own) != 0;
}

/* Says in the text and on standard error why the maker does not take the name. */
static void tell_name(const rozhelp_item *item)
{
    const char *cause = item->name[1] == '\0' ? "begins a comment" : "is the number of an item";
    printf("# The name of item %zu %s: give it another.\n", item->number, cause);
    fprintf(stderr, "lister: the name of item %zu is %s, which in text %s; give it another\n",
            item->number, item->name, cause);
}

static void write_figure(const struct listed *sheet, const rozhelp_item *item, const bool *shared)
{
    bool retired = item->spread == ROZHINAL_FORGET;
    printf("figure %s %s %s %s =", item->name, rozhelp_rule_word(item->rule), keep_word(item),
           rozhelp_spread_word(retired ? ROZHINAL_DEFER : item->spread));
    for (size_t k = 0; k < item->parent_count; k++) {
        const rozhelp_item *parent = &sheet->items[item->parents[k]];
        if (shared[parent->number] || is_other_in_text(parent))
            printf(" #%zu", parent->number);
        else
            printf(" %s", parent->name);
    }
    puts(retired ? "  # forget, which is retired, is treated as defer" : "");
}

/* The items, a line each; gives how many have a name that the maker does not take. */
static size_t write_items(const struct listed *sheet, const bool *shared)
{
    size_t others = 0;
    for (size_t i = 0; i < sheet->count; i++) {
        const rozhelp_item *item = &sheet->items[i];
        if (is_other_in_text(item)) {
            tell_name(item);
            others++;
        }
        if (item->figure)
            write_figure(sheet, item, shared);
        else
            printf("entry %s\n", item->name);
    }
    return others;
}

static void tell_retired(const struct listed *sheet)
{
    size_t retired = 0;
    for (size_t i = 0; i < sheet->count; i++)
        retired += sheet->items[i].figure && sheet->items[i].spread == ROZHINAL_FORGET;
    if (retired > 0)
        fprintf(stderr, "lister: figures with the retired spread forget, written as defer: %zu\n",
                retired);
}

int write_text(const struct listed *sheet)
{
    bool *shared = calloc(sheet->count, sizeof *shared);
    if (shared == NULL || !find_shared(sheet, shared)) {
        free(shared);
        return tell_no_memory();
    }
    printf("edition %u\n", sheet->edition);
    size_t others = write_items(sheet, shared);
    tell_retired(sheet);
    free(shared);
    return others == 0 ? 0 : 1;
}
