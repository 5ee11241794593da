/*
 * A sheet as a graph for Graphviz, drawn from left to right: a column of entries, then the figures.
 * Items are framed by the second part of names such as land.cod.anna and tac.cod: here cod.
 */
#include "lister.h"

#include <stdio.h>
#include <string.h>

/* A part of a name. */
struct part {
    const char *text;
    size_t length;
};

/* The part after the first dot, up to the next; of length 0 if there is none. */
static struct part group_of(const rozhelp_item *item)
{
    const char *dot = strchr(item->name, '.');
    const char *text = dot == NULL ? "" : dot + 1;
    return (struct part){ text, strcspn(text, ".") };
}

static bool is_same_group(const rozhelp_item *first, const rozhelp_item *second)
{
    struct part a = group_of(first), b = group_of(second);
    return a.length == b.length && memcmp(a.text, b.text, a.length) == 0;
}

/* Within quotes Graphviz takes \ for the front of an escape, & for that of a character's name. */
static void put_label(struct part part)
{
    fputs("label=\"", stdout);
    for (size_t k = 0; k < part.length; k++) {
        char byte = part.text[k];
        if (byte == '"' || byte == '\\')
            putchar('\\');
        putchar(byte);
        if (byte == '&')
            fputs("amp;", stdout);
    }
}

static void write_node(const rozhelp_item *item)
{
    printf("  %zu [", item->number);
    put_label((struct part){ item->name, strlen(item->name) });
    if (item->figure)
        printf("\\n%s\"];\n", rozhelp_rule_word(item->rule));
    else
        puts("\" style=filled fillcolor=\"#f2d16b\"];");
}

/* The entries stand in one column, whatever leans on them. */
static void write_column(const struct listed *sheet)
{
    fputs("  { rank=same;", stdout);
    for (size_t i = 0; i < sheet->count; i++)
        if (!sheet->items[i].figure)
            printf(" %zu;", i);
    puts(" }");
}

/* The frame of an item's group, if the item is the first of it. */
static void write_frame(const struct listed *sheet, const rozhelp_item *item)
{
    if (group_of(item).length == 0)
        return;
    for (size_t i = 0; i < item->number; i++)
        if (is_same_group(&sheet->items[i], item))
            return;
    printf("  subgraph cluster_%zu { ", item->number);
    put_label(group_of(item));
    fputs("\";", stdout);
    for (size_t i = item->number; i < sheet->count; i++)
        if (is_same_group(&sheet->items[i], item))
            printf(" %zu;", i);
    puts(" }");
}

/* Whether the rule may give something else if its parents change places. */
static bool is_ordered(unsigned rule)
{
    return rule == ROZHINAL_DIFFERENCE || rule == ROZHINAL_SHARE || rule == ROZHINAL_CHOICE
           || rule == ROZHINAL_AT_LEAST;
}

/* From each parent, with its place where that matters. Between frames an edge is long and grey. */
static void write_edges(const struct listed *sheet, const rozhelp_item *item)
{
    for (size_t k = 0; k < item->parent_count; k++) {
        printf("  %zu -> %zu", item->parents[k], item->number);
        if (is_ordered(item->rule))
            printf(" [label=\"%zu\"]", k + 1);
        bool within = is_same_group(&sheet->items[item->parents[k]], item);
        puts(within ? ";" : " [minlen=2 color=\"#909090\"];");
    }
}

int write_dot(const struct listed *sheet)
{
    puts("digraph sheet {\n"
         "  graph [rankdir=LR newrank=true nodesep=0.06 ranksep=0.35 color=\"#b0b0b0\""
         " fontname=\"Helvetica\"];\n"
         "  node [shape=box style=\"rounded,filled\" fillcolor=\"#eef4fd\" height=0.2"
         " margin=\"0.08,0.02\" fontname=\"Helvetica\" fontsize=10];\n"
         "  edge [arrowsize=0.5 color=\"#404040\" fontname=\"Helvetica\" fontsize=8];");
    for (size_t i = 0; i < sheet->count; i++)
        write_node(&sheet->items[i]);
    write_column(sheet);
    for (size_t i = 0; i < sheet->count; i++)
        write_frame(sheet, &sheet->items[i]);
    for (size_t i = 0; i < sheet->count; i++)
        write_edges(sheet, &sheet->items[i]);
    puts("}");
    return 0;
}
