/* Shows a sheet in one of several forms; of a refused sheet what is wrong with it, and where. */
#include "../file.h"
#include "lister.h"

#include <errno.h>
#include <stdio.h>
#include <stdlib.h>
#include <string.h>

static const char usage[] = "usage: lister [--text | --dot | --csv] SHEET\n";

static const char help[] =
    "\n"
    "Shows a sheet: its edition, then an item a line. Other forms:\n"
    "\n"
    "  --text  text that the maker makes the same sheet from, but that the retired spread forget\n"
    "          is written as defer\n"
    "  --dot   a graph for Graphviz: lister --dot SHEET | dot -Tsvg >sheet.svg\n"
    "  --csv   a table for spreadsheets; a cell that begins with = + - @ or ' has a ' before it\n"
    "\n"
    "Of a refused sheet it shows what is wrong with it, and where; with an option it does so on\n"
    "standard error.\n"
    "\n"
    "Exit status: 0 shown, 1 refused, not read or with a name that text cannot say, 2 wrong\n"
    "usage.\n";

struct form {
    const char *option; /* null for the form without one */
    int (*write)(const struct listed *sheet);
};

static const struct form forms[] = {
    { NULL, write_list },
    { "--text", write_text },
    { "--dot", write_dot },
    { "--csv", write_csv },
};

const char *keep_word(const rozhelp_item *item)
{
    return item->keep ? "keep" : "nokeep";
}

int tell_no_memory(void)
{
    fputs("lister: no memory\n", stderr);
    return 1;
}

/* Whether the sheet opens; if not, what is wrong with it is shown. */
static bool opens(const uint8_t *sheet, size_t sheet_len, FILE *refusals)
{
    /* The stated count may be anything; the opening refuses what is not a sheet's. */
    size_t count = rozhinal_item_count(sheet, sheet_len);
    uint8_t *idx = malloc(ROZHINAL_INDEX_BYTES(count) + 1);
    uint8_t *table = malloc(ROZHINAL_TABLE_BYTES(count) + 1);
    bool accepted = false;
    if (idx == NULL || table == NULL) {
        tell_no_memory();
    } else {
        rozhinal_answer answer = rozhinal_open_bare(sheet, sheet_len,
                                                    idx, ROZHINAL_INDEX_BYTES(count),
                                                    table, ROZHINAL_TABLE_BYTES(count));
        accepted = answer.number == ROZHINAL_ACCEPTED;
        char text[ROZHELP_TEXT_BYTES];
        rozhelp_explain(text, sizeof text, sheet, sheet_len, answer);
        if (!accepted)
            fputs(text, refusals);
    }
    free(idx);
    free(table);
    return accepted;
}

/* Reads the items of a sheet that opens, and works out their levels. */
static void read_items(const uint8_t *sheet, size_t sheet_len, struct listed *listed)
{
    rozhelp_walk walk = rozhelp_walk_items(sheet, sheet_len);
    for (size_t i = 0; i < listed->count && rozhelp_next(&walk, &listed->items[i]); i++) {
        const rozhelp_item *item = &listed->items[i];
        for (size_t k = 0; k < item->parent_count; k++)
            if (listed->levels[item->parents[k]] >= listed->levels[i])
                listed->levels[i] = listed->levels[item->parents[k]] + 1;
    }
}

static int show_sheet(const uint8_t *sheet, size_t sheet_len, const struct form *form)
{
    if (!opens(sheet, sheet_len, form->option == NULL ? stdout : stderr))
        return 1;
    size_t count = rozhinal_item_count(sheet, sheet_len);
    struct listed listed = { .edition = rozhinal_edition(sheet, sheet_len), .count = count };
    listed.items = calloc(count, sizeof *listed.items);
    listed.levels = calloc(count, sizeof *listed.levels);
    int status;
    if (listed.items == NULL || listed.levels == NULL) {
        status = tell_no_memory();
    } else {
        read_items(sheet, sheet_len, &listed);
        status = form->write(&listed);
    }
    free(listed.items);
    free(listed.levels);
    return status;
}

static int show_file(const char *path, const struct form *form)
{
    size_t sheet_len = 0;
    uint8_t *sheet = read_file(path, SHEET_MOST, &sheet_len);
    if (sheet == NULL) {
        fprintf(stderr, "lister: %s: %s\n", path,
                errno == EFBIG ? "longer than any sheet" : strerror(errno));
        return 1;
    }
    int status = show_sheet(sheet, sheet_len, form);
    free(sheet);
    return status;
}

/* The form that the options ask for; null if they are wrong. */
static const struct form *form_of(int argc, char **argv)
{
    if (argc == 2)
        return argv[1][0] == '-' ? NULL : &forms[0];
    for (size_t i = 1; argc == 3 && i < sizeof forms / sizeof *forms; i++)
        if (strcmp(argv[1], forms[i].option) == 0)
            return &forms[i];
    return NULL;
}

static bool asks_for_help(int argc, char **argv)
{
    for (int i = 1; i < argc; i++)
        if (strcmp(argv[i], "--help") == 0 || strcmp(argv[i], "-h") == 0)
            return true;
    return false;
}

int main(int argc, char **argv)
{
    int status = 0;
    const struct form *form = form_of(argc, argv);
    if (asks_for_help(argc, argv)) {
        fputs(usage, stdout);
        fputs(help, stdout);
    } else if (form != NULL) {
        status = show_file(argv[argc - 1], form);
    } else {
        fputs(usage, stderr);
        return 2;
    }
    if (fflush(stdout) != 0 || ferror(stdout)) {
        fputs("lister: the output was not written\n", stderr);
        return 1;
    }
    return status;
}
