/*
 * An office at a terminal.
 *
 *     office [-f] SHEET LEDGER
 *     office --help
 *
 * Opens the sheet, bare or with -f full, and keeps index and table in the file LEDGER, which a
 * later run goes on from. Commands come from standard input, one a line; `help` lists them. A
 * command is answered once its change is in the file; a swap changes both entries by one save.
 * While `work` catches up, each step is in the file before its count is shown, and Ctrl-C stops it
 * between two steps; the office takes the next command. What commands show is on standard output;
 * what is said at the start, and warnings, are on standard error.
 *
 * If LEDGER is a link, the ledger is the file that it leads to. Beside that file stand
 *
 *     LEDGER.lock   by which one office alone has it
 *     LEDGER.old    the state before the last save
 *     LEDGER.log    the accepted postings with their time, which is only added to
 *     LEDGER.new and LEDGER.old-new   while a save is made; what a crash left counts for nothing
 *
 * Where file, folder or lock cannot be written the ledger is open for reading only, without a lock:
 * a command that would change it is not done. A file with several names (hard links) is refused.
 *
 * A ledger from before version 4.0.0 may hold choices, and what leans on them, that are OUT for the
 * branch that was not taken: its figures are worked out anew, the same ones stay stored, and the
 * ledger is written in its new form. No entry changes.
 *
 * A ledger from before version 3.0.0 has records without an owed byte: the sheet is opened anew,
 * the entries of the ledger are posted again, lowest first, and the ledger is written in its new
 * form.
 *
 * Amounts are grams. A ledger from before version 2.0.0 holds kilograms: it is not gone on with,
 * and no byte of it changes. Its entries are shown, to be posted to a new ledger in grams. The
 * office cannot do this by itself, since it does not know which entries are weights.
 *
 * Exit status: 0 after quit or the end of the input. 1 if the sheet or the ledger is refused, the
 * ledger is an older one, a file cannot be used, the input ends within a line, or a command was
 * refused or not saved that did not come from a terminal. 2 for wrong usage.
 */
#include "../file.h"
#include "office.h"

#include <errno.h>
#include <fcntl.h>
#include <inttypes.h>
#include <stdio.h>
#include <stdlib.h>
#include <string.h>
#include <unistd.h>

/* Opens the sheet anew in index and table. */
static bool open_sheet(const struct ledger *ledger, bool full)
{
    rozhinal_answer answer =
        full ? rozhinal_open_full(LENT(ledger)) : rozhinal_open_bare(LENT(ledger));
    if (answer.number == ROZHINAL_ACCEPTED)
        return true;
    char text[ROZHELP_TEXT_BYTES];
    rozhelp_explain(text, sizeof text, ledger->sheet, ledger->sheet_len, answer);
    fprintf(stderr, "office: the sheet is %s", text);
    return false;
}

/* What was posted to an older ledger, and what to do with it. */
static void show_older(const struct office *office)
{
    const uint8_t *table = office->ledger.table;
    puts("item  name              posted, weights in kg");
    for (size_t i = 0; i < office->count; i++) {
        if (record_of(table, i)[0] == ROZHINAL_NUMBER && !office->items[i].figure)
            show_value(office, table, i);
    }
    fflush(stdout);
    fprintf(stderr,
            "office: %s is from before version 2.0.0: its weights are kilograms, and its\n"
            "balances are not sure. It is left as it is. Begin a new ledger under another name,\n"
            "and post again what was posted: weights times 1,000, since they are grams now;\n"
            "shares and switches as they are.\n",
            office->ledger.path);
}

/* Whether the state before the last save stands beside the ledger. */
static bool has_old(const struct ledger *ledger)
{
    char *path = ledger_beside(ledger, LEDGER_OLD);
    bool found = path != NULL && access(path, F_OK) == 0;
    free(path);
    return found;
}

/* A ledger that is gone is not begun anew over what is left of it; false. */
static bool refuse_anew(const struct ledger *ledger)
{
    fprintf(stderr,
            "office: %s is not there, but %s.old is, its state before the last save. Copy that to\n"
            "%s to go on from it, or move it away to begin anew.\n",
            ledger->path, ledger->real, ledger->path);
    return false;
}

static void show_damage(const struct ledger *ledger, const struct ledger_fault *fault)
{
    fprintf(stderr, "office: %s is damaged", ledger->path);
    if (fault->item != LEDGER_NO_ITEM)
        fprintf(stderr, ": the record of item %zu breaks its form or range", fault->item);
    else if (fault->refusal != 0)
        fprintf(stderr, ", refused with %" PRIu64 ": %s", fault->refusal,
                rozhelp_refusal_text(fault->refusal));
    fputc('\n', stderr);
    if (has_old(ledger))
        fprintf(stderr, "To go back to its state before the last save, copy %s.old over it.\n",
                ledger->real);
}

/* Says why the ledger cannot be opened; false. */
static bool refuse_ledger(const struct ledger *ledger)
{
    fprintf(stderr, "office: %s: %s\n", ledger->path, ledger_why(ledger));
    return false;
}

/* Begins the ledger with the table as it stands, or says why it cannot. */
static bool begin_ledger(struct ledger *ledger, enum ledger_state state)
{
    if (ledger->read_only != NULL) {
        fprintf(stderr, "office: %s: %s, but %s\n", ledger->path,
                state == LEDGER_ABSENT ? "there is no such ledger yet, and one would begin"
                                       : "it is an older ledger, to be written in its new form",
                ledger->read_only);
        return false;
    }
    int saved = ledger_save(ledger);
    if (saved < 0)
        return refuse_ledger(ledger);
    if (saved > 0)
        warn_of(ledger);
    return true;
}

/* How many entries the ledger has, or stored figures. */
static size_t count_items(const struct office *office, bool figures)
{
    size_t found = 0;
    for (size_t i = 0; i < office->count; i++) {
        bool stored = record_of(office->ledger.table, i)[0] != ROZHINAL_UNK;
        found += stored && office->items[i].figure == figures;
    }
    return found;
}

/* What became of a ledger that has just been written for the first time in its form. */
static void show_begun(const struct office *office, enum ledger_state state, const char *opening)
{
    const char *path = office->ledger.path;
    if (state == LEDGER_STALE)
        fprintf(stderr, "%s was from before version 4.0.0: stored figures worked out anew: %zu\n",
                path, count_items(office, true));
    else if (state == LEDGER_FORMER)
        fprintf(stderr,
                "%s was from before version 3.0.0: opened %s anew, entries posted again: %zu\n",
                path, opening, count_items(office, false));
    else
        fprintf(stderr, "opened %s: %s begins\n", opening, path);
}

static void show_loaded(const struct ledger *ledger)
{
    if (ledger->read_only == NULL)
        fprintf(stderr, "going on with %s\n", ledger->path);
    else
        fprintf(stderr, "%s is open for reading only: %s\n", ledger->path, ledger->read_only);
}

/* Goes on from the ledger, or begins it with the table that the opening wrote. */
static bool open_ledger(struct office *office, bool full)
{
    struct ledger *ledger = &office->ledger;
    struct ledger_fault fault;
    enum ledger_state state = ledger_load(ledger, &fault);
    if (state == LEDGER_ABSENT && has_old(ledger))
        return refuse_anew(ledger);
    switch (state) {
    case LEDGER_LOADED:
        show_loaded(ledger);
        return true;
    case LEDGER_STALE:
    case LEDGER_FORMER:
    case LEDGER_ABSENT:
        if (!begin_ledger(ledger, state))
            return false;
        show_begun(office, state, full ? "full" : "bare");
        if (state == LEDGER_ABSENT)
            log_begun(office);
        return true;
    case LEDGER_OLDER:
        show_older(office);
        return false;
    case LEDGER_OTHER_SHEET:
        fprintf(stderr,
                "office: %s belongs to another sheet. Start with the sheet that it began with, or\n"
                "dump its entries there, and post them to a new ledger.\n",
                ledger->path);
        return false;
    case LEDGER_DAMAGED:
        show_damage(ledger, &fault);
        return false;
    case LEDGER_UNREADABLE:
        break;
    }
    return refuse_ledger(ledger);
}

/* Finds and takes the ledger. A sheet with the name of a file beside it would be written over. */
static bool take(struct ledger *ledger, const char *sheet_path)
{
    if (ledger_find(ledger) != 0)
        return refuse_ledger(ledger);
    if (ledger_is_beside(ledger, sheet_path)) {
        fprintf(stderr, "office: %s has the name of a file that stands beside %s; rename it\n",
                sheet_path, ledger->path);
        return false;
    }
    return ledger_take(ledger) == 0 || refuse_ledger(ledger);
}

/* Every item of the opened sheet. */
static void read_items(struct office *office)
{
    rozhelp_walk walk = rozhelp_walk_items(office->ledger.sheet, office->ledger.sheet_len);
    while (walk.number < office->count && rozhelp_next(&walk, &office->items[walk.number]))
        continue;
}

static bool reserve(struct office *office)
{
    struct ledger *ledger = &office->ledger;
    office->count = rozhinal_item_count(ledger->sheet, ledger->sheet_len);
    ledger->idx_len = ROZHINAL_INDEX_BYTES(office->count);
    ledger->table_len = ROZHINAL_TABLE_BYTES(office->count);
    ledger->idx = malloc(ledger->idx_len + 1);
    ledger->table = malloc(ledger->table_len + 1);
    office->saved = malloc(ledger->table_len + 1);
    office->items = calloc(office->count + 1, sizeof *office->items);
    if (ledger->idx != NULL && ledger->table != NULL && office->saved != NULL
        && office->items != NULL)
        return true;
    fputs("office: no memory\n", stderr);
    return false;
}

static int start(struct office *office, const char *sheet_path, bool full)
{
    struct ledger *ledger = &office->ledger;
    int status = 1;
    if (reserve(office) && open_sheet(ledger, full) && take(ledger, sheet_path)) {
        read_items(office);
        if (open_ledger(office, full)) {
            memcpy(office->saved, ledger->table, ledger->table_len);
            status = take_commands(office);
        }
    }
    ledger_free(ledger);
    free(ledger->idx);
    free(ledger->table);
    free(office->saved);
    free(office->items);
    return status;
}

static const char usage[] = "usage: office [-f] SHEET LEDGER\n";

static int show_usage(void)
{
    fputs(usage, stdout);
    puts("Keeps the ledger of a sheet; begins one if there is none, with -f with all figures stored.");
    puts("Commands come from standard input, one a line:");
    show_help(NULL);
    return fflush(stdout) == 0 ? 0 : 1;
}

/* Whether the standard streams are open; if one is not, a file would take its place. */
static bool has_streams(void)
{
    bool all = true;
    for (int file = STDIN_FILENO; file <= STDERR_FILENO; file++)
        all = all && fcntl(file, F_GETFD) != -1;
    if (!all)
        fputs("office: standard input, output or error is closed\n", stderr);
    return all;
}

int main(int argc, char **argv)
{
    if (!has_streams())
        return 1;
    if (argc == 2 && (strcmp(argv[1], "--help") == 0 || strcmp(argv[1], "-h") == 0))
        return show_usage();
    bool full = argc > 1 && strcmp(argv[1], "-f") == 0;
    if (argc != (full ? 4 : 3)) {
        fputs(usage, stderr);
        return 2;
    }
    const char *path = argv[argc - 2];
    struct office office = { .ledger = { .path = argv[argc - 1] } };
    uint8_t *sheet = read_file(path, SHEET_MOST, &office.ledger.sheet_len);
    if (sheet == NULL) {
        fprintf(stderr, "office: %s: %s\n", path,
                errno == EFBIG ? "longer than any sheet" : strerror(errno));
        return 1;
    }
    office.ledger.sheet = sheet;
    int status = start(&office, path, full);
    free(sheet);
    return status;
}
