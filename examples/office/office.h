/* An office at a terminal: what its parts share. */
#ifndef OFFICE_H
#define OFFICE_H

#include "ledger.h"
#include "rozhinal_helpers.h"

struct office {
    struct ledger ledger;
    size_t count;
    rozhelp_item *items; /* of the sheet */
    uint8_t *saved;      /* the table as it is in the file */
};

/* ---- Items on the screen (show.c) ---- */

/* The widest value is -ROZHINAL_LIMIT: a sign and 16 digits. */
enum { VALUE_COLUMNS = 17, MARK_AT = 1, NUMBER_AT = 2, OWED_AT = 10 };

/* The record of an item in a table. */
const uint8_t *record_of(const uint8_t *table, size_t i);

/* A value at the right end of so many columns; 0 for just its length. */
void print_value(int columns, uint64_t kind, int64_t number);

/* The name of an item, with its number before it where the name alone is not read as this item. */
void print_label(const struct office *office, size_t i);

/* What the item has, as an answer: A = 1000. */
void show_answer(const struct office *office, size_t i, uint64_t kind, int64_t number);

/* An item with all of its record, under the heads of these columns, or with its value alone. */
void show_heads(void);
void show_item(const struct office *office, size_t i);
void show_value(const struct office *office, const uint8_t *table, size_t i);
void show_items(const struct office *office);

/* ---- Words of a command (words.c) ---- */

/* A word as typed, with anything unprintable left out, and cut. */
void print_word(const char *word);

bool is_digits(const char *word);
bool is_by_number(const char *word); /* # and digits */

/*
 * Each reads a word; false if it is none of these, and it has said so. The number of an item may be
 * that of no item. Numbers may have a comma before each three digits, and null may be in capitals.
 * A count is from 1 to the most.
 */
bool find_item(const struct office *office, const char *word, uint64_t *item);
bool read_value(const char *word, uint64_t *kind, int64_t *number);
bool read_quantity(const char *word, int64_t *quantity);
bool read_count(const char *word, size_t most, size_t *count);

/* Says that a word names no item, and which one it may mean; false. */
bool no_item(const struct office *office, const char *word);

/* Whether the words are one letter apart, or two letters in the other order, in capitals or not. */
bool is_near(const char *typed, const char *word);

/* What is typed for an item: its name, or # and its number if the name would be read otherwise. */
enum { ITEM_WORD_BYTES = 24 };
const char *item_word(const struct office *office, size_t i, char word[ITEM_WORD_BYTES]);

/* What is typed to post the value that an entry's record has. */
const char *value_word(const uint8_t *record, char word[ROZHELP_VALUE_BYTES]);

/* ---- Saving (save.c) ---- */

/* Says that a save is done which the disk may not have yet. */
void warn_of(const struct ledger *ledger);

/*
 * Sees that the table is in the file, and gives what ledger_save gives. If it cannot be, the table
 * is again the one in the file.
 */
int put_in_file(struct office *office);

/* What there is to say of a save; true if the table is in the file. */
bool is_saved(const struct ledger *ledger, int state);
bool save(struct office *office);

/* As save, of a posting: one that changes nothing is done only if the file could be written. */
bool save_posting(struct office *office);

/* ---- Commands (calls.c, work.c): true if done, and each says what was done or why not ---- */

bool refuse(uint64_t number);
bool post(struct office *office, uint64_t item, const char *word);
bool swap(struct office *office, char **words);
bool ask(struct office *office, uint64_t item);
bool board(struct office *office, char **words, size_t count);
bool close_season(struct office *office);
bool keep(struct office *office, uint64_t item);
bool drop(struct office *office, uint64_t item);
bool step(struct office *office, uint64_t item);
bool list(const struct office *office, uint64_t item);
bool work(struct office *office);

/* ---- Reports (reports.c, why.c): commands that change neither table nor file ---- */

/*
 * A copy of the table in which every figure is worked out and stored, so that each record has the
 * right value. The caller frees it. Null if there is none, and it has said so.
 */
uint8_t *closed_copy(const struct office *office);

/* Every item with its value, or those whose name fits a pattern; null for no pattern. */
bool show(const struct office *office, const char *pattern);

/* Lines that post all entries again. */
bool dump(const struct office *office);

/* How the value of an item comes about, up the circuit to a depth; null for the usual one. */
enum { USUAL_DEPTH = 3 };
bool why(const struct office *office, uint64_t item, const char *depth);

/* ---- The log (journal.c) ---- */

/* A line for a posting that is saved. If it cannot be written, they say so. */
void log_post(const struct office *office, size_t item);
void log_swap(const struct office *office, size_t giver, size_t taker, int64_t quantity);

/* A line for a ledger that has begun, where the log of an earlier one stands. */
void log_begun(const struct office *office);

/* All lines, or the last so many; null for all. */
enum { LOG_LINES_MOST = 1000000 };
bool show_log(const struct office *office, const char *lines);

/* ---- Lines of commands (commands.c) ---- */

/* Shows all commands, for null, or one; false if there is none such. */
bool show_help(const char *word);

/* Takes commands until quit or the end of the input, and gives the exit status. */
int take_commands(struct office *office);

#endif
