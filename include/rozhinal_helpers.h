/*
 * Helpers beside the Rozhinal library: find an item by its name, walk over a sheet's items, put a
 * refusal or a value into words, write a sheet.
 *
 * THESE FUNCTIONS ARE NOT PROVED. What rozhinal.h promises is proved, and holds whether or not they
 * are used; what is said here is tested: tests/helpers has the tests, and a run on damaged sheets.
 *
 * They allocate nothing, keep no state, and may run in any thread. Any bytes may be lent as a sheet
 * or an index: of a damaged one there may be fewer items to see, and no byte outside of it is read.
 * A pointer may be null only where that is said, or with length 0.
 *
 * Link with librozhinal_helpers.a before librozhinal.a, or by `pkg-config rozhinal-helpers`.
 */
#ifndef ROZHINAL_HELPERS_H
#define ROZHINAL_HELPERS_H

#include "rozhinal.h"

#include <stdbool.h>

#ifdef __cplusplus
extern "C" {
#endif

/* No item has this number. */
#define ROZHELP_NO_ITEM SIZE_MAX

/* ---- Items ----------------------------------------------------------------------------------- */

/*
 * Whatever the sheet, the number is below ROZHINAL_MAX_ITEMS, the name is one that items may have,
 * and parents have lower numbers. Rule, keep and spread may be any byte if the sheet does not open.
 */
typedef struct {
    size_t number;                    /* 0 for the first item of the sheet */
    size_t offset;                    /* of its field in the sheet */
    char name[ROZHINAL_MAX_NAME + 1]; /* with a 0 byte after it */
    bool figure;                      /* else an entry, and what follows is 0 */
    unsigned rule, keep, spread;      /* an enum rozhinal_rule, 0 or 1, an enum rozhinal_spread */
    size_t parent_count;
    size_t parents[ROZHINAL_MAX_PARENTS];
} rozhelp_item;

/* A walk over the items of a sheet, lowest first. It needs no index. */
typedef struct {
    const uint8_t *sheet;
    size_t sheet_len;
    size_t number, offset; /* of the next item */
} rozhelp_walk;

rozhelp_walk rozhelp_walk_items(const uint8_t *sheet, size_t sheet_len);

/*
 * The next item of the walk. False, and *item as it was, at the end: after the stated items, at a
 * field that is no item, or at once if the head is none that opens. On a sheet that opens the walk
 * gives every item; a walk that gives every item does not say that the sheet opens.
 */
bool rozhelp_next(rozhelp_walk *walk, rozhelp_item *item);

/*
 * The item with this number, by the index that an opening of the sheet wrote. False, and *item as
 * it was, where there is none. By another index it may be bytes that look like an item.
 */
bool rozhelp_item_at(const uint8_t *sheet, size_t sheet_len, const uint8_t *idx, size_t idx_len,
                     size_t number, rozhelp_item *item);

/*
 * How many items of the walk have the name; none has a null one. The number of the first is put
 * into *first, ROZHELP_NO_ITEM if there is none; first may be null.
 */
size_t rozhelp_find(const uint8_t *sheet, size_t sheet_len, const char *name, size_t *first);

/* ---- Words ----------------------------------------------------------------------------------- */

/* The word for a rule or a spread, "?" where there is none. */
const char *rozhelp_rule_word(unsigned rule);
const char *rozhelp_spread_word(unsigned spread);

/* What a number of enum rozhinal_refusal means, in a few words; of any other that it is unknown. */
const char *rozhelp_refusal_text(uint64_t number);

/*
 * Puts an answer into words, in lines that each end with '\n': the refusal, and for a fault of the
 * sheet the place, the item and the bytes at the offset; for one of edition or item count what they
 * are, and the limits; for a spread that is retired what to write. As snprintf: at most room bytes
 * are written, the last of them 0, and the length of the whole text is given, which is below
 * ROZHELP_TEXT_BYTES. Any answer may be given; text may be null if room is 0.
 */
#define ROZHELP_TEXT_BYTES 512
size_t rozhelp_explain(char *text, size_t room, const uint8_t *sheet, size_t sheet_len,
                       rozhinal_answer answer);

/* ---- Values ---------------------------------------------------------------------------------- */

/* The number in 8 bytes, as records and results hold it. */
int64_t rozhelp_number(const uint8_t *bytes);

/* The text of a value, as rozhinal_print writes it, with a 0 byte; "UNK" for what that refuses. */
#define ROZHELP_VALUE_BYTES 21
const char *rozhelp_value_text(uint64_t kind, int64_t number, char text[ROZHELP_VALUE_BYTES]);

/* ---- Writing a sheet ------------------------------------------------------------------------- */

/*
 *     rozhelp_writer writer;
 *     rozhelp_begin(&writer, bytes, sizeof bytes);
 *     size_t parents[2];
 *     parents[0] = rozhelp_entry(&writer, "A");
 *     parents[1] = rozhelp_entry(&writer, "S");
 *     rozhelp_figure(&writer, "T", ROZHINAL_SUM, true, ROZHINAL_DEFER, parents, 2);
 *     size_t length = rozhelp_end(&writer);
 *
 * A sheet that is written to its end opens. ROZHINAL_MAX_SHEET_BYTES(n) is room for n items. Count
 * and fault are to be read; the other members are the writer's own.
 */
typedef struct {
    uint8_t *bytes;
    size_t room, length;
    size_t count;   /* items so far */
    uint64_t fault; /* the first, as an enum rozhinal_refusal; 0 if there is none */
    bool ended;
    uint8_t levels[ROZHINAL_MAX_ITEMS];
} rozhelp_writer;

void rozhelp_begin(rozhelp_writer *writer, uint8_t *bytes, size_t room);

/*
 * Each gives the number of the new item, one above the last. If a sheet cannot have the item here,
 * it is ROZHELP_NO_ITEM; the fault is the library's refusal of such a sheet, and nothing is written
 * from then on:
 *
 *   1   there is no room
 *   2   the sheet has ended
 *   3   the name is wrong, or null
 *   4   the sheet has ROZHINAL_MAX_ITEMS items
 *   5   the rule, the spread (the retired one in either edition) or the number of parents is wrong
 *   6   a parent is not an earlier item, or parents is null
 *   7   the level would be above ROZHINAL_MAX_LEVEL
 */
size_t rozhelp_entry(rozhelp_writer *writer, const char *name);
size_t rozhelp_figure(rozhelp_writer *writer, const char *name, unsigned rule, bool keep,
                      unsigned spread, const size_t *parents, size_t parent_count);

/*
 * Ends the sheet, in the lowest edition for its items, and gives its length, the same each time; 0
 * if there is a fault: 1 for no room, 4 for no items.
 */
size_t rozhelp_end(rozhelp_writer *writer);

#ifdef __cplusplus
}
#endif

#endif
