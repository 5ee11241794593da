/*
 * Rozhinal 5.1.0: an engine for quota ledgers.
 *
 * A sheet is a circuit of items. An entry is posted; a figure is worked out from earlier items, its
 * parents, by one of eight rules. The caller lends three slices of bytes to each call:
 *
 *   sheet   the circuit, as the caller made it; no call changes it
 *   index   written by an opening, then only read
 *   table   written by an opening, then changed by the calls
 *
 * To a board it lends two more, the items to read and room for their values.
 *
 * The engine keeps no state, allocates nothing, and reads and writes no byte but those lent to the
 * call. A call may run in any thread, also while another call runs, as long as none of them is lent
 * bytes that another may write: a table, the index of an opening, the results of a board, scratch.
 *
 * What is lent:
 *
 *   - Slices lent to one call must not overlap.
 *   - A pointer may be null only if its length is 0. Any other pointer will do for length 0, and is
 *     the safer choice.
 *   - Nothing is kept after the call: what was lent may be moved, copied or freed.
 *   - A table is good only with the sheet that it was opened with. Lent with another sheet it may
 *     be accepted, if its form fits, and the readings then mean nothing. Keep sheet, index and
 *     table together.
 *   - A table that only the engine has written since an opening is always accepted (with its own
 *     sheet and index). A table with bytes from elsewhere may be accepted too, but its readings are
 *     then not promised, until rozhinal_close has worked every figure out anew.
 *   - A table from versions 4.0.0 to 4.3.0 goes on as it is, also if figures of its sheet have the
 *     spread ROZHINAL_FORGET of edition 1.
 *   - A table from version 3.0.0 is accepted, but until they are worked out again its stored figures
 *     may hold an OUT of the choice of before (ROZHINAL_CHOICE). Close it, and its readings are
 *     promised again; or open the sheet anew, and post its entries.
 *   - A table from before version 3.0.0 has 10 bytes an item, and is refused with 8. Open the sheet
 *     anew, and post the entries of the older table: no posting is lost. In a table from before
 *     2.0.0 weights are kilograms; they are posted in grams.
 *
 * A refused call changes no lent byte. An accepted call never fails halfway.
 *
 * Stack: looking up goes from a figure to its parents, so the depth is bounded by the levels of a
 * sheet (at most ROZHINAL_MAX_LEVEL). Scratch goes by the item count n that the sheet states: there
 * is scratch for 128 items, for 1,024 or for 4,096, the least of these that is enough. So a small
 * sheet takes a small stack: ROZHINAL_STACK_BYTES_FOR(n) is enough for every call on a sheet of n
 * items, ROZHINAL_STACK_BYTES for every call. On sheets of 64 levels, in bytes, as tests/c/stack.c
 * measures them:
 *
 *   items            ask, board      step      keep     close   post, swap   drop   openings
 *   up to 128            36,048    35,808    31,296     1,929        1,705  1,673      1,513
 *   up to 1,024          88,928    88,672    53,712     9,993        9,753  9,721      9,561
 *   up to 4,096         270,176   269,920   130,512    37,641       37,401 37,369     37,209
 *
 * Backtraces end inside a call: the archive has no unwind tables and keeps no frame pointers. There
 * a debugger and a profiler name the function, backtrace() gives its address, and none its callers;
 * a debugger that stops where a function of this header begins shows them all, and counts by
 * function are right. No call throws or calls back. What a signal handler throws during a call, and
 * an asynchronous cancellation of the thread, cannot be unwound through it.
 */
#ifndef ROZHINAL_H
#define ROZHINAL_H

#include <stddef.h>
#include <stdint.h>

#ifdef __cplusplus
extern "C" {
#endif

#define ROZHINAL_VERSION_MAJOR 5
#define ROZHINAL_VERSION_MINOR 1
#define ROZHINAL_VERSION_PATCH 0
#define ROZHINAL_VERSION "5.1.0"

/* ---- Limits ---------------------------------------------------------------------------------- */

/* A number of grams lies from -ROZHINAL_LIMIT to ROZHINAL_LIMIT. */
#define ROZHINAL_LIMIT INT64_C(1000000000000000)
/* The second parent of a share lies from 0 to ROZHINAL_WHOLE: it counts ten-thousandths. */
#define ROZHINAL_WHOLE INT64_C(10000)

/*
 * The editions of sheets. They differ in how many items a sheet may have, in the retired spread
 * ROZHINAL_FORGET, which edition 1 treats as ROZHINAL_DEFER and edition 2 refuses, and in nothing
 * else: a sheet that states edition 1 and at most 1,024 items, and is without that spread, gives the
 * same answers with its edition number changed to 2, and every opening and call leaves the same
 * bytes.
 */
#define ROZHINAL_EDITION_1 1
#define ROZHINAL_EDITION_2 2
#define ROZHINAL_EDITION_LATEST ROZHINAL_EDITION_2
#define ROZHINAL_MAX_ITEMS_EDITION_1 1024
#define ROZHINAL_MAX_ITEMS_EDITION_2 4096
/* The most items of any edition. */
#define ROZHINAL_MAX_ITEMS ROZHINAL_MAX_ITEMS_EDITION_2
/* The edition that every version of the library takes. */
#define ROZHINAL_EDITION ROZHINAL_EDITION_1
/* The lowest edition for n items. Versions before 4.3.0 take edition 1 alone. */
#define ROZHINAL_EDITION_FOR(n)                                                                  \
    ((size_t)(n) <= ROZHINAL_MAX_ITEMS_EDITION_1 ? ROZHINAL_EDITION_1 : ROZHINAL_EDITION_2)

#define ROZHINAL_MAX_PARENTS 16
#define ROZHINAL_MAX_LEVEL 64
#define ROZHINAL_MAX_NAME 16
#define ROZHINAL_MAX_BOARD 64

/*
 * The stack that no call exceeds, by the items of its sheet: see the head of this file. A thread
 * that makes calls needs so much besides what its own functions take. The last names n twice.
 */
#define ROZHINAL_STACK_BYTES_128 65536
#define ROZHINAL_STACK_BYTES_1024 131072
#define ROZHINAL_STACK_BYTES_4096 393216
#define ROZHINAL_STACK_BYTES ROZHINAL_STACK_BYTES_4096
#define ROZHINAL_STACK_BYTES_FOR(n)                                                              \
    ((size_t)((size_t)(n) <= 128    ? ROZHINAL_STACK_BYTES_128                                   \
              : (size_t)(n) <= 1024 ? ROZHINAL_STACK_BYTES_1024                                  \
                                    : ROZHINAL_STACK_BYTES_4096))

/*
 * The day program refuses a sheet.bin of more bytes with 19, and reads no more of a day.bin. The
 * functions know no such limit.
 */
#define ROZHINAL_MAX_DAY_BYTES 65536

/* ---- The sheet ------------------------------------------------------------------------------- */

/*
 * A sheet is a row of fields: tag (1 byte), length (2 bytes), then so many content bytes. Numbers
 * are little-endian.
 *
 *   tag                   content
 *   ROZHINAL_TAG_HEAD     edition (2 bytes, 1 or 2), item count n (2 bytes, 1 to 1,024 in edition 1
 *                         and 1 to 4,096 in edition 2)
 *   then n items, numbered from 0, each one of
 *   ROZHINAL_TAG_ENTRY    name
 *   ROZHINAL_TAG_FIGURE   rule, keep, spread, parent count p (1 byte each), p parents (2 bytes
 *                         each), name
 *   and last
 *   ROZHINAL_TAG_END      nothing; no byte follows
 *
 * A name is made of 1 to ROZHINAL_MAX_NAME bytes from 33 ('!') to 126 ('~'). Two items may have the
 * same name. Parents are given by number, and only items before the figure can be its parents; one
 * may stand in the list more than once. Entries are at level 0, and a figure stands one level above
 * the highest of its parents.
 */
enum rozhinal_tag {
    ROZHINAL_TAG_HEAD = 1,
    ROZHINAL_TAG_ENTRY = 2,
    ROZHINAL_TAG_FIGURE = 3,
    ROZHINAL_TAG_END = 4
};

/*
 * The rules. A parent that is OUT makes every rule OUT but choice, which looks only at its first
 * parent and the one that this points to; a result beyond the range is OUT. NULL is "nothing
 * recorded", and each rule gives NULL if all its parents are NULL.
 */
enum rozhinal_rule {
    ROZHINAL_SUM = 1,        /* 1 to 16 parents: the sum of those not NULL */
    ROZHINAL_DIFFERENCE = 2, /* 2 parents: first minus second, one NULL as 0 */
    ROZHINAL_SMALLEST = 3,   /* 1 to 16 parents: the smallest of those not NULL */
    ROZHINAL_LARGEST = 4,    /* 1 to 16 parents: the largest of those not NULL */
    ROZHINAL_SHARE = 5,      /* 2 parents: first * second / ROZHINAL_WHOLE, rounded down; NULL if
                                either is; OUT if the second is not from 0 to ROZHINAL_WHOLE */
    ROZHINAL_CHOICE = 6,     /* 3 parents: OUT or NULL if the first is; else the second if the first
                                is above 0, and the third if not, also where that is OUT or NULL */
    ROZHINAL_COUNT = 7,      /* 1 to 16 parents: how many are not NULL */
    ROZHINAL_AT_LEAST = 8    /* 2 parents: 1 if first >= second, else 0; NULL if either is */
};

/*
 * What a stored figure does when it is told that a parent has changed. The byte before it, keep, is
 * 1 if looking the figure up stores it, else 0.
 */
enum rozhinal_spread {
    ROZHINAL_DEFER = 0, /* it is marked refresh; if it is marked notice, as renew */
    ROZHINAL_RENEW = 1, /* it is worked out anew at once, and marked notice if it changed */
    ROZHINAL_FORGET = 2 /* retired: in edition 1 treated as ROZHINAL_DEFER, in edition 2 refused
                           with 5; until version 5.0.0 the figure was then no longer stored */
};

/*
 * The most bytes of a sheet of n items that opens: the head, an entry, n - 1 figures of 16 parents
 * and the end, all names of 16 bytes; n is at least 1. That is 56,294 in edition 1, and 225,254 in
 * edition 2.
 */
#define ROZHINAL_MAX_SHEET_BYTES(n)                                                              \
    (7 + 3 + (size_t)ROZHINAL_MAX_NAME                                                           \
     + ((size_t)(n) - 1) * (7 + 2 * ROZHINAL_MAX_PARENTS + ROZHINAL_MAX_NAME) + 3)

/*
 * The item count n that the sheet states: bytes 5 and 6. It means something only if the sheet
 * opens; 0 for a sheet too short to state it. Use it to size index and table before an opening.
 */
static inline size_t rozhinal_item_count(const uint8_t *sheet, size_t sheet_len)
{
    return sheet_len < 7 ? 0 : (size_t)sheet[5] + 256 * (size_t)sheet[6];
}

/* The edition that the sheet states, bytes 3 and 4; 0 for a sheet too short to state it. */
static inline unsigned rozhinal_edition(const uint8_t *sheet, size_t sheet_len)
{
    return sheet_len < 5 ? 0 : (unsigned)sheet[3] + 256 * (unsigned)sheet[4];
}

/* ---- Index and table ------------------------------------------------------------------------- */

/* The index: for each item the offset of its field in the sheet, 4 bytes, little-endian. */
#define ROZHINAL_OFFSET_BYTES 4
#define ROZHINAL_INDEX_BYTES(n) ((size_t)ROZHINAL_OFFSET_BYTES * (size_t)(n))

/*
 * The table: a record for each item.
 *
 *   byte 0      kind, an enum rozhinal_kind
 *   byte 1      mark, an enum rozhinal_mark
 *   bytes 2-9   number, two's complement, little-endian; 0 unless the kind is ROZHINAL_NUMBER
 *   byte 10     owed, 1 if some child is stored, or is not stored and itself owed; else 0
 *
 * The kind of an entry is ROZHINAL_NULL or ROZHINAL_NUMBER. Only a stored figure, one whose kind is
 * not ROZHINAL_UNK, can have the mark ROZHINAL_MARK_REFRESH. While any mark is left a stored figure
 * may be out of date: read values by rozhinal_ask or rozhinal_board, not from the table, unless
 * rozhinal_close was the last call.
 *
 * The children of an item are the figures that list it as a parent. An item is owed while a stored
 * figure leans on it, directly or through figures that are not stored; entries have an owed byte
 * too. Every accepted call leaves the owed bytes true, and every call but the openings refuses a
 * table in which one is false.
 */
#define ROZHINAL_RECORD_BYTES 11
#define ROZHINAL_TABLE_BYTES(n) ((size_t)ROZHINAL_RECORD_BYTES * (size_t)(n))

enum rozhinal_kind {
    ROZHINAL_UNK = 0,   /* no value: a figure with nothing stored */
    ROZHINAL_NULL = 1,  /* nothing recorded */
    ROZHINAL_OUT = 2,   /* arithmetic left the range */
    ROZHINAL_NUMBER = 3 /* a number of grams */
};

enum rozhinal_mark {
    ROZHINAL_MARK_NONE = 0,    /* nothing to do */
    ROZHINAL_MARK_REFRESH = 1, /* to be worked out anew from its parents */
    ROZHINAL_MARK_NOTICE = 2   /* has changed, and its children are still to be told */
};

/* ---- Answers --------------------------------------------------------------------------------- */

/*
 * The number of an answer. 1 to 7 are faults of the sheet: the answer's offset is that of the first
 * field at fault, and the number the lowest that applies to it. For a field that is absent the
 * offset is the sheet's length; for bytes after the last field it is where they begin. With every
 * other number the offset is 0. After the sheet the tests come in the order of their numbers, with
 * 17 between 10 and 11 and 18 between 12 and 13; the first that applies is given.
 */
enum rozhinal_refusal {
    ROZHINAL_ACCEPTED = 0,
    /* faults of the sheet */
    ROZHINAL_REFUSED_FIELD = 1,  /* a field runs past the end, or is absent */
    ROZHINAL_REFUSED_TAG = 2,    /* a tag is wrong for its place, or bytes follow the last field */
    ROZHINAL_REFUSED_LENGTH = 3, /* a field's length or a name is wrong */
    ROZHINAL_REFUSED_COUNT = 4,  /* the edition is neither 1 nor 2, or the item count is 0 or above
                                    the edition's limit */
    ROZHINAL_REFUSED_RULE = 5,   /* rule, keep or spread, in edition 2 ROZHINAL_FORGET too, or the
                                    parent count for the rule */
    ROZHINAL_REFUSED_PARENT = 6, /* a parent is not an earlier item */
    ROZHINAL_REFUSED_LEVEL = 7,  /* a level above ROZHINAL_MAX_LEVEL */
    /* faults of index and table */
    ROZHINAL_REFUSED_SIZES = 8,  /* idx_len or table_len is not the size for n items */
    ROZHINAL_REFUSED_INDEX = 9,  /* the index is not the one that an opening of the sheet writes */
    ROZHINAL_REFUSED_TABLE = 10, /* a record, or the value to print, breaks its form or range, or an
                                    owed byte is false */
    /* faults of the arguments */
    ROZHINAL_REFUSED_ITEM = 11,     /* there is no item with this number */
    ROZHINAL_REFUSED_SORT = 12,     /* a post to a figure, a swap with one, or a keep or drop of an
                                       entry */
    ROZHINAL_REFUSED_POSTED = 13,   /* neither NULL with number 0 nor a number within the range, or
                                       a result of a swap is beyond it */
    ROZHINAL_REFUSED_UNMARKED = 14, /* a step of an item that has no mark */
    ROZHINAL_REFUSED_SCRATCH = 15,  /* the printer's scratch is under ROZHINAL_PRINT_BYTES */
    /* the day program's alone; no function gives it */
    ROZHINAL_REFUSED_DAY = 16, /* a field of the day log is wrong */
    /* faults of the lists of a board; tested before 11 */
    ROZHINAL_REFUSED_LISTS = 17, /* items_len is odd or for over ROZHINAL_MAX_BOARD items, or
                                    results_len is not the size for so many items */
    /* faults of a swap; tested before 13 */
    ROZHINAL_REFUSED_SWAP = 18, /* one entry on both sides, or a quantity under 1 */
    /* the day program's alone; no function gives it, and each takes longer sheets */
    ROZHINAL_REFUSED_FILE = 19 /* sheet.bin is over ROZHINAL_MAX_DAY_BYTES */
};

/* The answer of a call. Accepted: number 0 and offset 0. */
typedef struct {
    uint64_t number; /* an enum rozhinal_refusal */
    uint64_t offset;
} rozhinal_answer;

/* The answer of an ask, with the value read. Refused: kind ROZHINAL_UNK and value 0. */
typedef struct {
    uint64_t number; /* an enum rozhinal_refusal */
    uint64_t offset;
    uint64_t kind;   /* an enum rozhinal_kind, never ROZHINAL_UNK if accepted */
    int64_t value;   /* the number, 0 unless the kind is ROZHINAL_NUMBER */
} rozhinal_reading;

/* ---- Openings -------------------------------------------------------------------------------- */

/*
 * Both read the sheet and write every byte of index and table: each entry NULL, no marks. They
 * refuse with 1 to 8. What stood in index and table before counts for nothing.
 */

/* Opens with no figure stored. No item is owed. */
rozhinal_answer rozhinal_open_bare(const uint8_t *sheet, size_t sheet_len,
                                   uint8_t *idx, size_t idx_len,
                                   uint8_t *table, size_t table_len);

/* Opens with every figure stored, as NULL. Each item that has a child is owed. */
rozhinal_answer rozhinal_open_full(const uint8_t *sheet, size_t sheet_len,
                                   uint8_t *idx, size_t idx_len,
                                   uint8_t *table, size_t table_len);

/* ---- Calls ----------------------------------------------------------------------------------- */

/* Every call reads sheet, index and table first, and refuses them with 1 to 10. */

/*
 * Posts NULL (kind ROZHINAL_NULL, number 0) or a number (kind ROZHINAL_NUMBER) to an entry. An
 * equal value changes nothing; another is stored, and marked notice. Refuses with 11, 12 and 13
 * besides.
 */
rozhinal_answer rozhinal_post(const uint8_t *sheet, size_t sheet_len,
                              const uint8_t *idx, size_t idx_len,
                              uint8_t *table, size_t table_len,
                              uint64_t item, uint64_t kind, int64_t number);

/*
 * Moves a quantity from one entry to another, as one act: the giver loses it and the taker gains
 * it, NULL counting as 0. Both results are stored as by posts, the giver's first, so that both
 * entries are then numbers, marked notice. The sum of all entries, NULL as 0, stays what it was.
 * Refuses with 11 if either is no item, with 12 if either is a figure, with 18 if they are one
 * entry or the quantity is under 1, and last with 13 if either result is beyond the range; then
 * neither entry moves. A quantity may be anything to INT64_MAX: only the results, which are exact,
 * are held to the range.
 */
rozhinal_answer rozhinal_swap(const uint8_t *sheet, size_t sheet_len,
                              const uint8_t *idx, size_t idx_len,
                              uint8_t *table, size_t table_len,
                              uint64_t giver, uint64_t taker, int64_t quantity);

/*
 * Looks a figure up and stores it, whatever its keep byte. A stored figure is untouched. Refuses
 * with 11 and 12 besides.
 */
rozhinal_answer rozhinal_keep(const uint8_t *sheet, size_t sheet_len,
                              const uint8_t *idx, size_t idx_len,
                              uint8_t *table, size_t table_len,
                              uint64_t item);

/* Makes a figure unstored; a refresh mark becomes notice. Refuses with 11 and 12 besides. */
rozhinal_answer rozhinal_drop(const uint8_t *sheet, size_t sheet_len,
                              const uint8_t *idx, size_t idx_len,
                              uint8_t *table, size_t table_len,
                              uint64_t item);

/*
 * Does the work of one mark. Refresh: the figure is worked out anew; the mark is cleared if nothing
 * changed, else it becomes notice. Notice: the children are told, and the mark is cleared. A child
 * that is not stored is marked notice if it is owed, and passed over if not. A step leaves every
 * stored figure stored and every owed byte as it was: what it stores besides was owed already.
 * Refuses with 11 and 14 besides.
 *
 * Marked items may be stepped in any order. On every accepted table of n items, accepted steps with
 * no other call between them number fewer than 3 to the power n, and can go on until no mark is
 * left. With the lowest marked item each time there are at most 2n; other orders can take many
 * more. If all items are gone over in rounds, in any order, with a step of each that is marked at
 * its turn and no other call between, no mark is left after 130 rounds. On a table that only the
 * library has written since its opening, an ask after any of the steps gives what it would have
 * given before the first (it does the steps that are left, so that a later step may get 14), and
 * when no mark is left, what is stored is what an ask gives.
 */
rozhinal_answer rozhinal_step(const uint8_t *sheet, size_t sheet_len,
                              const uint8_t *idx, size_t idx_len,
                              uint8_t *table, size_t table_len,
                              uint64_t item);

/*
 * Steps the lowest marked item until none is marked, then looks the item up and gives its value:
 * the right one for what was last posted and swapped, whatever was stored, dropped or stepped
 * before. Refuses with 11 besides.
 */
rozhinal_reading rozhinal_ask(const uint8_t *sheet, size_t sheet_len,
                              const uint8_t *idx, size_t idx_len,
                              uint8_t *table, size_t table_len,
                              uint64_t item);

/* ---- The board ------------------------------------------------------------------------------- */

/*
 * The items of a board: for each its number, 2 bytes, little-endian. An item may be listed twice. A
 * number over 65,535 is no item, and must not be cut to 2 bytes.
 */
#define ROZHINAL_BOARD_ITEM_BYTES 2
#define ROZHINAL_ITEMS_BYTES(k) ((size_t)ROZHINAL_BOARD_ITEM_BYTES * (size_t)(k))

/*
 * The results of a board: for each item listed, in the same order,
 *
 *   byte 0      kind, an enum rozhinal_kind, never ROZHINAL_UNK
 *   bytes 1-8   number, as in the table; 0 unless the kind is ROZHINAL_NUMBER
 */
#define ROZHINAL_BOARD_RESULT_BYTES 9
#define ROZHINAL_RESULTS_BYTES(k) ((size_t)ROZHINAL_BOARD_RESULT_BYTES * (size_t)(k))

/*
 * Reads up to ROZHINAL_MAX_BOARD items: steps the lowest marked item until none is marked, then
 * looks the items up in the order of the list and writes their values to results. Values and table
 * are those of asking for the items one after another, but the sheet is read once. An empty list
 * with empty results is accepted and changes nothing at all; marks stay. Refuses with 1 to 10 as
 * every call, then with 17, then with 11 if a number in the list is no item.
 */
rozhinal_answer rozhinal_board(const uint8_t *sheet, size_t sheet_len,
                               const uint8_t *idx, size_t idx_len,
                               uint8_t *table, size_t table_len,
                               const uint8_t *items, size_t items_len,
                               uint8_t *results, size_t results_len);

/* ---- The season-close run -------------------------------------------------------------------- */

/*
 * Works every figure out anew and stores it. The run goes over the items once, lowest first, and
 * fills the table in place: an entry keeps its value; a figure, stored or not, whatever its keep
 * byte, gets what its rule gives for its parents as they then stand in the table; no mark is left,
 * and each item that has a child is owed.
 * On a table that only the engine has written since an opening each record then holds what an ask
 * for the item gives, and may be read from the table until the next post, swap, drop or opening. On
 * any table that is accepted the values are the right ones for the entries that it holds. A second
 * run changes nothing. Refuses with 1 to 10 as every call, and with no other number.
 */
rozhinal_answer rozhinal_close(const uint8_t *sheet, size_t sheet_len,
                               const uint8_t *idx, size_t idx_len,
                               uint8_t *table, size_t table_len);

/* ---- Printer --------------------------------------------------------------------------------- */

/*
 * The scratch bytes that the printer asks for. A printed value has at most 17. No 0 byte is written
 * after it.
 */
#define ROZHINAL_PRINT_BYTES 20

/*
 * Writes a value at the front of scratch: decimal digits, '-' before a negative number, "-" for
 * NULL, "OUT" for OUT. Gives the length of the part written; the bytes after it are unchanged.
 * Refused, it gives -10 (kind or number breaks the form or range; ROZHINAL_UNK is no value) or -15
 * (scratch too small), and scratch is unchanged.
 */
int64_t rozhinal_print(uint64_t kind, int64_t number, uint8_t *scratch, size_t scratch_len);

#ifdef __cplusplus
}
#endif

#endif
