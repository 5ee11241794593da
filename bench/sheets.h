/* The sheets of the benchmark. They are the same at each run. */
#ifndef SHEETS_H
#define SHEETS_H

#include "rozhinal.h"

enum { SHEET_BYTES = ROZHINAL_MAX_SHEET_BYTES(ROZHINAL_MAX_ITEMS) };
enum { GROUP_ITEMS = 125, COMMON_ENTRIES = 4, RATE = 1 };
enum { MOST_POSTED = 100000000 }; /* grams */
enum { RATES = 8, SHARED = 24 };

/* Of a sheet of guarded shares: the entry that rates are held against, and the first share. */
enum { BOUND = RATES + SHARED, GUARDS_AT = BOUND + 1, GUARD_ITEMS = 3 };

struct sheet {
    uint8_t bytes[SHEET_BYTES];
    size_t length;
    size_t count;
    size_t top; /* the last item of the highest level */
};

/* The example of README.md: entries A, L and S, and figures T = A + S and B = T - L. */
void make_example(struct sheet *sheet);

/*
 * A fleet's ledger: groups of GROUP_ITEMS items each, a quarter of them entries. The groups are
 * alike and stand beside each other; all of them also use the first COMMON_ENTRIES entries of the
 * sheet. So the work of a call grows with the groups and no faster. The entry RATE is the second
 * parent of every share. No figure is OUT while entries are at most MOST_POSTED. Without keeping,
 * every keep byte is 0.
 */
void make_ledger(struct sheet *sheet, size_t groups, int keeping);

/* One entry, and as many levels above it as a sheet can have: each lists the one below 16 times. */
void make_chain(struct sheet *sheet);

/* COMMON_ENTRIES entries, and figures that all list the first, without keeping all with keep 0. */
void make_fan(struct sheet *sheet, size_t figures, int keeping);

/*
 * RATES + SHARED entries, and shares of the last SHARED by the first RATES. Once stored, a share is
 * worked out anew whenever a parent was posted.
 */
void make_shares(struct sheet *sheet, size_t figures);

/*
 * The same entries and BOUND, then guards of GUARD_ITEMS items each: a share, a test whether its
 * rate is at most BOUND, and a choice of the share if it is, else of an entry. The rates take turns.
 * Last, sums of all the choices.
 */
void make_guarded_shares(struct sheet *sheet, size_t guards);

/* Whether the item is an entry. */
int is_entry(const struct sheet *sheet, size_t item);

#endif
