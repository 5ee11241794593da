/* What the tests of the helpers share: random numbers, items to write, and a plain writer. */
#ifndef COMMON_H
#define COMMON_H

#include "rozhinal_helpers.h"

/* Ends the program with the place of what does not hold, and of the random run. */
#define HOLDS(what) ((what) ? (void)0 : does_not_hold(__FILE__, __LINE__, #what))
void does_not_hold(const char *file, int line, const char *what);

/* Random numbers, the same from the same seed. */
void seed(uint64_t number);
uint64_t roll(void);
size_t below(size_t bound); /* from 0 to bound - 1 */

/* Memory of just this length, which the caller frees; a byte past it is seen by the checkers. */
void *exactly(size_t length);
void *exact_copy(const void *bytes, size_t length);

/* An item to be written, right or wrong. */
enum { WISH_PARENTS = 20, WISH_NAME = 20 };
struct wish {
    bool figure, keep;
    unsigned rule, spread;
    size_t parent_count, parents[WISH_PARENTS];
    char name[WISH_NAME + 1];
};

/* A right one for the sheet's next item, by the levels of the earlier ones, which it goes into. */
struct wish good_wish(size_t number, uint8_t *levels);

/* The same with up to three things changed, so that it may be wrong. */
struct wish any_wish(size_t number, const uint8_t *levels);

/* By the helpers' writer. */
size_t write_wish(rozhelp_writer *writer, const struct wish *wish);

/* By hand and untested: a field, which gives its size; head and end around fields, the length. */
enum { WISH_BYTES = 3 + 4 + 2 * WISH_PARENTS + WISH_NAME, HEAD_BYTES = 7, END_BYTES = 3 };
size_t put_wish(uint8_t *to, const struct wish *wish);
size_t put_around(uint8_t *sheet, size_t fields_len, unsigned edition, size_t count);

/* What the library says of a sheet; with its index if one is wanted, which the caller frees. */
rozhinal_answer open_sheet(const uint8_t *sheet, size_t sheet_len, uint8_t **idx);

/* Whether an item is the one that was wished for; whether two are the same. */
bool is_wish(const rozhelp_item *item, const struct wish *wish);
bool same_item(const rozhelp_item *one, const rozhelp_item *other);

#endif
