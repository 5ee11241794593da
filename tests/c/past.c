/*
 * A program at fault, for a look at the memory checker: what it lends is a byte shorter than it
 * says, the table of an opening, the items or the results of a board, or the table of a swap or of
 * a close, as its argument names. The library reads or writes that byte, and the checker must see
 * it.
 */
#include "rozhinal.h"

#include <stdlib.h>
#include <string.h>

static const uint8_t sheet[] = { 1, 4, 0, 1, 0, 2, 0, 2, 1, 0, 'A', 2, 1, 0, 'S', 4, 0, 0 };

enum { INDEX = ROZHINAL_INDEX_BYTES(2), TABLE = ROZHINAL_TABLE_BYTES(2) };
enum { LISTED = 2, RESULTS = 2 * 9 };

/* Zero bytes, as many as are said, or one less if they are what is named. */
static uint8_t *lend(size_t length, const char *named, const char *what)
{
    uint8_t *bytes = calloc(strcmp(named, what) == 0 ? length - 1 : length, 1);
    if (bytes == NULL)
        exit(1);
    return bytes;
}

/* The table again; its last byte is 0, and so is the one here. */
static uint8_t *lend_again(const uint8_t *table, const char *named, const char *what)
{
    uint8_t *bytes = lend(TABLE, named, what);
    memcpy(bytes, table, TABLE - 1);
    return bytes;
}

#define LENT(table) sheet, sizeof sheet, idx, INDEX, table, TABLE

int main(int count, char **arguments)
{
    const char *named = count == 2 ? arguments[1] : "nothing";
    uint8_t idx[INDEX], *table = lend(TABLE, named, "table");
    uint8_t *items = lend(2 * LISTED, named, "items"), *results = lend(RESULTS, named, "results");
    uint64_t refused = rozhinal_open_bare(LENT(table)).number;
    refused |= rozhinal_board(LENT(table), items, 2 * LISTED, results, RESULTS).number;
    uint8_t *swapped = lend_again(table, named, "swapped");
    refused |= rozhinal_swap(LENT(swapped), 0, 1, 5).number;
    uint8_t *closed = lend_again(table, named, "closed");
    refused |= rozhinal_close(LENT(closed)).number;
    free(swapped);
    free(closed);
    free(table);
    free(items);
    free(results);
    return refused == ROZHINAL_ACCEPTED ? 0 : 1;
}
