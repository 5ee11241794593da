/* Tables from before versions 4.0.0 and 3.0.0, as ledger_load takes them. */
#ifndef FORMER_H
#define FORMER_H

#include "ledger.h"

/* What stands in the bytes of a file, and whether its sum is right. */
struct parts {
    uint8_t *sheet, *idx, *table;
    size_t sheet_len, idx_len, table_len;
    bool whole;
};

/*
 * Before 4.0.0: works every figure of an accepted table out anew: 0, or a refusal. The same ones
 * are stored as before, and the entries stay as they are.
 */
uint64_t renew_figures(const struct parts *parts);

/* Before 3.0.0: the fault of index and table; the refusal is 0 if there is none. */
struct ledger_fault former_fault(const struct ledger *ledger, const struct parts *parts);

/*
 * Posts the entries of a table without a fault to the opened one: 0, or a refusal. Each of them can
 * be posted. So the first post is refused, and nothing has changed, if index and table are not as
 * an opening writes them; if it is accepted, so are the others.
 */
uint64_t post_entries(struct ledger *ledger, const uint8_t *table);

#endif
