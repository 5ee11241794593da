#include "former.h"

#include "rozhinal_helpers.h"

#include <string.h>

/* Before 3.0.0 a record had kind, mark and number alone. */
enum { NUMBER_AT = 2, FORMER_RECORD_BYTES = 10 };

/* The close stores every figure; those that were not stored before are dropped again. */
uint64_t renew_figures(const struct parts *parts)
{
    bool stored[ROZHINAL_MAX_ITEMS];
    size_t count = rozhinal_item_count(parts->sheet, parts->sheet_len);
    for (size_t i = 0; i < count; i++)
        stored[i] = parts->table[ROZHINAL_TABLE_BYTES(i)] != ROZHINAL_UNK;
    rozhinal_answer answer = rozhinal_close(LENT(parts));
    for (size_t i = 0; i < count && answer.number == ROZHINAL_ACCEPTED; i++) {
        if (!stored[i])
            answer = rozhinal_drop(LENT(parts), i);
    }
    return answer.number;
}

static bool is_figure(const struct ledger *ledger, size_t i)
{
    rozhelp_item item;
    return rozhelp_item_at(ledger->sheet, ledger->sheet_len, ledger->idx, ledger->idx_len, i, &item)
           && item.figure;
}

/* Whether a record has the form that the library asked of it. */
static bool former_record_fits(const uint8_t *record, bool figure)
{
    uint8_t kind = record[0], mark = record[1];
    int64_t number = rozhelp_number(record + NUMBER_AT);
    if (kind > ROZHINAL_NUMBER || mark > ROZHINAL_MARK_NOTICE)
        return false;
    if (kind != ROZHINAL_NUMBER && number != 0)
        return false;
    if (number < -ROZHINAL_LIMIT || number > ROZHINAL_LIMIT)
        return false;
    if (figure)
        return kind != ROZHINAL_UNK || mark != ROZHINAL_MARK_REFRESH;
    return (kind == ROZHINAL_NULL || kind == ROZHINAL_NUMBER) && mark != ROZHINAL_MARK_REFRESH;
}

struct ledger_fault former_fault(const struct ledger *ledger, const struct parts *parts)
{
    size_t count = rozhinal_item_count(ledger->sheet, ledger->sheet_len);
    if (parts->idx_len != ledger->idx_len || parts->table_len != FORMER_RECORD_BYTES * count)
        return (struct ledger_fault){ ROZHINAL_REFUSED_SIZES, LEDGER_NO_ITEM };
    if (memcmp(parts->idx, ledger->idx, ledger->idx_len) != 0)
        return (struct ledger_fault){ ROZHINAL_REFUSED_INDEX, LEDGER_NO_ITEM };
    for (size_t i = 0; i < count; i++) {
        if (!former_record_fits(parts->table + FORMER_RECORD_BYTES * i, is_figure(ledger, i)))
            return (struct ledger_fault){ ROZHINAL_REFUSED_TABLE, i };
    }
    return (struct ledger_fault){ 0, LEDGER_NO_ITEM };
}

uint64_t post_entries(struct ledger *ledger, const uint8_t *table)
{
    size_t count = rozhinal_item_count(ledger->sheet, ledger->sheet_len);
    for (size_t i = 0; i < count; i++) {
        const uint8_t *record = table + FORMER_RECORD_BYTES * i;
        if (is_figure(ledger, i))
            continue;
        rozhinal_answer answer =
            rozhinal_post(LENT(ledger), i, record[0], rozhelp_number(record + NUMBER_AT));
        if (answer.number != ROZHINAL_ACCEPTED)
            return answer.number;
    }
    return 0;
}
