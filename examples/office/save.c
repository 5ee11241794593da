/* Saving the ledger. */
#include "office.h"

#include <stdio.h>
#include <string.h>

void warn_of(const struct ledger *ledger)
{
    const char *why = ledger_why(ledger);
    fflush(stdout);
    fprintf(stderr, "warning: %s is written, but may not outlast a power cut: %s\n", ledger->path,
            why);
}

int put_in_file(struct office *office)
{
    struct ledger *ledger = &office->ledger;
    if (memcmp(ledger->table, office->saved, ledger->table_len) == 0)
        return 0;
    int state = ledger_save(ledger);
    if (state < 0)
        memcpy(ledger->table, office->saved, ledger->table_len);
    else
        memcpy(office->saved, ledger->table, ledger->table_len);
    return state;
}

bool is_saved(const struct ledger *ledger, int state)
{
    if (state < 0)
        printf("not done: %s: %s\n", ledger->path, ledger_why(ledger));
    if (state > 0)
        warn_of(ledger);
    return state >= 0;
}

bool save(struct office *office)
{
    return is_saved(&office->ledger, put_in_file(office));
}

bool save_posting(struct office *office)
{
    struct ledger *ledger = &office->ledger;
    bool changed = memcmp(ledger->table, office->saved, ledger->table_len) != 0;
    return changed ? save(office) : is_saved(ledger, ledger_check(ledger));
}
