/* A lister of sheets: what its parts share. */
#ifndef LISTER_H
#define LISTER_H

#include "rozhinal_helpers.h"

/* A sheet that opens. */
struct listed {
    unsigned edition;
    size_t count;
    rozhelp_item *items;
    size_t *levels; /* of the items */
};

const char *keep_word(const rozhelp_item *item);

/* Says that there is no memory, and gives the exit status. */
int tell_no_memory(void);

/*
 * Each writes the sheet to standard output, and to standard error what there is to say besides. It
 * gives the exit status.
 */
int write_list(const struct listed *sheet);
int write_text(const struct listed *sheet);
int write_dot(const struct listed *sheet);
int write_csv(const struct listed *sheet);

#endif
