/* The ledger's file on the disk. */
#ifndef DISK_H
#define DISK_H

#include "ledger.h"

#include <sys/stat.h>

/* Says why a call is not done; -1. */
int ledger_bar(struct ledger *ledger, const char *why);

/* What stands in the way of a file beside the ledger, if errno is EISDIR; -1. */
int ledger_bar_folder(struct ledger *ledger);

/* Whether the lock that this process took is still the ledger's. */
bool disk_has_lock(const struct ledger *ledger);

/* Whether it is a plain file; bars what is none. */
bool disk_is_plain(struct ledger *ledger, const struct stat *status);

/*
 * Reads the file where the ledger is: 0, also if there is none, or -1. It must be a plain file with
 * one name, and not over the given size (EFBIG).
 */
int disk_read(struct ledger *ledger, size_t most, struct ledger_file *found);

/* As ledger_save: a new file takes the place of the one that stands, which stays as LEDGER.old. */
int disk_replace(struct ledger *ledger, const struct ledger_file *old,
                 const struct ledger_file *new);

#endif
