/*
 * A ledger: index and table in one file, with a copy of the sheet that they belong to. The file is
 * replaced as a whole. Beside it stand
 *
 *     LEDGER.lock     locked by the office that has the ledger open
 *     LEDGER.old      the state before the last save, once there was one
 *     LEDGER.old-new  the copy of the standing file that is to be LEDGER.old
 *     LEDGER.new      the file that is to be the ledger
 *
 * A save writes the last two and sees that they are on the disk, renames the copy, renames the new
 * file, and sees that the folder is on the disk. If it fails, both are removed. After a crash
 *
 *     before the first rename   LEDGER and LEDGER.old are as they were
 *     before the second         LEDGER is as it was, and LEDGER.old is the same
 *     after it                  LEDGER is the new one, and LEDGER.old the one before
 *
 * If the second rename fails, the files are as after a crash before it, without the new ones. A
 * power cut before the folder is on the disk may undo either rename: each file is then the one from
 * before it. All of these are whole. What is left of LEDGER.old-new and LEDGER.new counts for
 * nothing, and the next save replaces it. LEDGER.log is the office's.
 */
#ifndef LEDGER_H
#define LEDGER_H

#include <stdbool.h>
#include <stddef.h>
#include <stdint.h>
#include <sys/types.h>

/* The endings of the files beside a ledger. */
#define LEDGER_LOCK ".lock"
#define LEDGER_OLD ".old"
#define LEDGER_OLD_NEW ".old-new"
#define LEDGER_NEW ".new"
#define LEDGER_LOG ".log"

/* A file as it was read or written, whose it is, and who may read and write it. */
struct ledger_file {
    uint8_t *bytes; /* null if there is no file */
    size_t length;
    mode_t mode;
    uid_t owner;
    gid_t group;
};

struct ledger {
    const char *path; /* as it was given, for messages */
    char *real;       /* where the file is; its other files stand beside it */
    const char *why;  /* why the last call was not done; null if errno says it */
    const char *read_only; /* why it is open for reading only; null if the lock is held */
    dev_t lock_device;     /* which file the lock is */
    ino_t lock_number;
    struct ledger_file standing; /* as this process loaded or last wrote it */
    const uint8_t *sheet;
    size_t sheet_len;
    uint8_t *idx;
    size_t idx_len;
    uint8_t *table;
    size_t table_len;
};

/* The slices of a ledger, as each call is lent them. */
#define LENT(l) (l)->sheet, (l)->sheet_len, (l)->idx, (l)->idx_len, (l)->table, (l)->table_len

enum ledger_state {
    LEDGER_LOADED,
    LEDGER_STALE,       /* whole, but from before version 4.0.0 */
    LEDGER_FORMER,      /* whole, but from before version 3.0.0 */
    LEDGER_OLDER,       /* whole, but from before version 2.0.0 */
    LEDGER_ABSENT,      /* there is no such file */
    LEDGER_OTHER_SHEET, /* whole, but of another sheet */
    LEDGER_DAMAGED,     /* not a ledger, cut short or changed */
    LEDGER_UNREADABLE   /* ledger_why says why */
};

/* Why the last of these calls was not done, in plain words; errno must be as the call left it. */
const char *ledger_why(const struct ledger *ledger);

/* The path of a file beside the ledger, by its ending, in memory that the caller frees; or null. */
char *ledger_beside(const struct ledger *ledger, const char *ending);

/*
 * Finds where the file of the path is, through any links, or where a new one is to be: 0 or -1. A
 * link that points at nothing is refused, and so is what is no plain file, and a name that a file
 * beside a ledger has.
 */
int ledger_find(struct ledger *ledger);

/* Whether a path is one of the files beside the ledger, by whatever name. */
bool ledger_is_beside(const struct ledger *ledger, const char *path);

/*
 * Takes the ledger in the process, so that no other writes it: 0 or -1. It is given up when the
 * process ends. Where file, folder or lock may not be written the ledger is open for reading only,
 * without a lock: a whole file is read all the same, since a save never changes the one there.
 */
int ledger_take(struct ledger *ledger);

/* Frees what these calls have reserved. */
void ledger_free(struct ledger *ledger);

/* What is wrong with a damaged ledger. */
struct ledger_fault {
    uint64_t refusal; /* the library's, 0 if it has none */
    size_t item;      /* whose record it is, or LEDGER_NO_ITEM */
};
#define LEDGER_NO_ITEM SIZE_MAX

/*
 * Reads the file into index and table, which have just been opened. Any state but the first four
 * leaves both as they were; LEDGER_DAMAGED has a fault besides. A file with several names (hard
 * links) is not read: a save would leave the others behind.
 *
 * A table from before version 4.0.0 has today's form, but a choice that looked where it did not
 * point may be stored as OUT, and what leans on it too. Once the library has accepted it, every
 * figure is worked out anew; the same ones are stored as before, and no mark is left.
 *
 * A table from before version 3.0.0 has no owed bytes, and no call takes it. Its entries are posted
 * to the opened table, lowest first; its figures are as the opening has left them. Every record is
 * tested before that, so that no post is refused once one was accepted, and the table is never left
 * half posted.
 *
 * An older ledger is to be shown, not to be gone on with: its weights are kilograms.
 */
enum ledger_state ledger_load(struct ledger *ledger, struct ledger_fault *fault);

/*
 * Whether the file may be written: 0 or -1. It may not if it is open for reading only, the lock is
 * no longer there, the file has got another name, or it is no longer the one that this process
 * loaded or last wrote.
 */
int ledger_check(struct ledger *ledger);

/*
 * Writes the file, if it may be: 0; -1 if the old file still stands; 1 if the new one stands but
 * may not outlast a power cut.
 */
int ledger_save(struct ledger *ledger);

#endif
