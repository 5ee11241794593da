/* Where a ledger is, and who has it. */
#define _XOPEN_SOURCE 700 /* for realpath */
#include "disk.h"

#include <errno.h>
#include <fcntl.h>
#include <stdio.h>
#include <stdlib.h>
#include <string.h>
#include <sys/stat.h>
#include <unistd.h>

const char *ledger_why(const struct ledger *ledger)
{
    return ledger->why != NULL ? ledger->why : strerror(errno);
}

int ledger_bar(struct ledger *ledger, const char *why)
{
    ledger->why = why;
    return -1;
}

int ledger_bar_folder(struct ledger *ledger)
{
    if (errno == EISDIR)
        ledger->why = "a folder has the name of a file that goes beside it (.lock, .new, .old or "
                      ".old-new); move the folder away";
    return -1;
}

/* Two parts of a path, and what stands between them, in memory that the caller frees; or null. */
static char *join(const char *first, const char *between, const char *last)
{
    size_t length = strlen(first) + strlen(between) + strlen(last) + 1;
    char *path = malloc(length);
    if (path != NULL)
        snprintf(path, length, "%s%s%s", first, between, last);
    return path;
}

char *ledger_beside(const struct ledger *ledger, const char *ending)
{
    return join(ledger->real, "", ending);
}

/* Where a file is to be that is not there: in the folder of the path, under its last name. */
static char *find_new(const char *path)
{
    const char *slash = strrchr(path, '/');
    const char *name = slash != NULL ? slash + 1 : path;
    if (*name == '\0') {
        errno = ENOENT;
        return NULL;
    }
    char *given = slash != NULL ? strndup(path, (size_t)(name - path)) : strdup(".");
    char *folder = given != NULL ? realpath(given, NULL) : NULL;
    char *found = folder != NULL ? join(folder, folder[1] != '\0' ? "/" : "", name) : NULL;
    int cause = errno;
    free(given);
    free(folder);
    errno = cause;
    return found;
}

static const char *const endings[] = { LEDGER_LOCK, LEDGER_OLD, LEDGER_OLD_NEW, LEDGER_NEW,
                                       LEDGER_LOG };
enum { ENDINGS = sizeof endings / sizeof *endings };

/* Whether the name leaves room for those of the files beside the ledger, and is none of them. */
static bool is_free_name(struct ledger *ledger)
{
    enum { NAME_MOST = 255 }; /* of all usual file systems */
    const char *name = strrchr(ledger->real, '/') + 1;
    size_t length = strlen(name);
    for (size_t k = 0; k < ENDINGS; k++) {
        size_t more = strlen(endings[k]);
        if (length > more && strcmp(name + length - more, endings[k]) == 0)
            ledger_bar(ledger, "files beside a ledger have such names (.lock, .old, .old-new, "
                               ".new, .log); copy it to a name of its own, or begin under another");
        if (length + more > NAME_MOST)
            ledger_bar(ledger, "the name is too long for the files that stand beside it; take a "
                               "shorter one");
    }
    return ledger->why == NULL;
}

/* Finds a ledger that is not there yet. */
static int find_absent(struct ledger *ledger)
{
    struct stat status;
    if (errno != ENOENT)
        return -1;
    if (lstat(ledger->path, &status) == 0)
        return ledger_bar(ledger, "it is a link that points at nothing; begin a new ledger under "
                                  "its own name, not through a link");
    ledger->real = find_new(ledger->path);
    if (ledger->real == NULL && errno == ENOENT)
        return ledger_bar(ledger, "there is no such folder, or no name is given");
    return ledger->real != NULL && is_free_name(ledger) ? 0 : -1;
}

int ledger_find(struct ledger *ledger)
{
    struct stat status;
    ledger->why = NULL;
    ledger->real = realpath(ledger->path, NULL);
    if (ledger->real == NULL)
        return find_absent(ledger);
    if (stat(ledger->real, &status) != 0)
        return -1;
    return disk_is_plain(ledger, &status) && is_free_name(ledger) ? 0 : -1;
}

bool ledger_is_beside(const struct ledger *ledger, const char *path)
{
    struct stat given, beside;
    bool found = false;
    for (size_t k = 0; k < ENDINGS && stat(path, &given) == 0; k++) {
        char *name = ledger_beside(ledger, endings[k]);
        found = found || (name != NULL && stat(name, &beside) == 0
                          && given.st_dev == beside.st_dev && given.st_ino == beside.st_ino);
        free(name);
    }
    return found;
}

/* ---- The lock ---- */

static bool may_write(const char *path)
{
    return faccessat(AT_FDCWD, path, W_OK, AT_EACCESS) == 0 || errno == ENOENT;
}

/* Why file or folder cannot be written; null if they can. */
static const char *what_bars(const struct ledger *ledger)
{
    char *folder = strdup(ledger->real);
    if (folder == NULL)
        return "there is no memory";
    strrchr(folder, '/')[1] = '\0';
    bool writable = may_write(folder);
    free(folder);
    if (!writable)
        return "its folder cannot be written";
    return may_write(ledger->real) ? NULL : "the file may not be written";
}

/* Those who may write the ledger may take its lock. */
static void share_lock(const struct ledger *ledger, int file)
{
    struct stat standing;
    if (stat(ledger->real, &standing) == 0 && fchown(file, (uid_t)-1, standing.st_gid) == 0)
        (void)fchmod(file, standing.st_mode & 0666);
}

bool disk_has_lock(const struct ledger *ledger)
{
    struct stat lock;
    char *path = ledger_beside(ledger, LEDGER_LOCK);
    bool found = path != NULL && lstat(path, &lock) == 0;
    free(path);
    return found && lock.st_dev == ledger->lock_device && lock.st_ino == ledger->lock_number;
}

/* Takes the open lock file: 0 or -1. It stays open, and so stays what it is. */
static int take_lock(struct ledger *ledger, int file)
{
    struct flock lock = { .l_type = F_WRLCK, .l_whence = SEEK_SET };
    struct stat status;
    if (fstat(file, &status) != 0)
        return -1;
    if (!S_ISREG(status.st_mode))
        return ledger_bar(ledger, "its lock file is no plain file; move it away");
    ledger->lock_device = status.st_dev;
    ledger->lock_number = status.st_ino;
    bool taken = fcntl(file, F_SETLK, &lock) != 0;
    if (taken && errno != EAGAIN && errno != EACCES)
        return -1;
    /* It may have been removed meanwhile, and another office have made a new one. */
    taken = taken || !disk_has_lock(ledger);
    return taken ? ledger_bar(ledger, "another office has it open") : 0;
}

int ledger_take(struct ledger *ledger)
{
    ledger->why = NULL;
    ledger->read_only = what_bars(ledger);
    if (ledger->read_only != NULL)
        return 0;
    char *path = ledger_beside(ledger, LEDGER_LOCK);
    if (path == NULL)
        return -1;
    int file = open(path, O_RDWR | O_CREAT | O_NOFOLLOW | O_NONBLOCK | O_CLOEXEC, 0666);
    int cause = file < 0 ? errno : 0;
    free(path);
    errno = cause;
    if (cause == EACCES || cause == EROFS || cause == EPERM) {
        ledger->read_only = "its lock file cannot be written";
        return 0;
    }
    if (cause == ELOOP)
        return ledger_bar(ledger, "its lock file is a link; move it away");
    if (file < 0)
        return ledger_bar_folder(ledger);
    share_lock(ledger, file);
    if (take_lock(ledger, file) == 0)
        return 0;
    cause = errno;
    close(file);
    errno = cause;
    return -1;
}

void ledger_free(struct ledger *ledger)
{
    free(ledger->real);
    free(ledger->standing.bytes);
}
