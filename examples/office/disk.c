#include "disk.h"

#include "../file.h"

#include <errno.h>
#include <fcntl.h>
#include <stdio.h>
#include <stdlib.h>
#include <string.h>
#include <unistd.h>

/* ---- Reading ---- */

bool disk_is_plain(struct ledger *ledger, const struct stat *status)
{
    if (!S_ISREG(status->st_mode))
        ledger_bar(ledger, "it is no plain file, but a folder, a device or a pipe");
    return S_ISREG(status->st_mode);
}

/* Whether an open file is a plain one with one name; gives whose it is and who may use it. */
static bool is_sole(struct ledger *ledger, int file, struct ledger_file *found)
{
    struct stat status;
    if (fstat(file, &status) != 0 || !disk_is_plain(ledger, &status))
        return false;
    found->mode = status.st_mode & 0777;
    found->owner = status.st_uid;
    found->group = status.st_gid;
    if (status.st_nlink > 1)
        ledger_bar(ledger, "the file has other names too (hard links), which a save would leave "
                           "behind; remove them, or copy the file to a name of its own");
    return status.st_nlink <= 1;
}

int disk_read(struct ledger *ledger, size_t most, struct ledger_file *found)
{
    *found = (struct ledger_file){ .bytes = NULL };
    ledger->why = NULL;
    /* A link is not followed, and a pipe not waited for: neither was there when it was found. */
    int file = open(ledger->real, O_RDONLY | O_NOFOLLOW | O_NONBLOCK | O_CLOEXEC);
    if (file < 0)
        return errno == ENOENT ? 0 : -1;
    FILE *stream = fdopen(file, "rb");
    if (stream != NULL && is_sole(ledger, file, found))
        found->bytes = read_open_file(stream, most, &found->length);
    int cause = errno;
    if (stream != NULL)
        fclose(stream);
    else
        close(file);
    errno = cause;
    return found->bytes != NULL ? 0 : -1;
}

/* ---- Writing ---- */

static int write_all(int file, const uint8_t *bytes, size_t length)
{
    while (length > 0) {
        ssize_t written = write(file, bytes, length);
        if (written < 0 && errno == EINTR)
            continue;
        if (written <= 0)
            return -1;
        bytes += written;
        length -= (size_t)written;
    }
    return 0;
}

static int sync_file(int file)
{
    int synced;
    do
        synced = fsync(file);
    while (synced != 0 && errno == EINTR);
    return synced;
}

/*
 * Closes a file after work on it, which may have failed; 0 if neither did. errno is that of the
 * first. What was synced is on the disk, whether or not a signal comes at its close.
 */
static int close_after(int file, bool failed)
{
    int cause = errno;
    if (close(file) != 0 && errno != EINTR && !failed)
        return -1;
    errno = cause;
    return failed ? -1 : 0;
}

/* Gives a file to those who have the standing one, as far as this process may, and its mode. */
static int keep_owner(int file, const struct ledger_file *standing)
{
    if (fchown(file, standing->owner, standing->group) != 0
        && fchown(file, (uid_t)-1, standing->group) != 0)
        errno = 0; /* it is this process's own, then */
    return fchmod(file, standing->mode);
}

/*
 * Writes a file with the owner and the mode of the standing one, and sees that it is on the disk.
 * What has the name goes first: what a crash left, or a link, which is not written through.
 */
static int write_file(const char *path, const struct ledger_file *standing,
                      const struct ledger_file *written)
{
    bool stands = standing->bytes != NULL;
    if (unlink(path) != 0 && errno != ENOENT)
        return -1;
    int file = open(path, O_WRONLY | O_CREAT | O_EXCL | O_NOFOLLOW | O_CLOEXEC,
                    stands ? standing->mode : 0666);
    if (file < 0)
        return -1;
    bool failed = (stands && keep_owner(file, standing) != 0)
                  || write_all(file, written->bytes, written->length) != 0 || sync_file(file) != 0;
    return close_after(file, failed);
}

/* Sees that the folder of the path is on the disk, with the names in it. */
static int sync_folder(const char *path)
{
    char *folder = strdup(path);
    if (folder == NULL)
        return -1;
    char *slash = strrchr(folder, '/');
    slash[slash == folder ? 1 : 0] = '\0';
    int file = open(folder, O_RDONLY | O_CLOEXEC);
    int cause = errno;
    free(folder);
    errno = cause;
    return file < 0 ? -1 : close_after(file, sync_file(file) != 0);
}

/* The files beside the ledger that a save writes. */
enum { OLD, OLD_NEW, NEW, BESIDE };
static const char *const endings[BESIDE] = { LEDGER_OLD, LEDGER_OLD_NEW, LEDGER_NEW };

static bool write_both(char *const *paths, const struct ledger_file *old,
                       const struct ledger_file *new)
{
    return (old->bytes == NULL || write_file(paths[OLD_NEW], old, old) == 0)
           && write_file(paths[NEW], old, new) == 0;
}

static bool rename_both(const char *real, char *const *paths, const struct ledger_file *old)
{
    return (old->bytes == NULL || rename(paths[OLD_NEW], paths[OLD]) == 0)
           && rename(paths[NEW], real) == 0;
}

/* As ledger_save, with the paths of the files beside the ledger. */
static int replace_by(struct ledger *ledger, char *const *paths, const struct ledger_file *old,
                      const struct ledger_file *new)
{
    if (write_both(paths, old, new) && rename_both(ledger->real, paths, old))
        return sync_folder(ledger->real) == 0 ? 0 : 1;
    int cause = errno;
    unlink(paths[OLD_NEW]);
    unlink(paths[NEW]);
    errno = cause;
    return ledger_bar_folder(ledger);
}

int disk_replace(struct ledger *ledger, const struct ledger_file *old,
                 const struct ledger_file *new)
{
    char *paths[BESIDE];
    bool reserved = true;
    for (size_t k = 0; k < BESIDE; k++) {
        paths[k] = ledger_beside(ledger, endings[k]);
        reserved = reserved && paths[k] != NULL;
    }
    int state = reserved ? replace_by(ledger, paths, old, new) : -1;
    int cause = errno;
    for (size_t k = 0; k < BESIDE; k++)
        free(paths[k]);
    errno = cause;
    return state;
}
