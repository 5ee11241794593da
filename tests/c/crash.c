/*
 * Stands between a program and the disk, as a library that is loaded before the others. Calls of
 * write, fsync and rename are counted from 1, or calls of close if ROZHINAL_CLOSES is set. What the
 * one with the number ROZHINAL_AT does is told by another name that is set:
 *
 *     none                 it fails; of a write the first half is done, and a close is done
 *     ROZHINAL_ENDS        it ends the program in its midst: of a write the first half is done
 *     ROZHINAL_HALVES      a write does its first half, and says so
 *     ROZHINAL_BREAKS      a signal comes before a write or an fsync has done anything (EINTR)
 *     ROZHINAL_INTERRUPTS  Ctrl-C comes, and the call is then made as any other. At the start it
 *                          ends the program, or does nothing if this is `ignored`, whatever it
 *                          does where the program is started from
 *
 * ROZHINAL_TELLS names a file that is told each call of write, fsync and rename, and on what.
 * ROZHINAL_LOCK is EPERM, EROFS or EIO: no file whose name ends with .lock can be opened, for that.
 */
#define _GNU_SOURCE
#include <dlfcn.h>
#include <errno.h>
#include <fcntl.h>
#include <signal.h>
#include <stdarg.h>
#include <stdio.h>
#include <stdlib.h>
#include <string.h>
#include <unistd.h>

__attribute__((constructor)) static void set_interrupt(void)
{
    const char *interrupts = getenv("ROZHINAL_INTERRUPTS");
    if (interrupts != NULL)
        signal(SIGINT, strcmp(interrupts, "ignored") == 0 ? SIG_IGN : SIG_DFL);
}

/* Whether it is the turn of a call, which is a close or another. */
static int is_hit(int is_close)
{
    static long made;
    const char *at = getenv("ROZHINAL_AT");
    if (at == NULL || is_close != (getenv("ROZHINAL_CLOSES") != NULL)
        || ++made != strtol(at, NULL, 10))
        return 0;
    if (getenv("ROZHINAL_INTERRUPTS") == NULL)
        return 1;
    raise(SIGINT);
    return 0;
}

/* A path without its folders. */
static const char *name_of(const char *path)
{
    const char *slash = strrchr(path, '/');
    return slash != NULL ? slash + 1 : path;
}

static void tell(const char *call, const char *path, const char *other)
{
    const char *told = getenv("ROZHINAL_TELLS");
    FILE *file = told != NULL ? fopen(told, "a") : NULL;
    if (file == NULL)
        return;
    fprintf(file, "%s %s%s%s\n", call, name_of(path), *other != '\0' ? " " : "", name_of(other));
    fclose(file);
}

static void tell_file(const char *call, int file)
{
    char link[40], path[4096];
    snprintf(link, sizeof link, "/proc/self/fd/%d", file);
    ssize_t length = readlink(link, path, sizeof path - 1);
    path[length < 0 ? 0 : length] = '\0';
    tell(call, path, "");
}

static int hit(void)
{
    if (getenv("ROZHINAL_ENDS") != NULL)
        _exit(77);
    errno = EIO;
    return -1;
}

ssize_t write(int file, const void *bytes, size_t length)
{
    ssize_t (*real)(int, const void *, size_t) = dlsym(RTLD_NEXT, "write");
    tell_file("write", file);
    if (!is_hit(0))
        return real(file, bytes, length);
    if (getenv("ROZHINAL_BREAKS") != NULL) {
        errno = EINTR;
        return -1;
    }
    ssize_t written = real(file, bytes, length / 2);
    return getenv("ROZHINAL_HALVES") != NULL ? written : hit();
}

int fsync(int file)
{
    int (*real)(int) = dlsym(RTLD_NEXT, "fsync");
    tell_file("fsync", file);
    if (!is_hit(0) || getenv("ROZHINAL_HALVES") != NULL)
        return real(file);
    if (getenv("ROZHINAL_BREAKS") == NULL)
        return hit();
    errno = EINTR;
    return -1;
}

int rename(const char *from, const char *to)
{
    int (*real)(const char *, const char *) = dlsym(RTLD_NEXT, "rename");
    int as_any = getenv("ROZHINAL_HALVES") != NULL || getenv("ROZHINAL_BREAKS") != NULL;
    tell("rename", from, to);
    return is_hit(0) && !as_any ? hit() : real(from, to);
}

int close(int file)
{
    int (*real)(int) = dlsym(RTLD_NEXT, "close");
    int failed = is_hit(1);
    int closed = real(file);
    return failed ? hit() : closed;
}

static int lock_fault(const char *path)
{
    const char *fault = getenv("ROZHINAL_LOCK");
    size_t length = strlen(path);
    if (fault == NULL || length < 5 || strcmp(path + length - 5, ".lock") != 0)
        return 0;
    return strcmp(fault, "EPERM") == 0 ? EPERM : strcmp(fault, "EROFS") == 0 ? EROFS : EIO;
}

int open(const char *path, int flags, ...)
{
    int (*real)(const char *, int, ...) = dlsym(RTLD_NEXT, "open");
    va_list more;
    va_start(more, flags);
    mode_t mode = flags & O_CREAT ? va_arg(more, mode_t) : 0;
    va_end(more);
    errno = lock_fault(path);
    return errno != 0 ? -1 : real(path, flags, mode);
}
