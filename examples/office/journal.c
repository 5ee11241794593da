/*
 * The log: a line for each posting, in a file beside the ledger that is only added to. A line is
 * written after the save, so that the log has no posting that the ledger did not take. If the
 * office is ended between the two, or the line cannot be written, the ledger has taken a posting
 * that the log has not. The ledger is what counts.
 */
#include "office.h"

#include <errno.h>
#include <fcntl.h>
#include <inttypes.h>
#include <stdio.h>
#include <stdlib.h>
#include <string.h>
#include <sys/stat.h>
#include <time.h>
#include <unistd.h>

/* The longest line is far shorter. */
enum { LINE_BYTES = 256, TIME_BYTES = 64 };

/* What ends a line that a crash has cut, so that it is not taken for a whole one. */
static const char cut_off[] = " (cut off)\n";

/* ---- The file ---- */

/* For what is no plain file, such as a folder or a pipe. */
enum { NOT_PLAIN = EISDIR };

/* Opens the log, and does not wait for anybody as on a pipe: -1 and errno if it cannot be used. */
static int open_plain(const char *path, int flags)
{
    struct stat log;
    int file = open(path, flags | O_CLOEXEC | O_NOFOLLOW | O_NONBLOCK, 0600);
    if (file < 0 || (fstat(file, &log) == 0 && S_ISREG(log.st_mode)))
        return file;
    close(file);
    errno = NOT_PLAIN;
    return -1;
}

static const char *cause_words(void)
{
    switch (errno) {
    case ELOOP:
        return "it is a link to another file";
    case NOT_PLAIN:
        return "it is not a plain file";
    default:
        return strerror(errno);
    }
}

/* ---- Writing ---- */

/* The time in UTC. Tests set it: ROZHINAL_LOG_TIME has the seconds since 1970. */
static void write_time(char text[TIME_BYTES])
{
    const char *set = getenv("ROZHINAL_LOG_TIME");
    time_t now = set != NULL && is_digits(set) ? (time_t)strtoll(set, NULL, 10) : time(NULL);
    struct tm parts;
    if (gmtime_r(&now, &parts) == NULL
        || strftime(text, TIME_BYTES, "%Y-%m-%dT%H:%M:%SZ", &parts) == 0)
        strcpy(text, "?");
}

/* Those who may read and write the ledger may do so with a new log. */
static void take_mode(const struct ledger *ledger, int file)
{
    struct stat standing;
    if (stat(ledger->real, &standing) == 0)
        (void)fchmod(file, standing.st_mode & 0666);
}

/* Adds a line to the open log, in one write: 0, or -1 and errno. */
static int add_line(const struct ledger *ledger, int file, const char *line)
{
    struct stat log;
    char last = '\n', bytes[sizeof cut_off + LINE_BYTES + 1];
    if (fstat(file, &log) != 0)
        return -1;
    if (log.st_size == 0)
        take_mode(ledger, file);
    else if (pread(file, &last, 1, log.st_size - 1) != 1)
        return -1;
    snprintf(bytes, sizeof bytes, "%s%s\n", last == '\n' ? "" : cut_off, line);
    size_t length = strlen(bytes);
    errno = ENOSPC; /* of a write that is cut short */
    return write(file, bytes, length) == (ssize_t)length && fsync(file) == 0 ? 0 : -1;
}

static void warn_of_log(const char *path)
{
    const char *cause = cause_words();
    fflush(stdout);
    fprintf(stderr, "warning: it is done, but may not be in the log %s: %s\n", path, cause);
}

/* Adds what was done to the log, with its time, or says that it cannot. */
static void add_to_log(const struct ledger *ledger, const char *path, const char *done)
{
    char time_text[TIME_BYTES], line[LINE_BYTES];
    int file = open_plain(path, O_RDWR | O_APPEND | O_CREAT);
    write_time(time_text);
    snprintf(line, sizeof line, "%s %s", time_text, done);
    if (file < 0 || add_line(ledger, file, line) != 0)
        warn_of_log(path);
    if (file >= 0)
        close(file);
}

static void log_posting(const struct ledger *ledger, const char *posting)
{
    char *path = ledger_beside(ledger, LEDGER_LOG);
    if (path != NULL)
        add_to_log(ledger, path, posting);
    else
        warn_of_log("");
    free(path);
}

void log_post(const struct office *office, size_t item)
{
    char name[ITEM_WORD_BYTES], value[ROZHELP_VALUE_BYTES], posting[LINE_BYTES];
    snprintf(posting, sizeof posting, "post %s %s", item_word(office, item, name),
             value_word(record_of(office->ledger.table, item), value));
    log_posting(&office->ledger, posting);
}

void log_swap(const struct office *office, size_t giver, size_t taker, int64_t quantity)
{
    char from[ITEM_WORD_BYTES], to[ITEM_WORD_BYTES], posting[LINE_BYTES];
    snprintf(posting, sizeof posting, "swap %s %s %" PRId64, item_word(office, giver, from),
             item_word(office, taker, to), quantity);
    log_posting(&office->ledger, posting);
}

/* Its postings are not those of the new ledger: who posts them again can see where these begin. */
void log_begun(const struct office *office)
{
    struct stat log;
    char *path = ledger_beside(&office->ledger, LEDGER_LOG);
    if (path != NULL && lstat(path, &log) == 0 && S_ISREG(log.st_mode) && log.st_size > 0)
        add_to_log(&office->ledger, path, "# a new ledger begins");
    free(path);
}

/* ---- Reading ---- */

static FILE *open_log(const char *path)
{
    int file = open_plain(path, O_RDONLY);
    FILE *log = file >= 0 ? fdopen(file, "r") : NULL;
    if (log == NULL && file >= 0)
        close(file);
    return log;
}

/* The lines of the log; one that is cut off counts too. */
static size_t count_lines(FILE *log)
{
    size_t lines = 0;
    int c, before = '\n';
    for (; (c = getc(log)) != EOF; before = c)
        lines += before == '\n';
    rewind(log);
    return lines;
}

/* Shows the lines after the first so many. What is not printable is not sent to the screen. */
static void show_lines(FILE *log, size_t passed_over)
{
    int c, before = '\n';
    for (; (c = getc(log)) != EOF; before = c) {
        if (passed_over == 0)
            putchar(c == '\n' || (c >= ' ' && c <= '~') ? c : '?');
        else
            passed_over -= c == '\n';
    }
    if (before != '\n')
        fputs(cut_off, stdout);
}

/* Shows the last lines of the log, at most so many: 0, or -1 and errno. */
static int show_last(const char *path, size_t most)
{
    FILE *log = open_log(path);
    if (log == NULL)
        return -1;
    errno = 0;
    size_t lines = count_lines(log);
    if (errno == 0)
        show_lines(log, lines > most ? lines - most : 0);
    int cause = errno;
    fclose(log);
    errno = cause;
    return cause == 0 ? 0 : -1;
}

bool show_log(const struct office *office, const char *lines)
{
    size_t most = SIZE_MAX;
    if (lines != NULL && !read_count(lines, LOG_LINES_MOST, &most))
        return false;
    char *path = ledger_beside(&office->ledger, LEDGER_LOG);
    bool shown = path != NULL && show_last(path, most) == 0;
    if (!shown && path != NULL && errno == ENOENT) {
        puts("nothing is logged yet: each post and swap adds a line");
        shown = true;
    } else if (!shown) {
        printf("not done: %s: %s\n", path != NULL ? path : "the log", cause_words());
    }
    free(path);
    return shown;
}
