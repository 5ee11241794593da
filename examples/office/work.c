/* Catching up: `work` steps marked items until none is left. */
#include "office.h"

#include <errno.h>
#include <signal.h>
#include <stdio.h>
#include <string.h>

/* While the office works, Ctrl-C is blocked: it is looked for between two steps. */
struct interrupts {
    sigset_t blocked, before;
    bool ignored; /* as it was when the office was started, and stays */
};

static void block_interrupts(struct interrupts *interrupts)
{
    struct sigaction action;
    sigaction(SIGINT, NULL, &action);
    interrupts->ignored = action.sa_handler == SIG_IGN;
    sigemptyset(&interrupts->blocked);
    sigaddset(&interrupts->blocked, SIGINT);
    sigprocmask(SIG_BLOCK, &interrupts->blocked, &interrupts->before);
}

static void unblock_interrupts(const struct interrupts *interrupts)
{
    sigprocmask(SIG_SETMASK, &interrupts->before, NULL);
}

/* Whether Ctrl-C has come since the last look. */
static bool is_interrupted(const struct interrupts *interrupts)
{
    sigset_t pending;
    int taken;
    sigpending(&pending);
    return !interrupts->ignored && sigismember(&pending, SIGINT) == 1
           && sigwait(&interrupts->blocked, &taken) == 0;
}

/* The line of counts that `work` shows; it goes on below at the end of the columns. */
enum { PROGRESS_COLUMNS = 72 };
static const char progress_word[] = "marked:";
struct progress {
    size_t shown; /* the count shown last */
    int column;   /* where the line stands, 0 if it is ended */
};

/* Ends the line before something else is shown. errno stays as it is. */
static void end_line(struct progress *progress)
{
    int cause = errno;
    if (progress->column > 0)
        putchar('\n');
    progress->column = 0;
    errno = cause;
}

static void show_count(struct progress *progress, size_t marked)
{
    int width = snprintf(NULL, 0, " %zu", marked);
    if (progress->column > PROGRESS_COLUMNS - width)
        end_line(progress);
    if (progress->column == 0)
        progress->column = printf("%*s", (int)strlen(progress_word), "");
    progress->column += printf(" %zu", marked);
    progress->shown = marked;
    fflush(stdout);
}

static bool is_marked(const struct office *office, size_t i)
{
    return record_of(office->ledger.table, i)[MARK_AT] != ROZHINAL_MARK_NONE;
}

static size_t count_marked(const struct office *office)
{
    size_t marked = 0;
    for (size_t i = 0; i < office->count; i++)
        marked += is_marked(office, i);
    return marked;
}

/* Steps the first marked item, and sees that this is in the file; false if it is not done. */
static bool step_first(struct office *office, struct progress *progress)
{
    size_t i = 0;
    while (!is_marked(office, i))
        i++;
    rozhinal_answer answer = rozhinal_step(LENT(&office->ledger), i);
    if (answer.number != ROZHINAL_ACCEPTED) {
        end_line(progress);
        return refuse(answer.number);
    }
    int state = put_in_file(office);
    if (state != 0)
        end_line(progress);
    return is_saved(&office->ledger, state);
}

/*
 * Steps the first marked item from the top, in the order of `list`, until none is marked. Such a
 * step marks only the item itself or items below it in the list, and a mark goes from refresh to
 * notice or none, from notice to none: for n items there are at most 2n steps. Each is in the file
 * before its count is shown, so that nothing is lost if the office is ended.
 */
bool work(struct office *office)
{
    struct interrupts interrupts;
    block_interrupts(&interrupts);
    struct progress progress = { 0, 0 };
    size_t marked = count_marked(office);
    bool interrupted = is_interrupted(&interrupts);
    progress.column = printf("%s", progress_word);
    show_count(&progress, marked);
    while (marked > 0 && !interrupted && step_first(office, &progress)) {
        marked = count_marked(office);
        if (marked != progress.shown)
            show_count(&progress, marked);
        interrupted = is_interrupted(&interrupts);
    }
    end_line(&progress);
    if (marked > 0)
        printf("stopped: %zu %s still marked; %swork goes on from here\n", marked,
               marked == 1 ? "item is" : "items are",
               interrupted ? "asks are right all the same, and " : "");
    unblock_interrupts(&interrupts);
    return marked == 0 || interrupted;
}
