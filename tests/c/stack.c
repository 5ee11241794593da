/*
 * How much stack each function takes, on sheets of the most levels: a line for each function, a
 * column for each number of items, on both sides of the sizes for which there is scratch.
 *
 * A function runs in a thread on a stack of known bytes; those that have changed afterwards were
 * used. What a thread takes that does nothing is subtracted. More than ROZHINAL_STACK_BYTES_FOR the
 * items is a fault, also of a sheet that is refused.
 */
#include "rozhinal.h"

#include <pthread.h>
#include <stdio.h>
#include <stdlib.h>
#include <string.h>

enum { LEVELS = ROZHINAL_MAX_LEVEL, PARENTS = ROZHINAL_MAX_PARENTS };
enum { STACK = 1 << 20, PAINT = 0xA5 };

static uint8_t sheet[ROZHINAL_MAX_SHEET_BYTES(ROZHINAL_MAX_ITEMS)];
static uint8_t idx[ROZHINAL_INDEX_BYTES(ROZHINAL_MAX_ITEMS)];
static uint8_t table[ROZHINAL_TABLE_BYTES(ROZHINAL_MAX_ITEMS)];
static size_t sheet_len, items, entries; /* at least two of them are entries */

#define LENT                                                                                     \
    sheet, sheet_len, idx, ROZHINAL_INDEX_BYTES(items), table, ROZHINAL_TABLE_BYTES(items)

static void put(size_t byte)
{
    sheet[sheet_len++] = (uint8_t)byte;
}

static void put_two(size_t number)
{
    put(number & 0xFF);
    put(number >> 8);
}

/*
 * Figures in 64 rows; each lists 16 items of the row before it, some twice. The last one lists item 0
 * too, so that telling item 0 works it out through all rows.
 */
static void make_sheet(size_t count, unsigned keep, unsigned spread)
{
    size_t width = (count - 2) / LEVELS;
    items = count;
    entries = count - LEVELS * width;
    sheet_len = 0;
    put(ROZHINAL_TAG_HEAD), put_two(4), put_two(ROZHINAL_EDITION_FOR(count)), put_two(count);
    for (size_t i = 0; i < entries; i++)
        put(ROZHINAL_TAG_ENTRY), put_two(1), put('E');
    for (size_t i = entries; i < count; i++) {
        size_t first = i - entries < width ? 0 : i - width - (i - entries) % width;
        size_t row = first == 0 ? entries : width;
        put(ROZHINAL_TAG_FIGURE), put_two(4 + 2 * PARENTS + 1);
        put(ROZHINAL_SUM), put(keep), put(spread), put(PARENTS);
        for (size_t k = 0; k < PARENTS; k++)
            put_two(i == count - 1 && k == 0 ? 0 : first + k % row);
        put('F');
    }
    put(ROZHINAL_TAG_END), put_two(0);
}

static uint64_t number;
static int64_t posted; /* another value each time */

static void nothing(void) { number = 0; }
static void open_bare(void) { number = rozhinal_open_bare(LENT).number; }
static void open_full(void) { number = rozhinal_open_full(LENT).number; }
static void post(void) { number = rozhinal_post(LENT, 0, ROZHINAL_NUMBER, ++posted).number; }
static void swap(void) { number = rozhinal_swap(LENT, 0, entries - 1, 1).number; }
static void keep(void) { number = rozhinal_keep(LENT, items - 1).number; }
static void drop(void) { number = rozhinal_drop(LENT, items - 1).number; }
static void step(void) { number = rozhinal_step(LENT, 0).number; }
static void ask(void) { number = rozhinal_ask(LENT, items - 1).number; }
static void close_run(void) { number = rozhinal_close(LENT).number; }

/* The last items, the highest first. */
static void board(void)
{
    static uint8_t listed[2 * 64], results[9 * 64];
    for (size_t k = 0; k < 64; k++) {
        listed[2 * k] = (uint8_t)((items - 1 - k) & 0xFF);
        listed[2 * k + 1] = (uint8_t)((items - 1 - k) >> 8);
    }
    number = rozhinal_board(LENT, listed, sizeof listed, results, sizeof results).number;
}

static void print(void)
{
    uint8_t scratch[ROZHINAL_PRINT_BYTES];
    number = rozhinal_print(ROZHINAL_NUMBER, -ROZHINAL_LIMIT, scratch, sizeof scratch) < 0;
}

static void *run(void *call)
{
    (*(void (**)(void))call)();
    return NULL;
}

/* The bytes of stack that a thread takes which makes the call. */
static size_t stack_of(void (*call)(void))
{
    uint8_t *stack = aligned_alloc(4096, STACK);
    pthread_attr_t attributes;
    pthread_t thread;
    if (stack == NULL)
        exit(1);
    memset(stack, PAINT, STACK);
    if (pthread_attr_init(&attributes) != 0
        || pthread_attr_setstack(&attributes, stack, STACK) != 0
        || pthread_create(&thread, &attributes, run, &call) != 0
        || pthread_join(thread, NULL) != 0) {
        puts("no thread");
        exit(1);
    }
    pthread_attr_destroy(&attributes);
    size_t unused = 0;
    while (unused < STACK && stack[unused] == PAINT)
        unused++;
    free(stack);
    return STACK - unused;
}

enum function { OPENINGS, POST, SWAP, KEEP, DROP, STEP, ASK, BOARD, CLOSE, PRINT, FUNCTIONS };
static const char *const names[FUNCTIONS] = { "openings", "post", "swap", "keep", "drop",
                                              "step", "ask", "board", "close", "print" };

static const struct {
    enum function function;
    void (*call)(void);
} calls[] = {
    { OPENINGS, open_bare }, { POST, post },   { KEEP, keep }, { DROP, drop },
    { STEP, step },          { KEEP, keep },   { POST, post }, { STEP, step },
    { POST, post },          { ASK, ask },     { DROP, drop }, { POST, post },
    { ASK, ask },            { DROP, drop },   { POST, post }, { BOARD, board },
    { DROP, drop },          { BOARD, board }, { OPENINGS, open_full },
    { POST, post },          { STEP, step },   { ASK, ask },   { POST, post },
    { BOARD, board },        { OPENINGS, open_bare },          { KEEP, keep },
    { POST, post },          { BOARD, board }, { POST, post }, { CLOSE, close_run },
    { DROP, drop },          { POST, post },   { STEP, step }, { CLOSE, close_run },
    { OPENINGS, open_bare }, { CLOSE, close_run },             { SWAP, swap },
    { ASK, ask },            { SWAP, swap },   { OPENINGS, open_full },
    { SWAP, swap },          { STEP, step },   { PRINT, print },
};
enum { CALLS = sizeof calls / sizeof *calls };

static const size_t sizes[] = { 127, 128, 129, 1024, 1025, 4096 };
enum { SIZES = sizeof sizes / sizeof *sizes };
static size_t idle, most[FUNCTIONS + 1][SIZES]; /* the last for all of them */

static size_t used_by(void (*call)(void))
{
    size_t used = stack_of(call);
    return used > idle ? used - idle : 0;
}

/* Makes every call; ends the program if one is refused. */
static void measure(size_t size)
{
    for (size_t k = 0; k < CALLS; k++) {
        enum function function = calls[k].function;
        size_t used = used_by(calls[k].call);
        if (number != ROZHINAL_ACCEPTED) {
            printf("%s: refused with %d\n", names[function], (int)number);
            exit(1);
        }
        if (used > most[function][size])
            most[function][size] = used;
        if (used > most[FUNCTIONS][size])
            most[FUNCTIONS][size] = used;
    }
}

static void show(const char *name, const size_t *row)
{
    printf("%-9s", name);
    for (size_t k = 0; k < SIZES; k++)
        printf(" %8zu", row[k]);
    putchar('\n');
}

/* Whether every call on the sheet is refused, within the stack for the items that it states. */
static int is_refused_within(void)
{
    static void (*const refused[])(void) = { open_bare, open_full, post, swap, keep, drop,
                                             step, ask, board, close_run };
    size_t stated = rozhinal_item_count(sheet, sheet_len);
    for (size_t k = 0; k < sizeof refused / sizeof *refused; k++) {
        size_t used = used_by(refused[k]);
        if (number == ROZHINAL_ACCEPTED || used > ROZHINAL_STACK_BYTES_FOR(stated)) {
            printf("a sheet of %zu bytes that states edition %u and %zu items: %d, %zu bytes\n",
                   sheet_len, rozhinal_edition(sheet, sheet_len), stated, (int)number, used);
            return 0;
        }
    }
    return 1;
}

/* A whole sheet whose head states another edition or count; then the head alone, and a part of it. */
static int is_within(unsigned edition, size_t count)
{
    int right;
    make_sheet(ROZHINAL_MAX_ITEMS, 1, 0);
    size_t whole = sheet_len;
    sheet_len = 3;
    put_two(edition), put_two(count);
    sheet_len = whole - 1;
    right = is_refused_within();
    sheet_len = 7;
    right &= is_refused_within();
    sheet[0] = ROZHINAL_TAG_END;
    right &= is_refused_within();
    sheet[0] = ROZHINAL_TAG_HEAD;
    sheet_len = 6;
    return right & is_refused_within();
}

int main(void)
{
    static size_t allowed[SIZES];
    int right = 1;
    idle = stack_of(nothing);
    for (size_t size = 0; size < SIZES; size++) {
        for (unsigned kind = 0; kind < 4; kind++) { /* of keep and spread */
            make_sheet(sizes[size], kind % 2, kind / 2);
            measure(size);
        }
        allowed[size] = ROZHINAL_STACK_BYTES_FOR(sizes[size]);
        if (most[FUNCTIONS][size] > allowed[size])
            right = 0;
    }
    show("items", sizes);
    for (size_t k = 0; k < FUNCTIONS; k++)
        show(names[k], most[k]);
    show("at most", most[FUNCTIONS]);
    show("allowed", allowed);
    if (!right)
        puts("more than ROZHINAL_STACK_BYTES_FOR the items");
    for (unsigned edition = 1; edition <= 3; edition++)
        for (size_t size = 0; size < SIZES; size++)
            right &= is_within(edition, sizes[size]);
    right &= is_within(1, 0) & is_within(2, 0) & is_within(2, 4097) & is_within(2, 65535);
    return right ? 0 : 1;
}
