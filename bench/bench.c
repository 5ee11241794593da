/*
 * The workloads of the benchmark. Each call is made to the library and to the plain C version, on
 * the same bytes; the answers and every byte afterwards must agree. The calls that a workload is
 * about are counted by callgrind, one dump for each of the two: bench/run starts it and reads the
 * dumps.
 */
#include "plain.h"
#include "rozhinal.h"
#include "sheets.h"

#include <stdio.h>
#include <stdlib.h>
#include <string.h>
#include <valgrind/callgrind.h>

enum call_kind { OPEN_BARE, OPEN_FULL, POST, SWAP, KEEP, DROP, STEP, ASK, BOARD, CLOSE, PRINT };
enum { BOARD_ITEMS = ROZHINAL_MAX_BOARD };

struct call {
    enum call_kind kind;
    uint64_t item;   /* of a swap the giver */
    uint64_t posted; /* the kind that is posted or printed; of a swap the taker */
    int64_t number;  /* of a swap the quantity */
};

/* One of the two, with its own copies of what is lent. */
struct side {
    const char *name;
    rozhinal_answer (*open_bare)(const uint8_t *, size_t, uint8_t *, size_t, uint8_t *, size_t);
    rozhinal_answer (*open_full)(const uint8_t *, size_t, uint8_t *, size_t, uint8_t *, size_t);
    rozhinal_answer (*post)(const uint8_t *, size_t, const uint8_t *, size_t, uint8_t *, size_t,
                            uint64_t, uint64_t, int64_t);
    rozhinal_answer (*swap)(const uint8_t *, size_t, const uint8_t *, size_t, uint8_t *, size_t,
                            uint64_t, uint64_t, int64_t);
    rozhinal_answer (*keep)(const uint8_t *, size_t, const uint8_t *, size_t, uint8_t *, size_t,
                            uint64_t);
    rozhinal_answer (*drop)(const uint8_t *, size_t, const uint8_t *, size_t, uint8_t *, size_t,
                            uint64_t);
    rozhinal_answer (*step)(const uint8_t *, size_t, const uint8_t *, size_t, uint8_t *, size_t,
                            uint64_t);
    rozhinal_reading (*ask)(const uint8_t *, size_t, const uint8_t *, size_t, uint8_t *, size_t,
                            uint64_t);
    rozhinal_answer (*board)(const uint8_t *, size_t, const uint8_t *, size_t, uint8_t *, size_t,
                             const uint8_t *, size_t, uint8_t *, size_t);
    rozhinal_answer (*close)(const uint8_t *, size_t, const uint8_t *, size_t, uint8_t *, size_t);
    int64_t (*print)(uint64_t, int64_t, uint8_t *, size_t);
    uint8_t idx[ROZHINAL_INDEX_BYTES(ROZHINAL_MAX_ITEMS)];
    uint8_t table[ROZHINAL_TABLE_BYTES(ROZHINAL_MAX_ITEMS)];
    uint8_t results[ROZHINAL_RESULTS_BYTES(BOARD_ITEMS)];
    uint8_t scratch[ROZHINAL_PRINT_BYTES];
};

static struct side library = {
    .name = "library",
    .open_bare = rozhinal_open_bare,
    .open_full = rozhinal_open_full,
    .post = rozhinal_post,
    .swap = rozhinal_swap,
    .keep = rozhinal_keep,
    .drop = rozhinal_drop,
    .step = rozhinal_step,
    .ask = rozhinal_ask,
    .board = rozhinal_board,
    .close = rozhinal_close,
    .print = rozhinal_print,
};

static struct side plain = {
    .name = "plain",
    .open_bare = plain_open_bare,
    .open_full = plain_open_full,
    .post = plain_post,
    .swap = plain_swap,
    .keep = plain_keep,
    .drop = plain_drop,
    .step = plain_step,
    .ask = plain_ask,
    .board = plain_board,
    .close = plain_close,
    .print = plain_print,
};

static struct sheet sheet;
static uint8_t board_items[ROZHINAL_ITEMS_BYTES(BOARD_ITEMS)];
static const char *workload = "preparing";
enum { LABEL_BYTES = 128 };

/* Grams posted to one entry, and swapped; a prime, for what all are posted on each of DAYS days. */
enum { POSTED = 4321098, SWAPPED = 1234567, PRIME = 7919003, DAYS = 2 };
enum { RATES_WITHIN = 500 }; /* of the whole, the rates by which amounts at the limit are shared */

/* ---- Calls ----------------------------------------------------------------------------------- */

static void fail(const char *what)
{
    fprintf(stderr, "bench: %s, %zu items: %s\n", workload, sheet.count, what);
    exit(1);
}

static rozhinal_reading reading_of(rozhinal_answer answer)
{
    return (rozhinal_reading){ answer.number, answer.offset, 0, 0 };
}

/* The call itself, and nothing around it, is counted. */
#define COUNTED(call)                                                                            \
    do {                                                                                         \
        CALLGRIND_TOGGLE_COLLECT;                                                                \
        call;                                                                                    \
        CALLGRIND_TOGGLE_COLLECT;                                                                \
    } while (0)

#define LENT                                                                                     \
    sheet.bytes, sheet.length, side->idx, ROZHINAL_INDEX_BYTES(sheet.count), side->table,      \
        ROZHINAL_TABLE_BYTES(sheet.count)

/* A call that gives an answer. */
static rozhinal_answer make_answering(struct side *side, const struct call *call)
{
    rozhinal_answer answer = { 0, 0 };
    switch (call->kind) {
    case OPEN_BARE:
        COUNTED(answer = side->open_bare(LENT));
        break;
    case OPEN_FULL:
        COUNTED(answer = side->open_full(LENT));
        break;
    case POST:
        COUNTED(answer = side->post(LENT, call->item, call->posted, call->number));
        break;
    case SWAP:
        COUNTED(answer = side->swap(LENT, call->item, call->posted, call->number));
        break;
    case KEEP:
        COUNTED(answer = side->keep(LENT, call->item));
        break;
    case DROP:
        COUNTED(answer = side->drop(LENT, call->item));
        break;
    case STEP:
        COUNTED(answer = side->step(LENT, call->item));
        break;
    case BOARD:
        COUNTED(answer = side->board(LENT, board_items, sizeof board_items, side->results,
                                     sizeof side->results));
        break;
    case CLOSE:
        COUNTED(answer = side->close(LENT));
        break;
    default:
        fail("no such call");
    }
    return answer;
}

static rozhinal_reading make_call(struct side *side, const struct call *call)
{
    rozhinal_reading reading = { 0, 0, 0, 0 };
    if (call->kind == ASK)
        COUNTED(reading = side->ask(LENT, call->item));
    else if (call->kind == PRINT)
        COUNTED(reading.value = side->print(call->posted, call->number, side->scratch,
                                            sizeof side->scratch));
    else
        reading = reading_of(make_answering(side, call));
    return reading;
}

/* Both sides have given the same, and have the same bytes. */
static void compare(rozhinal_reading a, rozhinal_reading b)
{
    if (a.number != b.number || a.offset != b.offset || a.kind != b.kind || a.value != b.value)
        fail("another answer");
    if (a.number != ROZHINAL_ACCEPTED)
        fail("refused");
    if (memcmp(library.idx, plain.idx, sizeof plain.idx) != 0)
        fail("another index");
    if (memcmp(library.table, plain.table, sizeof plain.table) != 0)
        fail("another table");
    if (memcmp(library.results, plain.results, sizeof plain.results) != 0)
        fail("other results");
    if (memcmp(library.scratch, plain.scratch, sizeof plain.scratch) != 0)
        fail("other scratch bytes");
}

/* A call that is not counted. */
static rozhinal_reading prepare(struct call call)
{
    rozhinal_reading reading = make_call(&library, &call);
    compare(reading, make_call(&plain, &call));
    return reading;
}

/* Counts calls of one side: a dump with the side, the workload and the items. */
static rozhinal_reading counted(struct side *side, const struct call *calls, size_t how_many)
{
    char label[LABEL_BYTES];
    rozhinal_reading reading = { 0, 0, 0, 0 };
    snprintf(label, sizeof label, "%s|%s|%zu", side->name, workload, sheet.count);
    CALLGRIND_START_INSTRUMENTATION;
    for (size_t k = 0; k < how_many; k++)
        reading = make_call(side, &calls[k]);
    CALLGRIND_STOP_INSTRUMENTATION;
    CALLGRIND_DUMP_STATS_AT(label);
    return reading;
}

/* A workload: the calls together. */
static void count_all(const char *name, const struct call *calls, size_t how_many)
{
    workload = name;
    rozhinal_reading reading = counted(&library, calls, how_many);
    compare(reading, counted(&plain, calls, how_many));
    workload = "preparing";
}

static void count(const char *name, struct call call)
{
    count_all(name, &call, 1);
}

/* ---- States ---------------------------------------------------------------------------------- */

static struct call call_of(enum call_kind kind, size_t item)
{
    return (struct call){ .kind = kind, .item = item };
}

static struct call post_of(size_t item, int64_t number)
{
    return (struct call){ POST, item, ROZHINAL_NUMBER, number };
}

static struct call swap_of(size_t giver, size_t taker, int64_t quantity)
{
    return (struct call){ SWAP, giver, taker, quantity };
}

/* What is posted to an entry on a day: the same in every group. */
static int64_t amount(size_t item, size_t day)
{
    size_t in_group = item % GROUP_ITEMS;
    size_t most = in_group == RATE ? ROZHINAL_WHOLE : MOST_POSTED;
    return (int64_t)((in_group + 1) * (day + 1) * PRIME % most);
}

/* The same for a sheet of shares. */
static int64_t amount_at_limit(size_t item, size_t day)
{
    int64_t less = (int64_t)((item + 1) * (day + 1) * PRIME);
    if (item < RATES)
        return ROZHINAL_WHOLE - less % RATES_WITHIN;
    return item % 2 ? ROZHINAL_LIMIT - less : less - ROZHINAL_LIMIT;
}

_Static_assert(INT64_MAX / (ROZHINAL_WHOLE - RATES_WITHIN)
                   < ROZHINAL_LIMIT - (RATES + SHARED) * DAYS * PRIME,
               "every product is beyond a signed 64-bit number");

/* The same for a sheet of guarded shares: every second rate is above BOUND, each day the others. */
static int64_t amount_guarded(size_t item, size_t day)
{
    int64_t drawn = (int64_t)((item + 1) * (day + 1) * PRIME);
    if (item == BOUND)
        return ROZHINAL_WHOLE;
    if (item < RATES)
        return drawn % ROZHINAL_WHOLE + ((item + day) % 2 ? ROZHINAL_WHOLE + 1 : 0);
    return drawn % MOST_POSTED;
}

static void post_every_entry(int64_t (*amount_of)(size_t, size_t), size_t day)
{
    for (size_t i = 0; i < sheet.count; i++)
        if (is_entry(&sheet, i))
            prepare(post_of(i, amount_of(i, day)));
}

/* Opens, posts every entry and catches up. */
static void settle(enum call_kind opening)
{
    prepare(call_of(opening, 0));
    post_every_entry(amount, 0);
    prepare(call_of(ASK, sheet.top));
}

/* The same half in every group. */
static void keep_half_the_figures(void)
{
    for (size_t i = 0; i < sheet.count; i++)
        if (!is_entry(&sheet, i) && i % GROUP_ITEMS % 2 == 0)
            prepare(call_of(KEEP, i));
}

/* The first item with a mark. */
static size_t marked(enum rozhinal_mark mark)
{
    for (size_t i = 0; i < sheet.count; i++)
        if (library.table[ROZHINAL_RECORD_BYTES * i + 1] == mark)
            return i;
    fail("no such mark");
    return 0;
}

static void one_post_all_stored(size_t groups)
{
    make_ledger(&sheet, groups, 1);
    settle(OPEN_FULL);
    prepare(post_of(0, POSTED));
}

static void one_post_half_stored(size_t groups)
{
    make_ledger(&sheet, groups, 0);
    settle(OPEN_BARE);
    keep_half_the_figures();
    prepare(post_of(0, POSTED));
}

static void one_post_none_stored(size_t groups)
{
    make_ledger(&sheet, groups, 0);
    settle(OPEN_BARE);
    prepare(post_of(0, POSTED));
}

static void every_entry_posted(size_t groups)
{
    make_ledger(&sheet, groups, 1);
    settle(OPEN_FULL);
    post_every_entry(amount, 1);
}

static const struct state {
    const char *name;
    void (*make)(size_t groups);
} states[] = {
    { "after one post, all stored", one_post_all_stored },
    { "after one post, half stored", one_post_half_stored },
    { "after one post, none stored", one_post_none_stored },
    { "after every entry was posted", every_entry_posted },
};
enum { STATES = sizeof states / sizeof states[0] };

/* ---- Boards ---------------------------------------------------------------------------------- */

/* Puts figures from the whole sheet on the board, and gives the asks for them. */
static void list_figures(struct call asks[BOARD_ITEMS])
{
    size_t figures[ROZHINAL_MAX_ITEMS], count = 0;
    for (size_t i = 0; i < sheet.count; i++)
        if (!is_entry(&sheet, i))
            figures[count++] = i;
    for (size_t k = 0; k < BOARD_ITEMS; k++) {
        size_t item = figures[(k + 1) * count / BOARD_ITEMS - 1];
        board_items[2 * k] = (uint8_t)(item & 0xFF);
        board_items[2 * k + 1] = (uint8_t)(item >> 8);
        asks[k] = call_of(ASK, item);
    }
}

/* The results of the board are what asks give. */
static void compare_with_asks(const struct call asks[BOARD_ITEMS])
{
    for (size_t k = 0; k < BOARD_ITEMS; k++) {
        const uint8_t *result = library.results + ROZHINAL_RESULTS_BYTES(k);
        rozhinal_reading reading = prepare(asks[k]);
        uint64_t number = 0;
        for (size_t b = 8; b > 0; b--)
            number = number << 8 | result[b];
        if (result[0] != reading.kind || number != (uint64_t)reading.value)
            fail("the board differs from an ask");
    }
}

/* ---- Workloads ------------------------------------------------------------------------------- */

static void count_openings(size_t groups)
{
    make_ledger(&sheet, groups, 1);
    count("open bare", call_of(OPEN_BARE, 0));
    count("open full", call_of(OPEN_FULL, 0));
}

static void count_small_calls(size_t groups)
{
    make_ledger(&sheet, groups, 1);
    settle(OPEN_FULL);
    count("ask, nothing posted", call_of(ASK, sheet.top));
    count("post", post_of(0, POSTED));
    count("step of an entry", call_of(STEP, 0));
    count("step of a figure", call_of(STEP, marked(ROZHINAL_MARK_REFRESH)));
    count("drop", call_of(DROP, sheet.top));
    count("keep, its parents stored", call_of(KEEP, sheet.top));
    make_ledger(&sheet, groups, 0);
    settle(OPEN_BARE);
    count("keep, nothing stored", call_of(KEEP, sheet.top));
}

/* Between two entries, after one where nothing is recorded. */
static void count_swap(size_t groups)
{
    make_ledger(&sheet, groups, 1);
    prepare(call_of(OPEN_FULL, 0));
    prepare(swap_of(2, 0, SWAPPED));
    settle(OPEN_FULL);
    count("swap", swap_of(0, 2, SWAPPED));
}

/* A call in a state that leaves it something to catch up with. */
static void name_workload(char name[LABEL_BYTES], const char *call, const struct state *state)
{
    snprintf(name, LABEL_BYTES, "%s %s", call, state->name);
}

static void count_ask(const struct state *state, size_t groups)
{
    char name[LABEL_BYTES];
    name_workload(name, "ask", state);
    state->make(groups);
    count(name, call_of(ASK, sheet.top));
}

/* A board of figures from the whole sheet, and asks for the same in the same state. */
static void count_board(const struct state *state, size_t groups)
{
    char name[LABEL_BYTES];
    struct call asks[BOARD_ITEMS];
    state->make(groups);
    list_figures(asks);
    name_workload(name, "board of 64", state);
    count(name, call_of(BOARD, 0));
    compare_with_asks(asks);
    state->make(groups);
    name_workload(name, "64 asks", state);
    count_all(name, asks, BOARD_ITEMS);
}

static void count_close(const struct state *state, size_t groups)
{
    char name[LABEL_BYTES];
    name_workload(name, "close", state);
    state->make(groups);
    count(name, call_of(CLOSE, 0));
}

static void count_closes_of_openings(size_t groups)
{
    make_ledger(&sheet, groups, 1);
    prepare(call_of(OPEN_BARE, 0));
    count("close, opened bare", call_of(CLOSE, 0));
    prepare(call_of(OPEN_FULL, 0));
    count("close, opened full", call_of(CLOSE, 0));
}

/* What leaves the same as a close: catching up, and a keep of each figure, the lowest first. */
static void count_keeps(const struct state *state, size_t groups)
{
    char name[LABEL_BYTES];
    static struct call calls[ROZHINAL_MAX_ITEMS + 1];
    static uint8_t closed[sizeof library.table];
    size_t how_many = 0;
    state->make(groups);
    prepare(call_of(CLOSE, 0));
    memcpy(closed, library.table, sizeof closed);
    state->make(groups);
    calls[how_many++] = call_of(ASK, 0);
    for (size_t i = 0; i < sheet.count; i++)
        if (!is_entry(&sheet, i))
            calls[how_many++] = call_of(KEEP, i);
    name_workload(name, "keeps", state);
    count_all(name, calls, how_many);
    if (memcmp(library.table, closed, sizeof closed) != 0)
        fail("the keeps differ from a close");
}

/* Steps of the lowest marked item until no mark stands, which leave what an ask of an entry leaves. */
static void count_steps(const struct state *state, size_t groups)
{
    char name[LABEL_BYTES];
    static struct call calls[2 * ROZHINAL_MAX_ITEMS];
    static uint8_t caught_up[sizeof library.table];
    size_t how_many = 0;
    state->make(groups);
    for (size_t i = 0; i < sheet.count; i++) {
        while (library.table[ROZHINAL_RECORD_BYTES * i + 1] != ROZHINAL_MARK_NONE) {
            if (how_many == 2 * sheet.count)
                fail("more than two steps an item");
            calls[how_many] = call_of(STEP, i);
            prepare(calls[how_many++]);
        }
    }
    state->make(groups);
    prepare(call_of(ASK, 0));
    memcpy(caught_up, library.table, sizeof caught_up);
    state->make(groups);
    name_workload(name, "steps until no mark stands", state);
    count_all(name, calls, how_many);
    if (memcmp(library.table, caught_up, sizeof caught_up) != 0)
        fail("the steps differ from an ask");
}

/* ---- Larger sheets --------------------------------------------------------------------------- */

/* The tables of both sides, to be gone back to. */
static uint8_t saved[sizeof library.table];

static void save_tables(void)
{
    memcpy(saved, library.table, sizeof saved);
}

static void restore_tables(void)
{
    memcpy(library.table, saved, sizeof saved);
    memcpy(plain.table, saved, sizeof saved);
}

/*
 * The workloads that smaller sheets have too, in the same states. A state costs many calls here, so
 * that what several have in common is made once.
 */
static void count_larger(size_t groups)
{
    make_ledger(&sheet, groups, 1);
    count("open bare", call_of(OPEN_BARE, 0));
    settle(OPEN_FULL);
    save_tables();
    count("post", post_of(0, POSTED));
    count("ask after one post, all stored", call_of(ASK, sheet.top));
    restore_tables();
    post_every_entry(amount, 1);
    save_tables();
    count("ask after every entry was posted", call_of(ASK, sheet.top));
    restore_tables();
    count("close after every entry was posted", call_of(CLOSE, 0));
    make_ledger(&sheet, groups, 0);
    settle(OPEN_BARE);
    save_tables();
    prepare(post_of(0, POSTED));
    count("ask after one post, none stored", call_of(ASK, sheet.top));
    restore_tables();
    keep_half_the_figures();
    prepare(post_of(0, POSTED));
    count("ask after one post, half stored", call_of(ASK, sheet.top));
}

/* ---- Sheets of other forms ------------------------------------------------------------------- */

/* A call on a few items: what it costs to be called at all. */
static void count_example(void)
{
    make_example(&sheet);
    count("open bare, the example", call_of(OPEN_BARE, 0));
    prepare(post_of(0, POSTED));
    count("post, the example", post_of(1, SWAPPED));
    count("ask, the example", call_of(ASK, sheet.top));
}

static void count_chain(void)
{
    make_chain(&sheet);
    settle(OPEN_BARE);
    prepare(post_of(0, POSTED));
    count("ask, 64 levels of one parent 16 times", call_of(ASK, sheet.top));
    count("close, 64 levels of one parent 16 times", call_of(CLOSE, 0));
}

static void count_fan(void)
{
    make_fan(&sheet, 800, 1);
    settle(OPEN_FULL);
    prepare(post_of(0, POSTED));
    count("ask, an entry with 800 children", call_of(ASK, sheet.top));
}

/* An entry of which no child is stored, nor owed. */
static void count_unstored_fan(size_t figures)
{
    make_fan(&sheet, figures, 0);
    settle(OPEN_BARE);
    prepare(post_of(0, POSTED));
    count("step of an entry, no child owed", call_of(STEP, 0));
    prepare(post_of(0, POSTED + 1));
    count("ask after one post, no child owed", call_of(ASK, sheet.top));
}

/* Every share is worked out anew. */
static void count_shares(void)
{
    make_shares(&sheet, 900);
    prepare(call_of(OPEN_FULL, 0));
    post_every_entry(amount_at_limit, 0);
    prepare(call_of(ASK, sheet.top));
    post_every_entry(amount_at_limit, 1);
    count("ask, shares at the limit", call_of(ASK, sheet.top));
    post_every_entry(amount_at_limit, 0);
    count("close, shares at the limit", call_of(CLOSE, 0));
}

/* All is stored: every second share is OUT, by a rate above BOUND, and all else is a number. */
static void check_guards(size_t guards, size_t day)
{
    uint8_t kinds[ROZHINAL_MAX_ITEMS];
    memset(kinds, ROZHINAL_NUMBER, sizeof kinds);
    for (size_t g = (day + 1) % 2; g < guards; g += 2)
        kinds[GUARDS_AT + GUARD_ITEMS * g] = ROZHINAL_OUT;
    for (size_t i = 0; i < sheet.count; i++)
        if (library.table[ROZHINAL_RECORD_BYTES * i] != kinds[i])
            fail("not guarded");
}

/* Every share becomes OUT, or is so no longer, and every choice picks another parent. */
static void count_guarded_shares(void)
{
    enum { GUARDS = 288 };
    make_guarded_shares(&sheet, GUARDS);
    prepare(call_of(OPEN_FULL, 0));
    post_every_entry(amount_guarded, 0);
    prepare(call_of(ASK, sheet.top));
    post_every_entry(amount_guarded, 1);
    count("ask, guarded shares", call_of(ASK, sheet.top));
    check_guards(GUARDS, 1);
    post_every_entry(amount_guarded, 0);
    count("close, guarded shares", call_of(CLOSE, 0));
    check_guards(GUARDS, 0);
}

/* Numbers of each length in the range, of both signs. */
static void count_lengths(void)
{
    enum { LENGTHS = 16 };
    struct call prints[2 * LENGTHS];
    int64_t number = 1;
    for (size_t k = 0; k < LENGTHS; k++) {
        prints[2 * k] = (struct call){ PRINT, 0, ROZHINAL_NUMBER, number };
        prints[2 * k + 1] = (struct call){ PRINT, 0, ROZHINAL_NUMBER, -number };
        prepare(prints[2 * k]);
        prepare(prints[2 * k + 1]);
        number = k + 2 < LENGTHS ? 10 * number + (int64_t)(k + 2) % 10 : ROZHINAL_LIMIT;
    }
    count_all("print, numbers of each length", prints, 2 * LENGTHS);
}

static void count_printer(void)
{
    static const struct call prints[] = {
        { PRINT, 0, ROZHINAL_NULL, 0 },
        { PRINT, 0, ROZHINAL_OUT, 0 },
        { PRINT, 0, ROZHINAL_NUMBER, 0 },
        { PRINT, 0, ROZHINAL_NUMBER, 75000 },
        { PRINT, 0, ROZHINAL_NUMBER, -48250125 },
        { PRINT, 0, ROZHINAL_NUMBER, ROZHINAL_LIMIT },
        { PRINT, 0, ROZHINAL_NUMBER, -ROZHINAL_LIMIT },
    };
    enum { PRINTS = sizeof prints / sizeof prints[0] };
    sheet.count = 0;
    for (size_t k = 0; k < PRINTS; k++)
        prepare(prints[k]);
    count_all("print, seven values", prints, PRINTS);
    count_lengths();
}

int main(void)
{
    enum { MOST_GROUPS = 8, LARGER_GROUPS = 2 * MOST_GROUPS, LARGEST_GROUPS = 4 * MOST_GROUPS };
    count_openings(MOST_GROUPS);
    count_small_calls(MOST_GROUPS);
    count_swap(MOST_GROUPS);
    for (size_t groups = MOST_GROUPS; groups > 0; groups /= 2)
        for (size_t k = 0; k < STATES; k++)
            count_ask(&states[k], groups);
    for (size_t k = 0; k < STATES; k++)
        count_board(&states[k], MOST_GROUPS);
    count_closes_of_openings(MOST_GROUPS);
    for (size_t k = 0; k < STATES; k++)
        count_close(&states[k], MOST_GROUPS);
    for (size_t groups = MOST_GROUPS / 2; groups > 0; groups /= 2)
        count_close(&states[STATES - 1], groups);
    for (size_t k = 0; k < STATES; k++)
        count_keeps(&states[k], MOST_GROUPS);
    for (size_t groups = MOST_GROUPS; groups > 0; groups /= 2)
        count_steps(&states[STATES - 1], groups);
    count_larger(LARGER_GROUPS);
    count_larger(LARGEST_GROUPS);
    count_example();
    count_chain();
    count_fan();
    count_unstored_fan(800);
    count_unstored_fan(400);
    count_shares();
    count_guarded_shares();
    count_printer();
    return 0;
}
