/*
 * The header against the library: sizes, offsets, the example, each refusal that can be given. With
 * the argument 2 the example is of edition 2, and the same is shown. The retired spread, of which
 * the editions differ, is in both editions in each run.
 */
#include "rozhinal.h"

#include <inttypes.h>
#include <stdio.h>
#include <stdlib.h>
#include <string.h>

_Static_assert(sizeof(rozhinal_answer) == 16, "answer");
_Static_assert(offsetof(rozhinal_answer, number) == 0, "answer.number");
_Static_assert(offsetof(rozhinal_answer, offset) == 8, "answer.offset");
_Static_assert(sizeof(rozhinal_reading) == 32, "reading");
_Static_assert(offsetof(rozhinal_reading, number) == 0, "reading.number");
_Static_assert(offsetof(rozhinal_reading, offset) == 8, "reading.offset");
_Static_assert(offsetof(rozhinal_reading, kind) == 16, "reading.kind");
_Static_assert(offsetof(rozhinal_reading, value) == 24, "reading.value");
_Static_assert(sizeof(size_t) == 8 && sizeof(void *) == 8, "a slice is two 64-bit words");
_Static_assert(ROZHINAL_INDEX_BYTES(5) == 20 && ROZHINAL_TABLE_BYTES(5) == 55, "index and table");
_Static_assert(ROZHINAL_REFUSED_DAY == 16 && ROZHINAL_REFUSED_SIZES == 8, "refusals");
_Static_assert(ROZHINAL_REFUSED_LISTS == 17 && ROZHINAL_MAX_BOARD == 64, "the board");
_Static_assert(ROZHINAL_ITEMS_BYTES(64) == 128 && ROZHINAL_RESULTS_BYTES(64) == 576, "its lists");
_Static_assert(ROZHINAL_REFUSED_SWAP == 18, "the swap");
_Static_assert(ROZHINAL_REFUSED_FILE == 19 && ROZHINAL_MAX_DAY_BYTES == 65536, "the day program");
_Static_assert(ROZHINAL_EDITION == 1 && ROZHINAL_EDITION_LATEST == 2, "editions");
_Static_assert(ROZHINAL_MAX_ITEMS_EDITION_1 == 1024 && ROZHINAL_MAX_ITEMS == 4096, "their items");
_Static_assert(ROZHINAL_MAX_ITEMS_EDITION_2 == ROZHINAL_MAX_ITEMS, "the most items");
_Static_assert(ROZHINAL_EDITION_FOR(1) == 1 && ROZHINAL_EDITION_FOR(1024) == 1, "edition 1");
_Static_assert(ROZHINAL_EDITION_FOR(1025) == 2 && ROZHINAL_EDITION_FOR(4096) == 2, "edition 2");
_Static_assert(ROZHINAL_MAX_SHEET_BYTES(1) == 29 && ROZHINAL_MAX_SHEET_BYTES(1024) == 56294
                   && ROZHINAL_MAX_SHEET_BYTES(4096) == 225254, "the longest sheets");
_Static_assert(ROZHINAL_STACK_BYTES_128 < ROZHINAL_STACK_BYTES_1024
                   && ROZHINAL_STACK_BYTES_1024 < ROZHINAL_STACK_BYTES_4096
                   && ROZHINAL_STACK_BYTES == ROZHINAL_STACK_BYTES_4096, "the stack");
_Static_assert(ROZHINAL_STACK_BYTES_FOR(0) == ROZHINAL_STACK_BYTES_128
                   && ROZHINAL_STACK_BYTES_FOR(128) == ROZHINAL_STACK_BYTES_128
                   && ROZHINAL_STACK_BYTES_FOR(129) == ROZHINAL_STACK_BYTES_1024
                   && ROZHINAL_STACK_BYTES_FOR(1024) == ROZHINAL_STACK_BYTES_1024
                   && ROZHINAL_STACK_BYTES_FOR(1025) == ROZHINAL_STACK_BYTES_4096
                   && ROZHINAL_STACK_BYTES_FOR(65535) == ROZHINAL_STACK_BYTES, "the stack by items");
_Static_assert(ROZHINAL_LIMIT == INT64_C(1000000000000000) && ROZHINAL_WHOLE == 10000, "the range");
_Static_assert(ROZHINAL_NUMBER == 3 && ROZHINAL_MARK_NOTICE == 2, "kinds and marks");
_Static_assert(ROZHINAL_DEFER == 0 && ROZHINAL_RENEW == 1 && ROZHINAL_FORGET == 2, "spreads");

enum { ITEMS = 5, ENTRIES = 3, INDEX = 4 * ITEMS, TABLE = 11 * ITEMS, SHEET = 46 };
enum { RULE_OF_3 = 22, SPREAD_OF_3 = 24, PARENT_OF_3 = 26, NAME_OF_3 = 30, SPREAD_OF_4 = 36 };
enum { RECORD = ROZHINAL_RECORD_BYTES, OWED = 10, KEPT = RECORD * 3, NOT_KEPT = RECORD * 4 };
enum { MOST = ROZHINAL_MAX_BOARD, OVER = MOST + 1, PAIR = 2, RESULT = 9 };

static const uint8_t example[SHEET] = {
    1, 4, 0, 1, 0, 5, 0,                        /* edition 1, 5 items */
    2, 1, 0, 'A',                               /* 0 */
    2, 1, 0, 'L',                               /* 1 */
    2, 1, 0, 'S',                               /* 2 */
    3, 9, 0, 1, 1, 0, 2, 0, 0, 2, 0, 'T',       /* 3: sum of 0 and 2, keep, defer */
    3, 9, 0, 2, 0, 0, 2, 3, 0, 1, 0, 'B',       /* 4: 3 minus 1, defer */
    4, 0, 0,
};

/* Side by side, so that a byte written outside its slice shows as a change. */
struct lent {
    uint8_t sheet[1024];
    uint8_t idx[INDEX];
    uint8_t table[TABLE];
    uint8_t scratch[ROZHINAL_PRINT_BYTES];
    uint8_t items[PAIR * OVER];
    uint8_t results[RESULT * OVER];
};

static struct lent now, before;
static size_t sheet_len;
static uint8_t edition = ROZHINAL_EDITION_1; /* of the example */
static int faults;

#define SHEET_SLICE now.sheet, sheet_len
#define LENT SHEET_SLICE, now.idx, sizeof now.idx, now.table, sizeof now.table

static void require(int right, const char *what)
{
    if (!right) {
        printf("WRONG: %s\n", what);
        faults++;
    }
}

static void start(void)
{
    memset(&now, 0xEE, sizeof now);
    memcpy(now.sheet, example, sizeof example);
    now.sheet[3] = edition;
    sheet_len = sizeof example;
    before = now;
}

static void accepted(const char *call, rozhinal_answer a)
{
    printf("%s: %" PRIu64 " %" PRIu64 "\n", call, a.number, a.offset);
    before = now;
}

static void refused(const char *call, rozhinal_answer a)
{
    printf("%s: refused %" PRIu64 " %" PRIu64 "\n", call, a.number, a.offset);
    require(memcmp(&now, &before, sizeof now) == 0, "a refused call changed a lent byte");
}

/* The number in 8 bytes of a record or a result. */
static int64_t number_at(const uint8_t *bytes)
{
    uint64_t bits = 0;
    for (size_t k = 8; k > 0; k--)
        bits = bits << 8 | bytes[k - 1];
    return (int64_t)bits;
}

static void ask(uint64_t item)
{
    rozhinal_reading r = rozhinal_ask(LENT, item);
    int64_t length = rozhinal_print(r.kind, r.value, now.scratch, sizeof now.scratch);
    require(length > 0 && length <= ROZHINAL_PRINT_BYTES, "the length of a printed value");
    if (length > 0)
        printf("ask %" PRIu64 ": %" PRIu64 " %" PRIu64 " %.*s\n", item, r.number, r.offset,
               (int)length, (const char *)now.scratch);
    before = now;
}

static void the_example(void)
{
    start();
    require(rozhinal_item_count(now.sheet, sheet_len) == ITEMS, "the item count");
    require(rozhinal_item_count(now.sheet, 6) == 0, "the item count of a short sheet");
    require(rozhinal_edition(now.sheet, sheet_len) == edition, "the edition");
    require(rozhinal_edition(now.sheet, 5) == edition, "the edition of a sheet of 5 bytes");
    require(rozhinal_edition(now.sheet, 4) == 0, "the edition of a short sheet");
    accepted("open bare", rozhinal_open_bare(LENT));
    for (size_t i = 0; i < ITEMS; i++)
        printf("index %zu: %u\n", i, (unsigned)now.idx[4 * i]);
    accepted("post 0 1000", rozhinal_post(LENT, 0, ROZHINAL_NUMBER, 1000));
    accepted("post 1 300", rozhinal_post(LENT, 1, ROZHINAL_NUMBER, 300));
    ask(4);
    accepted("post 2 -200", rozhinal_post(LENT, 2, ROZHINAL_NUMBER, -200));
    accepted("step 2", rozhinal_step(LENT, 2));
    accepted("keep 4", rozhinal_keep(LENT, 4));
    accepted("drop 3", rozhinal_drop(LENT, 3));
    ask(4);
    accepted("post 0 null", rozhinal_post(LENT, 0, ROZHINAL_NULL, 0));
    ask(0);
    ask(3);
    accepted("post 0 limit", rozhinal_post(LENT, 0, ROZHINAL_NUMBER, ROZHINAL_LIMIT));
    accepted("post 2 1", rozhinal_post(LENT, 2, ROZHINAL_NUMBER, 1));
    ask(0);
    ask(4);
    accepted("open full", rozhinal_open_full(LENT));
    require(now.table[KEPT] == ROZHINAL_NULL, "a figure after a full opening");
    ask(4);
}

/* ---- The range ---- */

static void post_number(const char *what, int64_t number)
{
    accepted(what, rozhinal_post(LENT, 0, ROZHINAL_NUMBER, number));
}

static void post_beyond(const char *what, int64_t number)
{
    refused(what, rozhinal_post(LENT, 0, ROZHINAL_NUMBER, number));
}

/* The number of entry 0, put into the table by hand, then an ask for it. */
static void lend_number(const char *what, int64_t number)
{
    now.table[0] = ROZHINAL_NUMBER;
    for (size_t k = 0; k < 8; k++)
        now.table[2 + k] = (uint8_t)((uint64_t)number >> 8 * k);
    before = now;
    rozhinal_reading r = rozhinal_ask(LENT, 0);
    printf("table with %s: %" PRIu64 " %" PRIu64 " %" PRId64 "\n", what, r.number, r.kind, r.value);
    require(r.number == 0 || memcmp(&now, &before, sizeof now) == 0,
            "a refused ask changed a lent byte");
}

static void print_number(const char *what, int64_t number)
{
    memset(now.scratch, 0xEE, sizeof now.scratch);
    before = now;
    int64_t given = rozhinal_print(ROZHINAL_NUMBER, number, now.scratch, sizeof now.scratch);
    size_t length = given > 0 ? (size_t)given : 0;
    printf("print %s: %" PRId64 "%s%.*s\n", what, given, length > 0 ? " " : "", (int)length,
           (const char *)now.scratch);
    require(memcmp(now.scratch + length, before.scratch + length, sizeof now.scratch - length) == 0,
            "a byte after what is printed");
}

/* Item 3 is made the share of item 0 by item 2. */
static void shares_at_the_limit(void)
{
    start();
    now.sheet[RULE_OF_3] = ROZHINAL_SHARE;
    accepted("open full", rozhinal_open_full(LENT));
    for (int64_t parts = ROZHINAL_WHOLE - 1; parts <= ROZHINAL_WHOLE + 1; parts++) {
        printf("shares of %" PRId64 " parts\n", parts);
        accepted("post 2", rozhinal_post(LENT, 2, ROZHINAL_NUMBER, parts));
        post_number("post 0 limit", ROZHINAL_LIMIT);
        ask(3);
        post_number("post 0 limit - 1", ROZHINAL_LIMIT - 1);
        ask(3);
        post_number("post 0 -limit", -ROZHINAL_LIMIT);
        ask(3);
        post_number("post 0 -limit + 1", -ROZHINAL_LIMIT + 1);
        ask(3);
    }
}

static void the_range(void)
{
    shares_at_the_limit();
    post_beyond("post 0 limit + 1", ROZHINAL_LIMIT + 1);
    post_beyond("post 0 -limit - 1", -ROZHINAL_LIMIT - 1);
    post_beyond("post 0 least", INT64_MIN);
    lend_number("limit", ROZHINAL_LIMIT);
    lend_number("limit + 1", ROZHINAL_LIMIT + 1);
    lend_number("-limit", -ROZHINAL_LIMIT);
    lend_number("-limit - 1", -ROZHINAL_LIMIT - 1);
    print_number("limit", ROZHINAL_LIMIT);
    print_number("limit + 1", ROZHINAL_LIMIT + 1);
    print_number("-limit", -ROZHINAL_LIMIT);
    print_number("-limit - 1", -ROZHINAL_LIMIT - 1);
}

/* ---- Refusals ---- */

/* One byte of the example changed, then an ask and a close. */
static void damaged_sheet(const char *what, size_t place, uint8_t byte)
{
    start();
    accepted("open bare", rozhinal_open_bare(LENT));
    now.sheet[place] = byte;
    before = now;
    rozhinal_reading r = rozhinal_ask(LENT, 0);
    require(r.kind == ROZHINAL_UNK && r.value == 0, "a refused ask gives no value");
    refused(what, (rozhinal_answer){ r.number, r.offset });
    refused("the same, closed", rozhinal_close(LENT));
}

/* A chain of figures one level above the limit. */
static void too_deep(void)
{
    const size_t items = ROZHINAL_MAX_LEVEL + 2;
    start();
    uint8_t *p = now.sheet;
    memcpy(p, (const uint8_t[]){ 1, 4, 0, edition, 0, (uint8_t)items, 0, 2, 1, 0, 'E' }, 11);
    p += 11;
    for (size_t i = 1; i < items; i++, p += 10)
        memcpy(p, (const uint8_t[]){ 3, 7, 0, 1, 0, 0, 1, (uint8_t)(i - 1), 0, 'F' }, 10);
    memcpy(p, (const uint8_t[]){ 4, 0, 0 }, 3);
    sheet_len = (size_t)(p + 3 - now.sheet);
    before = now;
    refused("a level of 65", rozhinal_open_full(LENT));
    refused("the same, closed", rozhinal_close(LENT));
}

static void sheet_refusals(void)
{
    damaged_sheet("an item too long", 8, 200);
    damaged_sheet("a tag of 5", 11, 5);
    damaged_sheet("a name with a blank", 18, ' ');
    damaged_sheet("edition 0", 3, 0);
    damaged_sheet("edition 3", 3, 3);
    damaged_sheet("rule 9", RULE_OF_3, 9);
    damaged_sheet("spread 3", SPREAD_OF_3, 3);
    damaged_sheet("item 3 with parent 3", PARENT_OF_3, 3);
    too_deep();
}

static void other_refusals(void)
{
    start();
    refused("an index of 19 bytes",
            rozhinal_open_bare(SHEET_SLICE, now.idx, INDEX - 1, now.table, TABLE));
    accepted("open bare", rozhinal_open_bare(LENT));
    now.idx[4]++;
    before = now;
    refused("a changed index", rozhinal_step(LENT, 0));
    now.idx[4]--;
    now.table[1] = ROZHINAL_MARK_REFRESH;
    before = now;
    refused("an entry marked refresh", rozhinal_step(LENT, 0));
    now.table[1] = ROZHINAL_MARK_NONE;
    before = now;
    refused("item 5", rozhinal_keep(LENT, ITEMS));
    refused("item 2^64 - 1", rozhinal_drop(LENT, UINT64_MAX));
    refused("post to a figure", rozhinal_post(LENT, 3, ROZHINAL_NUMBER, 1));
    refused("drop of an entry", rozhinal_drop(LENT, 0));
    refused("post of OUT", rozhinal_post(LENT, 0, ROZHINAL_OUT, 0));
    refused("post beyond the range", rozhinal_post(LENT, 0, ROZHINAL_NUMBER, ROZHINAL_LIMIT + 1));
    refused("step without a mark", rozhinal_step(LENT, 0));
    int64_t unk = rozhinal_print(ROZHINAL_UNK, 0, now.scratch, sizeof now.scratch);
    printf("print UNK: %" PRId64 "\n", unk);
    int64_t small = rozhinal_print(ROZHINAL_NULL, 0, now.scratch, ROZHINAL_PRINT_BYTES - 1);
    printf("print into 19 bytes: %" PRId64 "\n", small);
    require(memcmp(&now, &before, sizeof now) == 0, "a refused print changed a lent byte");
}

/* ---- Swaps ---- */

/* The sum of the entries, NULL as 0. */
static int64_t sum_of_entries(void)
{
    int64_t sum = 0;
    for (size_t i = 0; i < ENTRIES; i++)
        sum += number_at(now.table + RECORD * i + 2);
    return sum;
}

static rozhinal_answer post_held(const struct lent *lent, uint64_t item)
{
    return rozhinal_post(LENT, item, ROZHINAL_NUMBER, number_at(lent->table + RECORD * item + 2));
}

/* A swap, with the giver's kind, mark and number afterwards, then the taker's. */
static void show_swap(const char *what, uint64_t giver, uint64_t taker, int64_t quantity)
{
    int64_t sum = sum_of_entries();
    rozhinal_answer a = rozhinal_swap(LENT, giver, taker, quantity);
    const uint8_t *records[] = { now.table + RECORD * giver, now.table + RECORD * taker };
    printf("swap %s: %" PRIu64 " %" PRIu64, what, a.number, a.offset);
    for (size_t k = 0; k < 2; k++)
        printf(", %u %u %" PRId64, (unsigned)records[k][0], (unsigned)records[k][1],
               number_at(records[k] + 2));
    putchar('\n');
    require(sum_of_entries() == sum, "the sum of the entries after a swap");
    struct lent swapped = now;
    now = before;
    require(post_held(&swapped, giver).number == 0 && post_held(&swapped, taker).number == 0
                && memcmp(&now, &swapped, sizeof now) == 0,
            "a swap leaves what its two posts leave");
    before = now;
}

static void the_swap(void)
{
    start();
    accepted("open bare", rozhinal_open_bare(LENT));
    show_swap("of 1 from NULL to NULL", 1, 0, 1);
    show_swap("of 1 back", 0, 1, 1);
    accepted("post 0 1000", rozhinal_post(LENT, 0, ROZHINAL_NUMBER, 1000));
    accepted("post 1 300", rozhinal_post(LENT, 1, ROZHINAL_NUMBER, 300));
    ask(4);
    show_swap("of 400 from 0 to 2", 0, 2, 400);
    ask(4);
    show_swap("of 250 from 0 to 1", 0, 1, 250);
    ask(4);
    accepted("close", rozhinal_close(LENT));
    show_swap("of 401 from 2 to 0", 2, 0, 401);
    show_swap("of 549 from 1 to 2", 1, 2, 549);
    ask(3);
    ask(4);
    post_number("post 0 limit", ROZHINAL_LIMIT);
    accepted("post 1 -limit", rozhinal_post(LENT, 1, ROZHINAL_NUMBER, -ROZHINAL_LIMIT));
    show_swap("from limit to -limit", 0, 1, 2 * ROZHINAL_LIMIT);
    show_swap("and back", 1, 0, 2 * ROZHINAL_LIMIT);
}

static void swap_faults(void)
{
    refused("swap, 5 gives", rozhinal_swap(LENT, ITEMS, 0, 1));
    refused("swap, 2^64 - 1 takes", rozhinal_swap(LENT, 0, UINT64_MAX, 1));
    refused("swap, 5 takes 0 from a figure", rozhinal_swap(LENT, 3, ITEMS, 0));
    refused("swap, 5 gives -1 to itself", rozhinal_swap(LENT, ITEMS, ITEMS, -1));
    refused("swap, a figure gives", rozhinal_swap(LENT, 4, 0, 1));
    refused("swap, a figure takes", rozhinal_swap(LENT, 0, 3, 1));
    refused("swap, a figure gives 0 to itself", rozhinal_swap(LENT, 3, 3, 0));
    refused("swap, a figure takes the most", rozhinal_swap(LENT, 0, 4, INT64_MAX));
    refused("swap, an entry gives to itself", rozhinal_swap(LENT, 0, 0, 1));
    refused("swap of 0", rozhinal_swap(LENT, 0, 1, 0));
    refused("swap of -1", rozhinal_swap(LENT, 0, 1, -1));
    refused("swap of the least", rozhinal_swap(LENT, 0, 1, INT64_MIN));
    refused("swap, an entry gives the most to itself", rozhinal_swap(LENT, 2, 2, INT64_MAX));
    refused("swap of the most", rozhinal_swap(LENT, 0, 1, INT64_MAX));
    refused("swap of the most from NULL", rozhinal_swap(LENT, 2, 0, INT64_MAX));
    refused("swap, the giver one beyond", rozhinal_swap(LENT, 0, 2, ROZHINAL_LIMIT + 1001));
    refused("swap, the taker one beyond", rozhinal_swap(LENT, 0, 1, 11));
}

static void swap_refusals(void)
{
    start();
    accepted("open bare", rozhinal_open_bare(LENT));
    post_number("post 0 1000", 1000);
    accepted("post 1 limit - 10", rozhinal_post(LENT, 1, ROZHINAL_NUMBER, ROZHINAL_LIMIT - 10));
    swap_faults();
    show_swap("of 10 to the limit", 0, 1, 10);
    refused("swap of 1 above it", rozhinal_swap(LENT, 2, 1, 1));
    post_number("post 0 -limit", -ROZHINAL_LIMIT);
    refused("swap of 1 below it", rozhinal_swap(LENT, 0, 2, 1));
    now.table[NOT_KEPT + 1] = ROZHINAL_MARK_REFRESH;
    before = now;
    refused("swap, an unstored figure marked refresh", rozhinal_swap(LENT, ITEMS, ITEMS, 0));
    now.idx[4]++;
    before = now;
    refused("swap, a changed index besides", rozhinal_swap(LENT, ITEMS, ITEMS, 0));
    refused("swap, a table of 54 bytes besides",
            rozhinal_swap(SHEET_SLICE, now.idx, INDEX, now.table, TABLE - 1, 0, 2, 1));
    now.sheet[11] = 5;
    before = now;
    refused("swap, a tag of 5 besides", rozhinal_swap(LENT, 0, 2, 1));
}

/* ---- The board ---- */

static rozhinal_answer board(size_t items_len, size_t results_len)
{
    return rozhinal_board(LENT, now.items, items_len, now.results, results_len);
}

static void list(size_t place, unsigned item)
{
    now.items[PAIR * place] = (uint8_t)(item & 0xFF);
    now.items[PAIR * place + 1] = (uint8_t)(item >> 8);
}

/* The first results are those of asks one after another on the table before, and so is the table. */
static void require_asks(size_t count)
{
    struct lent after = now;
    memcpy(now.table, before.table, sizeof now.table);
    for (size_t k = 0; k < count; k++) {
        const uint8_t *result = now.results + RESULT * k;
        rozhinal_reading r = rozhinal_ask(LENT, now.items[PAIR * k]);
        require(r.number == 0 && r.kind == result[0] && r.value == number_at(result + 1),
                "a board and asks one after another");
    }
    require(memcmp(&now, &after, sizeof now) == 0, "the tables of a board and of asks");
}

/* A board of these items, with its results; the last two of them if there are many. */
static void show_board(const char *what, size_t count)
{
    memset(now.results, 0xEE, sizeof now.results);
    before = now;
    rozhinal_answer a = board(PAIR * count, RESULT * count);
    printf("board of %s: %" PRIu64 " %" PRIu64, what, a.number, a.offset);
    for (size_t k = count > 5 ? count - 2 : 0; k < count; k++) {
        const uint8_t *result = now.results + RESULT * k;
        printf(" %u %" PRId64, (unsigned)result[0], number_at(result + 1));
    }
    putchar('\n');
    for (size_t k = RESULT * count; k < sizeof now.results; k++)
        require(now.results[k] == 0xEE, "a byte after the results");
    require_asks(count);
    before = now;
}

static void the_board(void)
{
    start();
    accepted("open bare", rozhinal_open_bare(LENT));
    accepted("post 0 1000", rozhinal_post(LENT, 0, ROZHINAL_NUMBER, 1000));
    accepted("post 1 300", rozhinal_post(LENT, 1, ROZHINAL_NUMBER, 300));
    require(board(0, 0).number == 0 && memcmp(&now, &before, sizeof now) == 0,
            "an empty board changes nothing");
    require(now.table[1] == ROZHINAL_MARK_NOTICE, "a mark after an empty board");
    for (size_t k = 0; k < ITEMS; k++)
        list(k, (unsigned)(ITEMS - 1 - k));
    show_board("4, 3, 2, 1, 0", ITEMS);
    require(now.table[1] == ROZHINAL_MARK_NONE, "a mark after a board");
    require(now.table[KEPT] == ROZHINAL_NUMBER && now.table[NOT_KEPT] == ROZHINAL_UNK,
            "what is kept");
    accepted("post 0 limit", rozhinal_post(LENT, 0, ROZHINAL_NUMBER, ROZHINAL_LIMIT));
    accepted("post 2 1", rozhinal_post(LENT, 2, ROZHINAL_NUMBER, 1));
    list(1, 0), list(2, 4);
    show_board("4, 0, 4", 3);
    accepted("post 0 -1", rozhinal_post(LENT, 0, ROZHINAL_NUMBER, -1));
    for (size_t k = 0; k < MOST; k++)
        list(k, k % 2 == 0 ? 4 : 0);
    show_board("64 items", MOST);
}

static void board_refusals(void)
{
    start();
    accepted("open bare", rozhinal_open_bare(LENT));
    accepted("post 0 1000", rozhinal_post(LENT, 0, ROZHINAL_NUMBER, 1000));
    memset(now.items, 0, sizeof now.items);
    before = now;
    refused("65 items", board(PAIR * OVER, RESULT * OVER));
    refused("64 items and a byte", board(PAIR * MOST + 1, RESULT * MOST));
    refused("64 items but a byte", board(PAIR * MOST - 1, RESULT * MOST));
    refused("half an item", board(1, 0));
    refused("results a byte short", board(PAIR * MOST, RESULT * MOST - 1));
    refused("results a byte long", board(PAIR * MOST, RESULT * MOST + 1));
    refused("results of one item too many", board(PAIR, 2 * RESULT));
    refused("no results for an item", board(PAIR, 0));
    refused("results for no item", board(0, RESULT));
    list(MOST - 1, ITEMS);
    before = now;
    refused("item 5 in the last place", board(PAIR * MOST, RESULT * MOST));
    list(0, 256 + 4);
    before = now;
    refused("item 260 in the first place", board(PAIR, RESULT));
    refused("65 items, one of them 260", board(PAIR * OVER, RESULT * OVER));
    now.table[1] = ROZHINAL_MARK_REFRESH;
    before = now;
    refused("65 items, and an entry marked refresh", board(PAIR * OVER, RESULT * OVER));
    now.idx[4]++;
    before = now;
    refused("65 items, and a changed index", board(PAIR * OVER, RESULT * OVER));
    refused("65 items, and a table of 54 bytes",
            rozhinal_board(SHEET_SLICE, now.idx, INDEX, now.table, TABLE - 1, now.items,
                           PAIR * OVER, now.results, RESULT * OVER));
    now.sheet[11] = 5;
    before = now;
    refused("65 items, and a tag of 5", board(PAIR * OVER, RESULT * OVER));
}

/* ---- The season-close run ---- */

/* Each record is what an ask for its item gives on this table. */
static void require_held(const uint8_t *table, const char *what)
{
    struct lent closed = now;
    for (uint64_t item = 0; item < ITEMS; item++) {
        const uint8_t *record = closed.table + RECORD * item;
        memcpy(now.table, table, TABLE);
        rozhinal_reading r = rozhinal_ask(LENT, item);
        require(r.number == 0 && r.kind == record[0] && r.value == number_at(record + 2), what);
    }
    now = closed;
}

/* A close, with the kind, mark, number and owed byte of each record afterwards. */
static void show_close(const char *what)
{
    rozhinal_answer a = rozhinal_close(LENT);
    printf("close %s: %" PRIu64 " %" PRIu64, what, a.number, a.offset);
    for (const uint8_t *record = now.table; record < now.table + TABLE; record += RECORD)
        printf(", %u %u %" PRId64 " %u", (unsigned)record[0], (unsigned)record[1],
               number_at(record + 2), (unsigned)record[OWED]);
    putchar('\n');
    struct lent closed = now;
    memcpy(now.table, before.table, TABLE);
    require(memcmp(&now, &before, sizeof now) == 0, "a close writes to the table alone");
    now = closed;
    require(rozhinal_close(LENT).number == 0 && memcmp(&now, &closed, sizeof now) == 0,
            "a second close changes nothing");
    require_held(closed.table, "an ask after a close");
    for (uint64_t item = 0; item < ITEMS; item++)
        require(rozhinal_ask(LENT, item).number == 0 && memcmp(&now, &closed, sizeof now) == 0,
                "an ask after a close changes nothing");
}

static void close_opened(const char *what)
{
    show_close(what);
    require_held(before.table, "a close and asks before it");
    before = now;
}

static void the_close(void)
{
    start();
    accepted("open bare", rozhinal_open_bare(LENT));
    close_opened("after open bare");
    accepted("open full", rozhinal_open_full(LENT));
    accepted("post 0 1000", rozhinal_post(LENT, 0, ROZHINAL_NUMBER, 1000));
    accepted("post 1 300", rozhinal_post(LENT, 1, ROZHINAL_NUMBER, 300));
    accepted("drop 4", rozhinal_drop(LENT, 4));
    close_opened("with notices, a stored and an unstored figure");
    accepted("post 2 -200", rozhinal_post(LENT, 2, ROZHINAL_NUMBER, -200));
    accepted("step 2", rozhinal_step(LENT, 2));
    require(now.table[KEPT + 1] == ROZHINAL_MARK_REFRESH, "a figure to be refreshed");
    close_opened("with a refresh");
    ask(4);
    accepted("post 0 limit", rozhinal_post(LENT, 0, ROZHINAL_NUMBER, ROZHINAL_LIMIT));
    close_opened("near the limit");
    accepted("post 2 1", rozhinal_post(LENT, 2, ROZHINAL_NUMBER, 1));
    close_opened("beyond the limit");
    accepted("post 0 null", rozhinal_post(LENT, 0, ROZHINAL_NULL, 0));
    close_opened("after OUT");
    /* Bytes from elsewhere: values that are not right, without a mark. */
    now.table[KEPT + 2] = 77;
    now.table[NOT_KEPT] = ROZHINAL_OUT;
    memset(now.table + NOT_KEPT + 2, 0, 8);
    before = now;
    show_close("of a table with other values");
}

static void close_refusals(void)
{
    start();
    accepted("open bare", rozhinal_open_bare(LENT));
    accepted("post 0 1000", rozhinal_post(LENT, 0, ROZHINAL_NUMBER, 1000));
    now.table[NOT_KEPT + 1] = ROZHINAL_MARK_REFRESH;
    before = now;
    refused("close, an unstored figure marked refresh", rozhinal_close(LENT));
    now.idx[4]++;
    before = now;
    refused("close, a changed index besides", rozhinal_close(LENT));
    refused("close, a table of 54 bytes besides",
            rozhinal_close(SHEET_SLICE, now.idx, INDEX, now.table, TABLE - 1));
    refused("close, an index of 21 bytes besides",
            rozhinal_close(SHEET_SLICE, now.idx, INDEX + 1, now.table, TABLE));
    now.sheet[11] = 5;
    before = now;
    refused("close, a tag of 5 besides", rozhinal_close(LENT));
}

/* ---- Owed bytes ---- */

/* The owed byte and the mark of each record after an accepted call. */
static void owed(const char *call, rozhinal_answer a)
{
    printf("%s: %" PRIu64 " %" PRIu64 ", owed", call, a.number, a.offset);
    for (size_t i = 0; i < ITEMS; i++)
        printf(" %u", (unsigned)now.table[RECORD * i + OWED]);
    fputs(", marks", stdout);
    for (size_t i = 0; i < ITEMS; i++)
        printf(" %u", (unsigned)now.table[RECORD * i + 1]);
    putchar('\n');
    before = now;
}

static rozhinal_answer answer_of(rozhinal_reading r)
{
    return (rozhinal_answer){ r.number, r.offset };
}

static void the_owed(void)
{
    start();
    owed("open full", rozhinal_open_full(LENT));
    owed("drop 4", rozhinal_drop(LENT, 4));
    owed("drop 3", rozhinal_drop(LENT, 3));
    owed("open bare", rozhinal_open_bare(LENT));
    owed("post 0 1000", rozhinal_post(LENT, 0, ROZHINAL_NUMBER, 1000));
    owed("step 0, 3 is not owed", rozhinal_step(LENT, 0));
    refused("step 3", rozhinal_step(LENT, 3));
    owed("ask 3, which is kept", answer_of(rozhinal_ask(LENT, 3)));
    owed("keep 4", rozhinal_keep(LENT, 4));
    owed("drop 3, which is owed", rozhinal_drop(LENT, 3));
    owed("post 0 2000", rozhinal_post(LENT, 0, ROZHINAL_NUMBER, 2000));
    owed("step 0, 3 is owed", rozhinal_step(LENT, 0));
    owed("step 3", rozhinal_step(LENT, 3));
    owed("drop 4, marked refresh", rozhinal_drop(LENT, 4));
    owed("ask 0", answer_of(rozhinal_ask(LENT, 0)));
    owed("close", rozhinal_close(LENT));
}

/* What every call gives for a table. */
static void refused_by_all(void)
{
    uint64_t numbers[] = {
        rozhinal_post(LENT, 0, ROZHINAL_NUMBER, 1).number,
        rozhinal_swap(LENT, 0, 0, 1).number,
        rozhinal_keep(LENT, 4).number,
        rozhinal_drop(LENT, 4).number,
        rozhinal_step(LENT, 0).number,
        rozhinal_ask(LENT, ITEMS).number,
        board(PAIR * OVER, RESULT * OVER).number,
        rozhinal_close(LENT).number,
    };
    for (size_t k = 0; k < sizeof numbers / sizeof *numbers; k++)
        printf(" %" PRIu64, numbers[k]);
    putchar('\n');
    require(memcmp(&now, &before, sizeof now) == 0, "a refused call changed a lent byte");
}

/* Each false byte of an item, then the table is as it was. */
static void false_owed(const char *what, size_t item)
{
    static const uint8_t bytes[] = { 0, 1, 2, 255 };
    uint8_t *byte = now.table + RECORD * item + OWED, right = *byte;
    for (size_t k = 0; k < sizeof bytes; k++) {
        if (bytes[k] == right)
            continue;
        *byte = bytes[k];
        before = now;
        printf("%s, owed %u for %u:", what, (unsigned)*byte, (unsigned)right);
        refused_by_all();
    }
    *byte = right;
    before = now;
}

static void owed_refusals(void)
{
    static uint8_t table[12 * ITEMS];
    static const size_t lengths[] = { 10 * ITEMS, TABLE - 1, TABLE, TABLE + 1, 12 * ITEMS };
    start();
    for (size_t k = 0; k < sizeof lengths / sizeof *lengths; k++) {
        size_t length = lengths[k];
        printf("a table of %zu bytes: open bare %" PRIu64 ", open full %" PRIu64, length,
               rozhinal_open_bare(SHEET_SLICE, now.idx, INDEX, table, length).number,
               rozhinal_open_full(SHEET_SLICE, now.idx, INDEX, table, length).number);
        rozhinal_open_bare(SHEET_SLICE, now.idx, INDEX, table, TABLE);
        printf(", ask %" PRIu64 ", close %" PRIu64 "\n",
               rozhinal_ask(SHEET_SLICE, now.idx, INDEX, table, length, 0).number,
               rozhinal_close(SHEET_SLICE, now.idx, INDEX, table, length).number);
    }
    accepted("open bare", rozhinal_open_bare(LENT));
    accepted("post 0 1000", rozhinal_post(LENT, 0, ROZHINAL_NUMBER, 1000));
    false_owed("an entry", 0);
    false_owed("an unstored figure", 3);
    accepted("keep 4", rozhinal_keep(LENT, 4));
    false_owed("an entry", 0);
    false_owed("a stored figure", 3);
    false_owed("a stored figure", 4);
    accepted("drop 3", rozhinal_drop(LENT, 3));
    false_owed("an unstored figure", 3);
    accepted("step 0", rozhinal_step(LENT, 0));
}

/* ---- The retired spread ---- */

/* The example in an edition, with figure 3 of a spread. */
static void start_spread(uint8_t of_edition, uint8_t spread)
{
    printf("edition %u, spread %u\n", (unsigned)of_edition, (unsigned)spread);
    start();
    now.sheet[3] = of_edition;
    now.sheet[SPREAD_OF_3] = spread;
    before = now;
}

/* The tables that calls leave where figure 3 has spread 2, and where it defers. */
static struct tables {
    size_t count;
    uint8_t bytes[16][TABLE];
} forgetting, deferring;

static void note(struct tables *tables, const char *call, rozhinal_answer a)
{
    owed(call, a);
    memcpy(tables->bytes[tables->count++], now.table, TABLE);
}

static void told_in_edition_1(struct tables *tables, uint8_t spread)
{
    start_spread(ROZHINAL_EDITION_1, spread);
    note(tables, "open full", rozhinal_open_full(LENT));
    note(tables, "drop 4", rozhinal_drop(LENT, 4));
    note(tables, "post 2 5", rozhinal_post(LENT, 2, ROZHINAL_NUMBER, 5));
    note(tables, "step 2, 3 defers", rozhinal_step(LENT, 2));
    note(tables, "step 3, which is another", rozhinal_step(LENT, 3));
    note(tables, "post 0 1000", rozhinal_post(LENT, 0, ROZHINAL_NUMBER, 1000));
    note(tables, "step 0, 3 has notice and renews", rozhinal_step(LENT, 0));
    printf("3 is stored as %" PRId64 "\n", number_at(now.table + KEPT + 2));
    note(tables, "post 2 null", rozhinal_post(LENT, 2, ROZHINAL_NULL, 0));
    note(tables, "ask 4", answer_of(rozhinal_ask(LENT, 4)));
    note(tables, "post 2 0", rozhinal_post(LENT, 2, ROZHINAL_NUMBER, 0));
    note(tables, "step 2, 3 defers", rozhinal_step(LENT, 2));
    note(tables, "step 3, which is equal", rozhinal_step(LENT, 3));
    note(tables, "close", rozhinal_close(LENT));
    require(now.sheet[SPREAD_OF_3] == spread, "the spread of the sheet");
    ask(4);
}

/* In edition 2: the answer of both openings, then the number of every other call. */
static void refused_in_edition_2(const char *what, size_t place, uint8_t byte)
{
    uint8_t right = now.sheet[place];
    now.sheet[place] = byte;
    before = now;
    refused(what, rozhinal_open_bare(LENT));
    refused("the same, opened full", rozhinal_open_full(LENT));
    fputs("the same, other calls:", stdout);
    refused_by_all();
    now.sheet[place] = right;
    before = now;
}

static void the_retired_spread(void)
{
    told_in_edition_1(&forgetting, ROZHINAL_FORGET);
    told_in_edition_1(&deferring, ROZHINAL_DEFER);
    require(memcmp(&forgetting, &deferring, sizeof deferring) == 0, "the tables of spread 2 and 0");
    start_spread(ROZHINAL_EDITION_2, ROZHINAL_DEFER);
    accepted("open bare", rozhinal_open_bare(LENT));
    refused_in_edition_2("figure 4 has spread 2", SPREAD_OF_4, ROZHINAL_FORGET);
    refused_in_edition_2("figure 3 has spread 2", SPREAD_OF_3, ROZHINAL_FORGET);
    now.sheet[SPREAD_OF_3] = ROZHINAL_FORGET;
    refused_in_edition_2("figure 3 has spread 2, and so has 4", SPREAD_OF_4, ROZHINAL_FORGET);
    refused_in_edition_2("figure 3 has spread 2, and parent 3", PARENT_OF_3, 3);
    refused_in_edition_2("figure 3 has spread 2, and a blank for a name", NAME_OF_3, ' ');
    refused_in_edition_2("figure 3 has spread 2, and 2 has a tag of 5", 15, 5);
    refused_in_edition_2("figure 3 has spread 2, in edition 3", 3, 3);
    now.sheet[3] = ROZHINAL_EDITION_1;
    ask(4);
}

/* ---- Editions and large sheets ---- */

enum { LARGEST = ROZHINAL_MAX_ITEMS + 1 };

/* Of an edition and a size; the bytes after those lent stay as they are. */
struct large {
    size_t count, sheet_len, idx_len, table_len;
    uint8_t sheet[ROZHINAL_MAX_SHEET_BYTES(LARGEST)];
    uint8_t idx[ROZHINAL_INDEX_BYTES(LARGEST)];
    uint8_t table[ROZHINAL_TABLE_BYTES(LARGEST)];
};

static struct large large, large_before, edition_1;

#define LARGE                                                                                    \
    large.sheet, large.sheet_len, large.idx, large.idx_len, large.table, large.table_len

static void add(const uint8_t *bytes, size_t length)
{
    memcpy(large.sheet + large.sheet_len, bytes, length);
    large.sheet_len += length;
}

/* Entry 0, and figures that each sum it and the item at half their number; each keep and spread. */
static void make_large(unsigned of_edition, size_t count)
{
    memset(&large, 0xEE, sizeof large);
    large.count = count;
    large.sheet_len = 0;
    large.idx_len = ROZHINAL_INDEX_BYTES(count);
    large.table_len = ROZHINAL_TABLE_BYTES(count);
    add((const uint8_t[]){ 1, 4, 0, (uint8_t)(of_edition & 0xFF), (uint8_t)(of_edition >> 8),
                           (uint8_t)(count & 0xFF), (uint8_t)(count >> 8) }, 7);
    for (size_t i = 0; i < count && i < LARGEST; i++) {
        if (i == 0)
            add((const uint8_t[]){ 2, 1, 0, 'E' }, 4);
        else
            add((const uint8_t[]){ 3, 9, 0, ROZHINAL_SUM, i % 2, i % 3 % 2, 2,
                                   (uint8_t)(i / 2 & 0xFF), (uint8_t)(i / 2 >> 8), 0, 0, 'F' }, 12);
    }
    add((const uint8_t[]){ 4, 0, 0 }, 3);
    large_before = large;
}

/* Entry 0 so many times: once more than the item's number has binary digits. */
static int64_t times(size_t item)
{
    int64_t digits = 0;
    for (; item > 0; item /= 2)
        digits++;
    return digits + 1;
}

static void require_reading(size_t item, int64_t posted, const char *what)
{
    rozhinal_reading r = rozhinal_ask(LARGE, item);
    require(r.number == 0 && r.kind == ROZHINAL_NUMBER && r.value == posted * times(item), what);
}

/* A board of the last items, the highest first. */
static void require_large_board(int64_t posted)
{
    uint8_t items[PAIR * MOST] = { 0 }, results[RESULT * MOST];
    size_t count = large.count < MOST ? large.count : MOST;
    for (size_t k = 0; k < count; k++) {
        items[PAIR * k] = (uint8_t)((large.count - 1 - k) & 0xFF);
        items[PAIR * k + 1] = (uint8_t)((large.count - 1 - k) >> 8);
    }
    require(rozhinal_board(LARGE, items, PAIR * count, results, RESULT * count).number == 0,
            "a large board");
    for (size_t k = 0; k < count; k++)
        require(results[RESULT * k] == ROZHINAL_NUMBER
                    && number_at(results + RESULT * k + 1) == posted * times(large.count - 1 - k),
                "the results of a large board");
}

static void require_large_close(int64_t posted)
{
    require(rozhinal_close(LARGE).number == 0, "a large close");
    for (size_t i = 0; i < large.count; i++) {
        const uint8_t *record = large.table + ROZHINAL_TABLE_BYTES(i);
        require(record[0] == ROZHINAL_NUMBER && record[1] == ROZHINAL_MARK_NONE
                    && number_at(record + 2) == posted * times(i)
                    && record[OWED] == (i == 0 ? large.count > 1 : 2 * i < large.count),
                "a record after a large close");
    }
}

/* Every call but a swap, for which there is one entry only. */
static void use_large(void)
{
    size_t last = large.count - 1;
    require(rozhinal_open_full(LARGE).number == 0, "a large full opening");
    require(rozhinal_open_bare(LARGE).number == 0, "a large bare opening");
    require(rozhinal_post(LARGE, 0, ROZHINAL_NUMBER, 7).number == 0, "a large post");
    require_reading(last, 7, "a large ask");
    require(rozhinal_ask(LARGE, large.count).number == ROZHINAL_REFUSED_ITEM, "one item too many");
    require(rozhinal_swap(LARGE, 0, 0, 1).number == ROZHINAL_REFUSED_SWAP, "a large swap");
    if (last > 0) {
        require(rozhinal_keep(LARGE, last).number == 0, "a large keep");
        require(rozhinal_drop(LARGE, last / 2 + 1).number == 0, "a large drop");
    }
    require(rozhinal_post(LARGE, 0, ROZHINAL_NUMBER, -9).number == 0, "a large post");
    require(rozhinal_step(LARGE, 0).number == 0, "a large step");
    require_large_board(-9);
    require_large_close(-9);
    require(rozhinal_post(LARGE, 0, ROZHINAL_NUMBER, 11).number == 0, "a large post");
    require_reading(last / 2, 11, "a large ask after a close");
    require(memcmp(large.sheet, large_before.sheet, sizeof large.sheet) == 0, "a large sheet");
    require(memcmp(large.idx + large.idx_len, large_before.idx + large.idx_len,
                   sizeof large.idx - large.idx_len) == 0
                && memcmp(large.table + large.table_len, large_before.table + large.table_len,
                          sizeof large.table - large.table_len) == 0,
            "bytes after a large index or table");
}

/* On both sides of each size for which the library has scratch. */
static void the_sizes(void)
{
    static const size_t counts[] = { 1, 2, 127, 128, 129, 1023, 1024, 1025, 2048, 4095, 4096 };
    for (size_t k = 0; k < sizeof counts / sizeof *counts; k++) {
        if (counts[k] <= ROZHINAL_MAX_ITEMS_EDITION_1) {
            make_large(1, counts[k]);
            use_large();
            edition_1 = large;
        }
        make_large(2, counts[k]);
        use_large();
        printf("%zu items: a sheet of %zu bytes\n", counts[k], large.sheet_len);
        edition_1.sheet[3] = 2;
        if (counts[k] <= ROZHINAL_MAX_ITEMS_EDITION_1)
            require(memcmp(&large, &edition_1, sizeof large) == 0, "the bytes of both editions");
    }
}

static void the_limits(void)
{
    static const unsigned heads[][2] = {
        { 0, 5 },    { 1, 0 },     { 1, 1 },   { 1, 1024 }, { 1, 1025 }, { 1, 4096 }, { 1, 65535 },
        { 2, 0 },    { 2, 1 },     { 2, 1024 }, { 2, 1025 }, { 2, 4096 }, { 2, 4097 }, { 2, 65535 },
        { 3, 5 },    { 255, 5 },   { 256, 5 }, { 257, 5 },  { 258, 5 },  { 512, 5 },  { 513, 5 },
        { 3, 1025 }, { 65535, 5 },
    };
    for (size_t k = 0; k < sizeof heads / sizeof *heads; k++) {
        make_large(heads[k][0], heads[k][1]);
        /* More than there is room for is refused before index and table are looked at. */
        if (large.count > LARGEST)
            large.idx_len = large.table_len = 0;
        large_before = large;
        rozhinal_answer bare = rozhinal_open_bare(LARGE), full = rozhinal_open_full(LARGE);
        printf("edition %u, %u items: open bare %" PRIu64 " %" PRIu64 ", open full %" PRIu64
               " %" PRIu64, heads[k][0], heads[k][1], bare.number, bare.offset, full.number,
               full.offset);
        printf(", ask %" PRIu64 ", close %" PRIu64 "\n", rozhinal_ask(LARGE, 0).number,
               rozhinal_close(LARGE).number);
        require(bare.number == 0 || memcmp(&large, &large_before, sizeof large) == 0,
                "a refused large sheet changed a lent byte");
    }
}

/* The longest form of every item. */
static void the_longest(unsigned of_edition, size_t count)
{
    uint8_t figure[55] = { 3, 52, 0, ROZHINAL_SUM, 1, 0, ROZHINAL_MAX_PARENTS };
    memset(figure + 39, 'n', ROZHINAL_MAX_NAME);
    make_large(of_edition, count);
    large.sheet_len = 7;
    add((const uint8_t[]){ 2, 16, 0 }, 3);
    add(figure + 39, ROZHINAL_MAX_NAME);
    for (size_t i = 1; i < count; i++)
        add(figure, sizeof figure);
    add((const uint8_t[]){ 4, 0, 0 }, 3);
    require(large.sheet_len == ROZHINAL_MAX_SHEET_BYTES(count), "the most bytes of a sheet");
    rozhinal_answer opened = rozhinal_open_full(LARGE);
    rozhinal_answer posted = rozhinal_post(LARGE, 0, ROZHINAL_NUMBER, 3);
    rozhinal_reading r = rozhinal_ask(LARGE, count - 1);
    printf("edition %u, %zu bytes: %" PRIu64 ", %" PRIu64 ", %" PRIu64 " %" PRId64, of_edition,
           large.sheet_len, opened.number, posted.number, r.number, r.value);
    large.sheet[large.sheet_len++] = 0;
    opened = rozhinal_open_full(LARGE);
    printf("; and a byte: %" PRIu64 " %" PRIu64 "\n", opened.number, opened.offset);
}

static void the_editions(void)
{
    the_limits();
    the_sizes();
    the_longest(1, ROZHINAL_MAX_ITEMS_EDITION_1);
    the_longest(2, ROZHINAL_MAX_ITEMS_EDITION_1);
    the_longest(2, ROZHINAL_MAX_ITEMS_EDITION_2);
}

/* A null pointer goes with length 0. */
static void null_pointers(void)
{
    start();
    refused("no bytes at all", rozhinal_open_full(NULL, 0, NULL, 0, NULL, 0));
    refused("no sheet", rozhinal_post(NULL, 0, now.idx, INDEX, now.table, TABLE, 0, 1, 0));
    refused("no index", rozhinal_open_bare(SHEET_SLICE, NULL, 0, now.table, TABLE));
    refused("no table", rozhinal_open_bare(SHEET_SLICE, now.idx, INDEX, NULL, 0));
    refused("no index and no table", answer_of(rozhinal_ask(SHEET_SLICE, NULL, 0, NULL, 0, 4)));
    printf("print into nothing: %" PRId64 "\n", rozhinal_print(ROZHINAL_NULL, 0, NULL, 0));
    refused("a board of nothing", rozhinal_board(NULL, 0, NULL, 0, NULL, 0, NULL, 0, NULL, 0));
    refused("a swap of nothing", rozhinal_swap(NULL, 0, NULL, 0, NULL, 0, 0, 1, 1));
    refused("a swap without a table",
            rozhinal_swap(SHEET_SLICE, now.idx, INDEX, NULL, 0, 0, 1, 1));
    refused("a close of nothing", rozhinal_close(NULL, 0, NULL, 0, NULL, 0));
    refused("a close without a table", rozhinal_close(SHEET_SLICE, now.idx, INDEX, NULL, 0));
    accepted("open bare", rozhinal_open_bare(LENT));
    accepted("no items and no results", rozhinal_board(LENT, NULL, 0, NULL, 0));
    refused("no results", rozhinal_board(LENT, now.items, PAIR, NULL, 0));
    refused("no items", rozhinal_board(LENT, NULL, 0, now.results, RESULT));
}

int main(int count, char **arguments)
{
    edition = count == 2 ? (uint8_t)atoi(arguments[1]) : ROZHINAL_EDITION_1;
    the_example();
    the_range();
    sheet_refusals();
    other_refusals();
    the_swap();
    swap_refusals();
    the_board();
    board_refusals();
    the_close();
    close_refusals();
    the_owed();
    owed_refusals();
    the_retired_spread();
    the_editions();
    null_pointers();
    return faults == 0 ? 0 : 1;
}
