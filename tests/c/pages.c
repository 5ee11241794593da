/*
 * Every function with slices that begin, then that end, where memory begins or ends, and with what
 * it only reads in memory that cannot be written. An access outside them ends the program. The sheets
 * are the example, and those on both sides of each size for which the library has scratch.
 */
#define _GNU_SOURCE
#include "rozhinal.h"

#include <stdio.h>
#include <stdlib.h>
#include <string.h>
#include <sys/mman.h>

enum { PAGE = 4096, LISTED = 64, ITEMS = 5 };
enum { INDEX = ROZHINAL_INDEX_BYTES(ITEMS), TABLE = ROZHINAL_TABLE_BYTES(ITEMS) };

static const uint8_t example[] = {
    1, 4, 0, 1, 0, ITEMS, 0, 2, 1, 0, 'A', 2, 1, 0, 'L', 2, 1, 0, 'S',
    3, 9, 0, 1, 1, 0, 2, 0, 0, 2, 0, 'T', 3, 9, 0, 2, 0, 0, 2, 3, 0, 1, 0, 'B', 4, 0, 0,
};

static void require(int right, const char *what)
{
    if (!right) {
        puts(what);
        exit(1);
    }
}

/* The bytes of so many whole pages. */
static size_t whole_pages(size_t length)
{
    return (length + PAGE - 1) / PAGE * PAGE;
}

/* So many bytes, at the end or at the front of pages between two that cannot be accessed. */
static uint8_t *slice(size_t length, int at_end)
{
    size_t whole = whole_pages(length);
    uint8_t *pages = mmap(NULL, whole + 2 * PAGE, PROT_NONE, MAP_PRIVATE | MAP_ANONYMOUS, -1, 0);
    require(pages != MAP_FAILED, "no memory");
    require(mprotect(pages + PAGE, whole, PROT_READ | PROT_WRITE) == 0, "no page to write to");
    memset(pages + PAGE, 0, whole);
    return pages + PAGE + (at_end ? whole - length : 0);
}

/* From now on the pages of these bytes can only be read. */
static void only_read_all(uint8_t *bytes, size_t length)
{
    uint8_t *page = bytes - (uintptr_t)bytes % PAGE;
    require(mprotect(page, whole_pages(length), PROT_READ) == 0, "no page to read from");
}

static void only_read(uint8_t *bytes)
{
    only_read_all(bytes, PAGE);
}

#define LENT sheet, sizeof example, idx, INDEX, table, TABLE
#define LISTS items, 2 * LISTED, results, 9 * LISTED

/* Entry 0 has 1000, and entry 2 nothing. */
static void check_swaps(const uint8_t *sheet, const uint8_t *idx, uint8_t *table)
{
    require(rozhinal_swap(LENT, 0, 2, 400).number == 0, "swap");
    require(table[2] == (600 & 0xFF) && table[2 * 11 + 2] == (400 & 0xFF), "entries 0 and 2");
    require(rozhinal_swap(LENT, 2, 2, 1).number == 18, "a swap of an entry with itself");
    require(rozhinal_swap(LENT, 0, 2, INT64_MAX).number == 13, "a swap beyond the range");
}

static void run(int at_end)
{
    uint8_t *sheet = slice(sizeof example, at_end), *idx = slice(INDEX, at_end);
    uint8_t *table = slice(TABLE, at_end), *scratch = slice(ROZHINAL_PRINT_BYTES, at_end);
    uint8_t *items = slice(2 * LISTED, at_end), *results = slice(9 * LISTED, at_end);
    uint8_t *beyond = slice(2 * LISTED, at_end);
    memcpy(sheet, example, sizeof example);
    for (size_t k = 0; k < LISTED; k++)
        items[2 * k] = (uint8_t)(k % ITEMS);
    beyond[2 * LISTED - 2] = ITEMS;
    only_read(sheet), only_read(items), only_read(beyond);
    require(rozhinal_open_full(LENT).number == 0, "open full");
    require(rozhinal_open_bare(LENT).number == 0, "open bare");
    only_read(idx);
    require(rozhinal_post(LENT, 0, ROZHINAL_NUMBER, 1000).number == 0, "post");
    require(rozhinal_keep(LENT, 4).number == 0, "keep");
    require(rozhinal_step(LENT, 0).number == 0, "step");
    require(rozhinal_board(LENT, LISTS).number == 0, "board");
    require(results[0] == ROZHINAL_NUMBER && results[9 * 63 + 1] == (1000 & 0xFF), "results");
    require(rozhinal_drop(LENT, 4).number == 0, "drop");
    require(rozhinal_post(LENT, 1, ROZHINAL_NUMBER, 300).number == 0, "post");
    check_swaps(sheet, idx, table);
    require(rozhinal_board(LENT, beyond, 2 * LISTED, results, 9 * LISTED).number == 11, "item 5");
    require(rozhinal_board(LENT, items, 2 * LISTED - 1, results, 9 * LISTED).number == 17, "odd");
    require(rozhinal_board(LENT, items, 0, results, 0).number == 0, "an empty board");
    require(rozhinal_close(sheet, sizeof example, idx, INDEX, table, TABLE - 1).number == 8,
            "a refused close");
    require(rozhinal_close(LENT).number == 0, "close");
    require(table[TABLE - 11] == ROZHINAL_NUMBER && table[TABLE - 9] == (700 & 0xFF), "figure 4");
    require(table[TABLE - 12] == 1 && table[TABLE - 1] == 0, "owed bytes of 3 and 4");
    require(rozhinal_ask(LENT, 4).value == 700, "ask");
    require(rozhinal_ask(LENT, ITEMS).number == 11, "a refused ask");
    require(rozhinal_print(ROZHINAL_NUMBER, -7, scratch, ROZHINAL_PRINT_BYTES) == 2, "print");
}

enum { ENTRY = 4, FIGURE = 12 };

/* Two entries, and figures that each sum the first and the one at half their number. */
static size_t large_bytes(size_t n)
{
    return 7 + 2 * ENTRY + FIGURE * (n - 2) + 3;
}

static void make_large(uint8_t *sheet, size_t n)
{
    const uint8_t head[] = { 1, 4, 0, ROZHINAL_EDITION_FOR(n), 0, (uint8_t)n, (uint8_t)(n >> 8),
                             2, 1, 0, 'A', 2, 1, 0, 'S' };
    memcpy(sheet, head, sizeof head);
    uint8_t *field = sheet + sizeof head;
    for (size_t i = 2; i < n; i++, field += FIGURE) {
        const uint8_t figure[FIGURE] = { 3, 9, 0, 1, i % 2, i % 3 % 2, 2, (uint8_t)(i / 2),
                                         (uint8_t)(i / 2 >> 8), 0, 0, 'F' };
        memcpy(field, figure, FIGURE);
    }
    memcpy(field, (const uint8_t[]){ 4, 0, 0 }, 3);
}

#define LARGE                                                                                    \
    sheet, large_bytes(n), idx, ROZHINAL_INDEX_BYTES(n), table, ROZHINAL_TABLE_BYTES(n)

/* Every figure leans on entry 0, so that all are numbers. */
static void use_large(const uint8_t *sheet, const uint8_t *idx, uint8_t *table, size_t n,
                      const uint8_t *items, uint8_t *results)
{
    require(rozhinal_post(LARGE, 0, ROZHINAL_NUMBER, 1000).number == 0, "a large post");
    require(rozhinal_keep(LARGE, n - 1).number == 0, "a large keep");
    require(rozhinal_step(LARGE, 0).number == 0, "a large step");
    require(rozhinal_swap(LARGE, 0, 1, 400).number == 0, "a large swap");
    require(rozhinal_board(LARGE, LISTS).number == 0, "a large board");
    require(rozhinal_drop(LARGE, n - 1).number == 0, "a large drop");
    rozhinal_reading asked = rozhinal_ask(LARGE, n - 1);
    require(asked.number == 0 && asked.kind == ROZHINAL_NUMBER, "a large ask");
    require(results[1] == (asked.value & 0xFF), "the results of a large board");
    require(rozhinal_close(LARGE).number == 0, "a large close");
    require(table[ROZHINAL_TABLE_BYTES(n - 1) + 2] == (asked.value & 0xFF), "the last record");
    require(rozhinal_ask(LARGE, n).number == 11, "a large ask that is refused");
}

/* On the board the last item stands at the front. */
static void run_large(size_t n, int at_end)
{
    size_t sheet_len = large_bytes(n), idx_len = ROZHINAL_INDEX_BYTES(n);
    uint8_t *sheet = slice(sheet_len, at_end), *idx = slice(idx_len, at_end);
    uint8_t *table = slice(ROZHINAL_TABLE_BYTES(n), at_end);
    uint8_t *items = slice(2 * LISTED, at_end), *results = slice(9 * LISTED, at_end);
    make_large(sheet, n);
    for (size_t k = 0; k < LISTED; k++) {
        items[2 * k] = (uint8_t)((n - 1 - k) & 0xFF);
        items[2 * k + 1] = (uint8_t)((n - 1 - k) >> 8);
    }
    only_read_all(sheet, sheet_len), only_read(items);
    require(rozhinal_open_full(LARGE).number == 0, "a large full opening");
    require(rozhinal_open_bare(LARGE).number == 0, "a large bare opening");
    only_read_all(idx, idx_len);
    use_large(sheet, idx, table, n, items, results);
}

int main(void)
{
    static const size_t counts[] = { 127, 128, 129, 1023, 1024, 1025, 4095, 4096 };
    for (int at_end = 0; at_end <= 1; at_end++) {
        run(at_end);
        for (size_t k = 0; k < sizeof counts / sizeof *counts; k++)
            run_large(counts[k], at_end);
    }
    return 0;
}
