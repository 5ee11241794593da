/*
 * The helpers on random sheets, from fixed seeds: what the writer writes is what is written by
 * hand, opens, and is walked back; what it refuses the library refuses with the same number.
 *
 *     property ROUNDS
 */
#include "common.h"

#include <stdio.h>
#include <stdlib.h>
#include <string.h>

enum { ROOM = ROZHINAL_MAX_SHEET_BYTES(ROZHINAL_MAX_ITEMS) + WISH_BYTES, SMALL = 150 };

static struct wish wishes[ROZHINAL_MAX_ITEMS + 1];
static uint8_t levels[ROZHINAL_MAX_ITEMS + 1];
static uint8_t plain[ROOM], written[ROOM], before[ROOM];
static size_t refused[8]; /* by number */

/* The edition in which a wrong item is tried: the retired spread is wrong in edition 2 alone. */
static unsigned edition_of(const struct wish *wish, size_t count)
{
    return wish->figure && wish->spread == ROZHINAL_FORGET ? ROZHINAL_EDITION_2
                                                          : ROZHINAL_EDITION_FOR(count);
}

/* One more item, right or wrong, after so many: the writer says what the library does. */
static void try_item(const rozhelp_writer *writer, size_t fields_len, const struct wish *wish)
{
    static rozhelp_writer trial;
    size_t count = writer->count + 1;
    size_t size = put_wish(plain + HEAD_BYTES + fields_len, wish);
    size_t length = put_around(plain, fields_len + size, edition_of(wish, count), count);
    uint64_t number = open_sheet(plain, length, NULL).number;
    trial = *writer;
    memcpy(before, written, HEAD_BYTES + fields_len + WISH_BYTES);
    size_t item = write_wish(&trial, wish);
    refused[number]++;
    HOLDS(trial.fault == number);
    HOLDS(item == (number == 0 ? writer->count : ROZHELP_NO_ITEM));
    if (number != 0) {
        HOLDS(trial.count == writer->count && rozhelp_entry(&trial, "") == ROZHELP_NO_ITEM);
        HOLDS(rozhelp_end(&trial) == 0 && trial.fault == number);
        HOLDS(memcmp(before, written, HEAD_BYTES + fields_len + WISH_BYTES) == 0);
    }
}

/* How many have the name, and the first, by looking at each. */
static size_t search(const char *name, size_t count, size_t *first)
{
    size_t found = 0;
    *first = ROZHELP_NO_ITEM;
    for (size_t i = count; i > 0; i--)
        if (strcmp(wishes[i - 1].name, name) == 0) {
            *first = i - 1;
            found++;
        }
    return found;
}

static void read_back(const uint8_t *sheet, size_t sheet_len, size_t count)
{
    uint8_t *idx;
    HOLDS(open_sheet(sheet, sheet_len, &idx).number == ROZHINAL_ACCEPTED);
    rozhelp_walk walk = rozhelp_walk_items(sheet, sheet_len);
    rozhelp_item item, other;
    for (size_t i = 0; i < count; i++) {
        HOLDS(rozhelp_next(&walk, &item) && item.number == i && is_wish(&item, &wishes[i]));
        HOLDS(rozhelp_item_at(sheet, sheet_len, idx, ROZHINAL_INDEX_BYTES(count), i, &other));
        HOLDS(same_item(&item, &other));
        HOLDS(!rozhelp_item_at(sheet, sheet_len, idx, ROZHINAL_INDEX_BYTES(i) + 3, i, &other));
        if (count <= SMALL || i % 50 == 0) {
            size_t first, by_hand;
            HOLDS(rozhelp_find(sheet, sheet_len, item.name, &first)
                  == search(item.name, count, &by_hand));
            HOLDS(first == by_hand);
        }
    }
    HOLDS(!rozhelp_next(&walk, &item) && !rozhelp_next(&walk, &item));
    HOLDS(!rozhelp_item_at(sheet, sheet_len, idx, ROZHINAL_INDEX_BYTES(count), count, &other));
    free(idx);
}

/* With each room below what the sheet takes the writer stops, and has written within it. */
static void try_rooms(size_t count, size_t sheet_len)
{
    static rozhelp_writer writer;
    for (size_t room = 0; room <= sheet_len; room++) {
        uint8_t *bytes = exactly(room);
        rozhelp_begin(&writer, bytes, room);
        for (size_t i = 0; i < count; i++)
            HOLDS(write_wish(&writer, &wishes[i]) == (writer.fault == 0 ? i : ROZHELP_NO_ITEM));
        size_t length = rozhelp_end(&writer);
        if (room < sheet_len)
            HOLDS(length == 0 && writer.fault == open_sheet(plain, room, NULL).number);
        else
            HOLDS(length == sheet_len && memcmp(bytes, plain, sheet_len) == 0);
        free(bytes);
    }
}

/* After the end: it can be ended again, and takes no item. */
static void try_after_end(rozhelp_writer *writer, size_t sheet_len)
{
    size_t size = put_wish(plain + sheet_len, &wishes[0]);
    memcpy(before, writer->bytes, sheet_len);
    HOLDS(rozhelp_end(writer) == sheet_len && writer->fault == 0);
    HOLDS(write_wish(writer, &wishes[0]) == ROZHELP_NO_ITEM);
    HOLDS(writer->fault == open_sheet(plain, sheet_len + size, NULL).number);
    HOLDS(rozhelp_end(writer) == 0 && memcmp(before, writer->bytes, sheet_len) == 0);
}

static void try_sheet(size_t count)
{
    static rozhelp_writer writer;
    size_t fields_len = 0;
    rozhelp_begin(&writer, written, sizeof written);
    for (size_t i = 0; i < count; i++) {
        if (count <= SMALL) {
            struct wish wish = any_wish(i, levels);
            try_item(&writer, fields_len, &wish);
        }
        wishes[i] = good_wish(i, levels);
        HOLDS(write_wish(&writer, &wishes[i]) == i);
        fields_len += put_wish(plain + HEAD_BYTES + fields_len, &wishes[i]);
    }
    if (count == ROZHINAL_MAX_ITEMS) {
        wishes[count] = any_wish(count, levels); /* one too many, whatever it is */
        try_item(&writer, fields_len, &wishes[count]);
    }
    size_t length = put_around(plain, fields_len, ROZHINAL_EDITION_FOR(count), count);
    HOLDS(rozhelp_end(&writer) == length && memcmp(written, plain, length) == 0);
    uint8_t *sheet = exact_copy(written, length);
    read_back(sheet, length, count);
    free(sheet);
    if (count <= 5)
        try_rooms(count, length);
    try_after_end(&writer, length);
}

/* A chain of levels 0 to 64, each figure the one before's child, and one beyond it. */
static void try_levels(void)
{
    static rozhelp_writer writer;
    rozhelp_begin(&writer, written, sizeof written);
    HOLDS(rozhelp_entry(&writer, "a") == 0);
    for (size_t i = 1; i <= ROZHINAL_MAX_LEVEL; i++) {
        size_t parents[] = { 0, i - 1 };
        HOLDS(rozhelp_figure(&writer, "b", ROZHINAL_SUM, true, ROZHINAL_RENEW, parents, 2) == i);
    }
    struct wish wish = { .figure = true, .rule = ROZHINAL_SUM, .parent_count = 1, .name = "c" };
    wish.parents[0] = ROZHINAL_MAX_LEVEL;
    memcpy(plain, written, writer.length);
    try_item(&writer, writer.length - HEAD_BYTES, &wish);
    HOLDS(refused[ROZHINAL_REFUSED_LEVEL] > 0);
    HOLDS(open_sheet(written, rozhelp_end(&writer), NULL).number == ROZHINAL_ACCEPTED);
}

int main(int argc, char **argv)
{
    static const size_t large[] = { 1023, 1024, 1025, 4095, 4096 };
    size_t rounds = argc == 2 ? strtoul(argv[1], NULL, 10) : 0;
    for (size_t round = 0; round < rounds; round++) {
        seed(round);
        try_sheet(1 + below(round % 10 == 0 ? SMALL : 12));
    }
    for (size_t k = 0; k < sizeof large / sizeof *large; k++) {
        seed(large[k]);
        try_sheet(large[k]);
    }
    try_levels();
    printf("items tried: %zu right", refused[0]);
    for (size_t number = 3; number < 8; number++)
        printf(", %zu refused with %zu", refused[number], number);
    putchar('\n');
    for (size_t number = 3; number < 8; number++)
        HOLDS(refused[number] > 0);
    return 0;
}
