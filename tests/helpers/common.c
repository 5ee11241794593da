#include "common.h"

#include <inttypes.h>
#include <stdio.h>
#include <stdlib.h>
#include <string.h>

static uint64_t state, seeded;

void does_not_hold(const char *file, int line, const char *what)
{
    fprintf(stderr, "%s:%d: with seed %" PRIu64 " it does not hold that %s\n", file, line, seeded,
            what);
    exit(1);
}

void seed(uint64_t number)
{
    state = seeded = number;
}

/* splitmix64 */
uint64_t roll(void)
{
    uint64_t z = state += UINT64_C(0x9E3779B97F4A7C15);
    z = (z ^ z >> 30) * UINT64_C(0xBF58476D1CE4E5B9);
    z = (z ^ z >> 27) * UINT64_C(0x94D049BB133111EB);
    return z ^ z >> 31;
}

size_t below(size_t bound)
{
    return (size_t)(roll() % bound);
}

void *exactly(size_t length)
{
    void *bytes = malloc(length);
    HOLDS(bytes != NULL || length == 0);
    return bytes;
}

void *exact_copy(const void *bytes, size_t length)
{
    void *copy = exactly(length);
    if (length > 0)
        memcpy(copy, bytes, length);
    return copy;
}

/* A name of few letters, so that many items have the same. */
static void put_name(char *name, size_t length)
{
    for (size_t k = 0; k < length; k++)
        name[k] = "ab!~"[below(4)];
    name[length] = '\0';
}

static size_t right_count(unsigned rule)
{
    switch (rule) {
    case ROZHINAL_DIFFERENCE:
    case ROZHINAL_SHARE:
    case ROZHINAL_AT_LEAST:
        return 2;
    case ROZHINAL_CHOICE:
        return 3;
    default:
        return 1 + below(ROZHINAL_MAX_PARENTS);
    }
}

struct wish good_wish(size_t number, uint8_t *levels)
{
    struct wish wish = { .figure = number > 0 && below(number < 20 ? 4 : 40) > 0 };
    uint8_t level = 0;
    put_name(wish.name, below(3) > 0 ? 1 + below(2) : 1 + below(ROZHINAL_MAX_NAME));
    if (wish.figure) {
        wish.rule = 1 + (unsigned)below(8);
        wish.keep = below(2);
        wish.spread = (unsigned)below(2);
        wish.parent_count = right_count(wish.rule);
        for (size_t k = 0; k < wish.parent_count; k++) {
            size_t parent = below(2) ? below(number) : number - 1;
            wish.parents[k] = levels[parent] < ROZHINAL_MAX_LEVEL ? parent : 0;
            if (levels[wish.parents[k]] >= level)
                level = levels[wish.parents[k]] + 1;
        }
    }
    levels[number] = level;
    return wish;
}

static void change(struct wish *wish, size_t number)
{
    static const char *const names[] = { "", " ", "a\x7F", "\x80", "a b", "abcdefghijklmnopq" };
    switch (below(7)) {
    case 0:
        strcpy(wish->name, names[below(sizeof names / sizeof *names)]);
        break;
    case 1:
        wish->rule = (unsigned)below(below(2) ? 11 : 256);
        break;
    case 2:
        wish->spread = (unsigned)below(below(2) ? 4 : 256);
        break;
    case 3:
        wish->parent_count = below(WISH_PARENTS + 1);
        break;
    case 4:
        wish->parents[below(3)] = number + below(3);
        break;
    case 5:
        wish->parents[0] = number > 0 ? number - 1 : below(65536);
        break;
    default:
        wish->figure = !wish->figure;
    }
}

struct wish any_wish(size_t number, const uint8_t *levels)
{
    uint8_t copy[ROZHINAL_MAX_ITEMS + 1];
    memcpy(copy, levels, number);
    struct wish wish = good_wish(number, copy);
    for (size_t changes = below(4); changes > 0; changes--)
        change(&wish, number);
    return wish;
}

size_t write_wish(rozhelp_writer *writer, const struct wish *wish)
{
    return wish->figure ? rozhelp_figure(writer, wish->name, wish->rule, wish->keep, wish->spread,
                                         wish->parents, wish->parent_count)
                        : rozhelp_entry(writer, wish->name);
}

static uint8_t *put_byte(uint8_t *to, size_t byte)
{
    *to = (uint8_t)byte;
    return to + 1;
}

static uint8_t *put_pair(uint8_t *to, size_t number)
{
    return put_byte(put_byte(to, number % 256), number / 256);
}

size_t put_wish(uint8_t *to, const struct wish *wish)
{
    size_t name_len = strlen(wish->name);
    uint8_t *at = put_byte(to, wish->figure ? 3 : 2);
    at = put_pair(at, wish->figure ? 4 + 2 * wish->parent_count + name_len : name_len);
    if (wish->figure) {
        at = put_byte(put_byte(at, wish->rule), wish->keep);
        at = put_byte(put_byte(at, wish->spread), wish->parent_count);
        for (size_t k = 0; k < wish->parent_count; k++)
            at = put_pair(at, wish->parents[k]);
    }
    memcpy(at, wish->name, name_len);
    return (size_t)(at - to) + name_len;
}

size_t put_around(uint8_t *sheet, size_t fields_len, unsigned edition, size_t count)
{
    put_pair(put_pair(put_pair(put_byte(sheet, 1), 4), edition), count);
    put_pair(put_byte(sheet + HEAD_BYTES + fields_len, 4), 0);
    return HEAD_BYTES + fields_len + END_BYTES;
}

rozhinal_answer open_sheet(const uint8_t *sheet, size_t sheet_len, uint8_t **idx)
{
    size_t n = rozhinal_item_count(sheet, sheet_len);
    if (n > ROZHINAL_MAX_ITEMS)
        n = 0; /* the sheet is at fault, which is tested before the sizes */
    uint8_t *written = exactly(ROZHINAL_INDEX_BYTES(n)), *table = exactly(ROZHINAL_TABLE_BYTES(n));
    rozhinal_answer answer = rozhinal_open_bare(sheet, sheet_len, written, ROZHINAL_INDEX_BYTES(n),
                                                table, ROZHINAL_TABLE_BYTES(n));
    free(table);
    if (idx != NULL)
        *idx = written;
    else
        free(written);
    return answer;
}

bool is_wish(const rozhelp_item *item, const struct wish *wish)
{
    bool same = strcmp(item->name, wish->name) == 0 && item->figure == wish->figure;
    if (!wish->figure)
        return same && item->rule == 0 && item->keep == 0 && item->spread == 0
               && item->parent_count == 0;
    return same && item->rule == wish->rule && item->keep == wish->keep
           && item->spread == wish->spread && item->parent_count == wish->parent_count
           && memcmp(item->parents, wish->parents, item->parent_count * sizeof *item->parents) == 0;
}

bool same_item(const rozhelp_item *one, const rozhelp_item *other)
{
    return one->number == other->number && one->offset == other->offset
           && strcmp(one->name, other->name) == 0 && one->figure == other->figure
           && one->rule == other->rule && one->keep == other->keep && one->spread == other->spread
           && one->parent_count == other->parent_count
           && memcmp(one->parents, other->parents, sizeof one->parents) == 0;
}
