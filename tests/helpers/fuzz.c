/*
 * The helpers on damaged sheets: bytes changed, cut off, put in or taken out, or all random. What
 * is lent is of just its length, so that valgrind or a sanitizer sees a byte past it, and what is
 * given is held to what the header states.
 *
 *     fuzz SEED SHEETS FILE ...     each FILE is a good sheet; random ones are made besides
 */
#include "common.h"

#include <inttypes.h>
#include <stdio.h>
#include <stdlib.h>
#include <string.h>

enum { MOST = 16384, FILES = 8, MADE_ITEMS = 30 };

struct bytes {
    size_t length;
    uint8_t at[MOST];
};

static struct bytes files[FILES];
static size_t file_count, accepted, items_seen;

/* ---- Sheets ---- */

static void read_file(const char *path, struct bytes *file)
{
    FILE *from = fopen(path, "rb");
    HOLDS(from != NULL);
    file->length = fread(file->at, 1, MOST, from);
    HOLDS(file->length > 0 && file->length < MOST);
    fclose(from);
}

static void make_sheet(struct bytes *sheet)
{
    uint8_t levels[MADE_ITEMS];
    static rozhelp_writer writer;
    size_t count = 1 + below(MADE_ITEMS);
    rozhelp_begin(&writer, sheet->at, MOST);
    for (size_t i = 0; i < count; i++) {
        struct wish wish = good_wish(i, levels);
        write_wish(&writer, &wish);
    }
    sheet->length = rozhelp_end(&writer);
    if (below(4) == 0)
        sheet->at[3] = ROZHINAL_EDITION_2;
}

/* The last item may be wrong in a field that is whole, or in a short one at the sheet's end. */
static void make_wrong(struct bytes *sheet)
{
    uint8_t levels[MADE_ITEMS] = { 0 }, *at = sheet->at + HEAD_BYTES;
    size_t count = 1 + below(MADE_ITEMS), size = 0;
    for (size_t i = 0; i < count; i++, at += size) {
        struct wish wish = i + 1 < count ? good_wish(i, levels) : any_wish(i, levels);
        size = put_wish(at, &wish);
    }
    sheet->length = put_around(sheet->at, (size_t)(at - sheet->at) - HEAD_BYTES,
                               1 + (unsigned)below(2), count);
    if (below(2) == 0) {
        uint8_t *last = at - size;
        last[1] = (uint8_t)below(size - 2);
        sheet->length = (size_t)(last - sheet->at) + 3 + last[1];
    }
}

static void make_random(struct bytes *sheet)
{
    sheet->length = below(64);
    for (size_t k = 0; k < sheet->length; k++)
        sheet->at[k] = (uint8_t)(below(2) ? below(6) : roll());
    if (sheet->length >= 7 && below(4) > 0)
        memcpy(sheet->at, (const uint8_t[]){ 1, 4, 0, 1, 0, 3, 0 }, 7);
}

/* Moves the bytes after a place by so many, up or down. */
static void shift(struct bytes *sheet, size_t place, size_t to)
{
    memmove(sheet->at + to, sheet->at + place, sheet->length - place);
    sheet->length = sheet->length - place + to;
}

static void damage(struct bytes *sheet)
{
    size_t place = sheet->length > 0 ? below(below(3) ? sheet->length : 1 + sheet->length / 8) : 0;
    size_t some = 1 + below(4);
    switch (below(6)) {
    case 0:
        sheet->length = place;
        break;
    case 1:
        if (sheet->length + some <= MOST)
            shift(sheet, place, place + some);
        break;
    case 2:
        if (place + some <= sheet->length)
            shift(sheet, place + some, place);
        break;
    case 3:
        sheet->at[place] = (uint8_t)(sheet->at[place] + (below(2) ? 1 : 255));
        break;
    default:
        sheet->at[place] = (uint8_t)(below(2) ? below(8) : roll());
    }
}

static void next_sheet(struct bytes *sheet)
{
    size_t sort = below(64);
    if (sort < file_count) {
        sheet->length = files[sort].length;
        memcpy(sheet->at, files[sort].at, files[sort].length);
    } else if (sort < 14) {
        make_random(sheet);
    } else if (sort < 24) {
        make_wrong(sheet);
    } else {
        make_sheet(sheet);
    }
    for (size_t times = below(4); times > 0; times--)
        damage(sheet);
}

/* ---- What holds of any bytes ---- */

/* The form that the header states, and the bytes of the sheet that it was read from. */
static void look_at_item(const rozhelp_item *item, const uint8_t *sheet, size_t sheet_len)
{
    struct wish wish = { .figure = item->figure, .rule = item->rule, .spread = item->spread };
    uint8_t field[WISH_BYTES];
    size_t name_len = strlen(item->name);
    HOLDS(name_len >= 1 && name_len <= ROZHINAL_MAX_NAME && item->number < ROZHINAL_MAX_ITEMS);
    HOLDS(item->parent_count <= ROZHINAL_MAX_PARENTS);
    for (size_t k = 0; k < name_len; k++)
        HOLDS(item->name[k] >= '!' && item->name[k] <= '~');
    for (size_t k = 0; k < ROZHINAL_MAX_PARENTS; k++)
        HOLDS(k < item->parent_count ? item->parents[k] < item->number : item->parents[k] == 0);
    if (!item->figure)
        HOLDS(item->rule + item->keep + item->spread + item->parent_count == 0);
    memcpy(wish.name, item->name, name_len + 1);
    memcpy(wish.parents, item->parents, sizeof item->parents);
    wish.parent_count = item->parent_count;
    size_t size = put_wish(field, &wish);
    if (item->figure)
        field[4] = (uint8_t)item->keep;
    HOLDS(item->offset <= sheet_len && size <= sheet_len - item->offset);
    HOLDS(memcmp(sheet + item->offset, field, size) == 0);
}

/* The walk, and by it the finding of each name; how many items it gives. */
static size_t look_at_walk(const uint8_t *sheet, size_t sheet_len)
{
    static rozhelp_item items[ROZHINAL_MAX_ITEMS + 1];
    size_t count = 0;
    rozhelp_walk walk = rozhelp_walk_items(sheet, sheet_len);
    while (rozhelp_next(&walk, &items[count])) {
        look_at_item(&items[count], sheet, sheet_len);
        HOLDS(items[count].number == count && count < rozhinal_item_count(sheet, sheet_len));
        count++;
    }
    rozhelp_item kept = { .number = 77, .name = "kept" }, same = kept;
    HOLDS(!rozhelp_next(&walk, &kept) && same_item(&kept, &same));
    for (size_t k = 0; k < 3 && count > 0; k++) {
        size_t found = 0, first, chosen = below(count), lowest = ROZHELP_NO_ITEM;
        for (size_t i = 0; i < count; i++)
            if (strcmp(items[i].name, items[chosen].name) == 0 && found++ == 0)
                lowest = i;
        HOLDS(rozhelp_find(sheet, sheet_len, items[chosen].name, &first) == found);
        HOLDS(first == lowest && rozhelp_find(sheet, sheet_len, items[chosen].name, NULL) == found);
    }
    size_t none = 0;
    HOLDS(rozhelp_find(sheet, sheet_len, NULL, &none) == 0 && none == ROZHELP_NO_ITEM);
    HOLDS(rozhelp_find(sheet, sheet_len, "", NULL) == 0);
    HOLDS(rozhelp_find(sheet, sheet_len, "abcdefghijklmnopq", NULL) == 0);
    return count;
}

/* By the index of the opening, where there is one: the items of the walk, and no others. */
static void look_at_index(const uint8_t *sheet, size_t sheet_len, const uint8_t *idx, size_t count)
{
    rozhelp_walk walk = rozhelp_walk_items(sheet, sheet_len);
    rozhelp_item item, other;
    for (size_t i = 0; i < count; i++) {
        HOLDS(rozhelp_item_at(sheet, sheet_len, idx, ROZHINAL_INDEX_BYTES(count), i, &other));
        HOLDS(rozhelp_next(&walk, &item) && same_item(&item, &other));
    }
    HOLDS(!rozhelp_item_at(sheet, sheet_len, idx, ROZHINAL_INDEX_BYTES(count), count, &other));
}

/* By an index of any bytes and any length. */
static void look_at_wrong_index(const uint8_t *sheet, size_t sheet_len)
{
    size_t idx_len = below(20);
    uint8_t *idx = exactly(idx_len);
    for (size_t k = 0; k < idx_len; k++)
        idx[k] = (uint8_t)(k % 4 == 0 ? below(sheet_len < 256 ? sheet_len + 1 : 256)
                                      : below(8) == 0 ? roll() : 0);
    size_t numbers[] = { 0, 1, 2, 3, 4, below(6), SIZE_MAX, SIZE_MAX / 4, SIZE_MAX / 4 + 1 };
    rozhelp_item kept = { .number = 77, .name = "kept" };
    for (size_t k = 0; k < sizeof numbers / sizeof *numbers; k++) {
        rozhelp_item item = kept;
        if (!rozhelp_item_at(sheet, sheet_len, idx, idx_len, numbers[k], &item)) {
            HOLDS(same_item(&item, &kept));
        } else {
            HOLDS(item.number == numbers[k] && item.number < idx_len / 4);
            look_at_item(&item, sheet, sheet_len);
        }
    }
    free(idx);
}

/* The words for an answer, whole and cut by the room for them. */
static void look_at_words(const uint8_t *sheet, size_t sheet_len, rozhinal_answer answer)
{
    char whole[ROZHELP_TEXT_BYTES];
    size_t length = rozhelp_explain(whole, sizeof whole, sheet, sheet_len, answer);
    HOLDS(length > 0 && length < ROZHELP_TEXT_BYTES && strlen(whole) == length);
    HOLDS(whole[length - 1] == '\n');
    size_t room = below(below(2) ? length + 3 : 3);
    char *text = exactly(room);
    HOLDS(rozhelp_explain(text, room, sheet, sheet_len, answer) == length);
    if (room > 0) {
        size_t shown = length < room ? length : room - 1;
        HOLDS(memcmp(text, whole, shown) == 0 && text[shown] == '\0');
    }
    free(text);
}

static void look_at(const uint8_t *sheet, size_t sheet_len)
{
    uint8_t *idx;
    rozhinal_answer answer = open_sheet(sheet, sheet_len, &idx);
    size_t count = look_at_walk(sheet, sheet_len);
    items_seen += count;
    if (answer.number == ROZHINAL_ACCEPTED) {
        accepted++;
        HOLDS(count == rozhinal_item_count(sheet, sheet_len));
        look_at_index(sheet, sheet_len, idx, count);
    }
    free(idx);
    look_at_wrong_index(sheet, sheet_len);
    look_at_words(sheet, sheet_len, answer);
    /* an answer that is not of this sheet */
    answer.number = below(4) ? below(24) : roll();
    answer.offset = below(4) ? below(sheet_len + 3) : roll();
    look_at_words(sheet, sheet_len, answer);
}

static void look_at_values(void)
{
    uint8_t *bytes = exactly(8);
    uint64_t bits = below(2) ? roll() : below(100000), kind = below(6);
    for (size_t k = 0; k < 8; k++)
        bytes[k] = (uint8_t)(bits >> 8 * k);
    int64_t number = rozhelp_number(bytes);
    HOLDS((uint64_t)number == bits);
    free(bytes);
    char *text = exactly(ROZHELP_VALUE_BYTES), wanted[32] = "UNK";
    if (kind == ROZHINAL_NUMBER && number >= -ROZHINAL_LIMIT && number <= ROZHINAL_LIMIT)
        snprintf(wanted, sizeof wanted, "%" PRId64, number);
    else if (number == 0 && (kind == ROZHINAL_NULL || kind == ROZHINAL_OUT))
        strcpy(wanted, kind == ROZHINAL_OUT ? "OUT" : "-");
    HOLDS(rozhelp_value_text(kind, number, text) == text && strcmp(text, wanted) == 0);
    free(text);
}

int main(int argc, char **argv)
{
    static struct bytes sheet;
    HOLDS(argc >= 3 && argc <= 3 + FILES);
    for (file_count = 0; file_count < (size_t)argc - 3; file_count++)
        read_file(argv[3 + file_count], &files[file_count]);
    uint64_t first = strtoull(argv[1], NULL, 10), sheets = strtoull(argv[2], NULL, 10);
    look_at(NULL, 0);
    for (uint64_t k = 0; k < sheets; k++) {
        seed(first + k);
        next_sheet(&sheet);
        uint8_t *lent = exact_copy(sheet.at, sheet.length);
        look_at(lent, sheet.length);
        free(lent);
        look_at_values();
    }
    printf("%" PRIu64 " sheets, %zu that open, %zu items seen\n", sheets, accepted, items_seen);
    HOLDS(accepted > sheets / 8 && accepted < sheets);
    return 0;
}
