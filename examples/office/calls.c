/* Commands that each make a call of the library, and save what it changed. */
#include "office.h"

#include <inttypes.h>
#include <stdio.h>

/* What is wrong, in these words; false, for the command that is not done. */
static bool refuse_in(uint64_t number, const char *words)
{
    printf("refused with %" PRIu64 ": %s\n", number, words);
    return false;
}

#define RANGE "-1,000,000,000,000,000 to 1,000,000,000,000,000"

/* What is wrong with a command, and what to type. */
static const char *words_of(uint64_t number)
{
    switch (number) {
    case ROZHINAL_REFUSED_ITEM:
        return "no item has that number: type show for all items and their numbers";
    case ROZHINAL_REFUSED_SORT:
        return "an entry is always stored: keep and drop a figure";
    case ROZHINAL_REFUSED_POSTED:
        return "the number is out of range: type one from " RANGE;
    case ROZHINAL_REFUSED_UNMARKED:
        return "the item has no mark, so there is nothing to do: list shows what is marked";
    default:
        return rozhelp_refusal_text(number);
    }
}

bool refuse(uint64_t number)
{
    return refuse_in(number, words_of(number));
}

/* After a call on what is stored: if it was accepted, saves, and shows the item's record. */
static bool done(struct office *office, rozhinal_answer answer, uint64_t item)
{
    if (answer.number != ROZHINAL_ACCEPTED)
        return refuse(answer.number);
    if (!save(office))
        return false;
    show_heads();
    show_item(office, (size_t)item);
    return true;
}

/* What an entry has after a posting. */
static void show_posted(const struct office *office, uint64_t item)
{
    const uint8_t *record = record_of(office->ledger.table, (size_t)item);
    show_answer(office, (size_t)item, record[0], rozhelp_number(record + NUMBER_AT));
}

bool post(struct office *office, uint64_t item, const char *word)
{
    uint64_t kind;
    int64_t number;
    if (!read_value(word, &kind, &number))
        return false;
    rozhinal_answer answer = rozhinal_post(LENT(&office->ledger), item, kind, number);
    if (answer.number == ROZHINAL_REFUSED_SORT)
        return refuse_in(answer.number, "a figure is worked out; type show: the rows marked entry "
                                        "can be posted to");
    if (answer.number != ROZHINAL_ACCEPTED)
        return refuse(answer.number);
    if (!save_posting(office))
        return false;
    log_post(office, (size_t)item);
    show_posted(office, item);
    return true;
}

bool keep(struct office *office, uint64_t item)
{
    return done(office, rozhinal_keep(LENT(&office->ledger), item), item);
}

bool drop(struct office *office, uint64_t item)
{
    return done(office, rozhinal_drop(LENT(&office->ledger), item), item);
}

bool step(struct office *office, uint64_t item)
{
    return done(office, rozhinal_step(LENT(&office->ledger), item), item);
}

/* What is wrong with a swap, of which neither entry has moved. */
static const char *swap_words(uint64_t number, bool twice)
{
    switch (number) {
    case ROZHINAL_REFUSED_SORT:
        return "only entries give and take: type two entries";
    case ROZHINAL_REFUSED_POSTED:
        return "neither has moved, since an entry would be out of range: it goes from " RANGE;
    case ROZHINAL_REFUSED_SWAP:
        return twice ? "an entry cannot give to itself: type two entries"
                     : "the quantity is under 1: type at least 1";
    default:
        return words_of(number);
    }
}

/* Both entries change in one call, and are in the file by one save. */
bool swap(struct office *office, char **words)
{
    uint64_t giver, taker;
    int64_t quantity;
    if (!find_item(office, words[0], &giver) || !find_item(office, words[1], &taker)
        || !read_quantity(words[2], &quantity))
        return false;
    rozhinal_answer answer = rozhinal_swap(LENT(&office->ledger), giver, taker, quantity);
    if (answer.number != ROZHINAL_ACCEPTED)
        return refuse_in(answer.number, swap_words(answer.number, giver == taker));
    if (!save_posting(office))
        return false;
    log_swap(office, (size_t)giver, (size_t)taker, quantity);
    show_posted(office, giver);
    show_posted(office, taker);
    return true;
}

bool ask(struct office *office, uint64_t item)
{
    rozhinal_reading reading = rozhinal_ask(LENT(&office->ledger), item);
    if (reading.number != ROZHINAL_ACCEPTED)
        return refuse(reading.number);
    if (!save(office))
        return false;
    show_answer(office, (size_t)item, reading.kind, reading.value);
    return true;
}

/* The list of a board from words that each name an item; if one does not, says so. */
static bool read_board(const struct office *office, char **words, size_t count, uint8_t *items)
{
    for (size_t k = 0; k < count; k++) {
        uint64_t item;
        if (!find_item(office, words[k], &item))
            return false;
        if (item >= office->count)
            return no_item(office, words[k]);
        items[2 * k] = (uint8_t)(item & 0xFF);
        items[2 * k + 1] = (uint8_t)(item >> 8);
    }
    return true;
}

static void show_board(const struct office *office, const uint8_t *items, const uint8_t *results,
                       size_t count)
{
    for (size_t k = 0; k < count; k++) {
        const uint8_t *result = results + ROZHINAL_RESULTS_BYTES(k);
        size_t item = (size_t)items[2 * k] + 256 * (size_t)items[2 * k + 1];
        printf("%-16s  ", office->items[item].name);
        print_value(VALUE_COLUMNS, result[0], rozhelp_number(result + 1));
        putchar('\n');
    }
}

bool board(struct office *office, char **words, size_t count)
{
    uint8_t items[ROZHINAL_ITEMS_BYTES(ROZHINAL_MAX_BOARD)];
    uint8_t results[ROZHINAL_RESULTS_BYTES(ROZHINAL_MAX_BOARD)];
    if (count > ROZHINAL_MAX_BOARD) {
        printf("a board has at most %d items, not %zu: type fewer, or show for all\n",
               ROZHINAL_MAX_BOARD, count);
        return false;
    }
    if (!read_board(office, words, count, items))
        return false;
    rozhinal_answer answer =
        rozhinal_board(LENT(&office->ledger), items, ROZHINAL_ITEMS_BYTES(count), results,
                       ROZHINAL_RESULTS_BYTES(count));
    if (answer.number != ROZHINAL_ACCEPTED)
        return refuse(answer.number);
    if (!save(office))
        return false;
    show_board(office, items, results, count);
    return true;
}

/* The season-close run. No mark stands afterwards, so that the table itself has every value. */
bool close_season(struct office *office)
{
    rozhinal_answer answer = rozhinal_close(LENT(&office->ledger));
    if (answer.number != ROZHINAL_ACCEPTED)
        return refuse(answer.number);
    if (!save(office))
        return false;
    printf("item  %-16s  %*s\n", "name", VALUE_COLUMNS, "value");
    for (size_t i = 0; i < office->count; i++)
        show_value(office, office->ledger.table, i);
    return true;
}

bool list(const struct office *office, uint64_t item)
{
    if (item >= office->count)
        return refuse(ROZHINAL_REFUSED_ITEM);
    show_item(office, (size_t)item);
    return true;
}
