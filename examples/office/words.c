/* The words of a command. */
#include "office.h"

#include <ctype.h>
#include <inttypes.h>
#include <stdio.h>
#include <stdlib.h>
#include <string.h>
#include <strings.h>

static const char digits[] = "0123456789";

bool is_digits(const char *word)
{
    return word[0] != '\0' && word[strspn(word, digits)] == '\0';
}

static int lower(char letter)
{
    return tolower((unsigned char)letter);
}

void print_word(const char *word)
{
    enum { SHOWN = 40 };
    size_t shown = 0;
    putchar('\'');
    for (; *word != '\0' && shown < SHOWN; word++, shown++)
        putchar(*word > ' ' && *word <= '~' ? *word : '?');
    printf("%s'", *word != '\0' ? "..." : "");
}

bool is_near(const char *typed, const char *word)
{
    while (*typed != '\0' && lower(*typed) == lower(*word))
        typed++, word++;
    bool left = *typed != '\0', more = *word != '\0';
    return strcasecmp(typed, word) == 0 || (left && strcasecmp(typed + 1, word) == 0)
           || (more && strcasecmp(typed, word + 1) == 0)
           || (left && more && strcasecmp(typed + 1, word + 1) == 0)
           || (left && more && lower(typed[1]) == lower(word[0])
               && lower(typed[0]) == lower(word[1]) && strcasecmp(typed + 2, word + 2) == 0);
}

/* ---- Items ---- */

bool is_by_number(const char *word)
{
    return word[0] == '#' && is_digits(word + 1);
}

/*
 * How many items a word names, and the first of them: # and a number, or a name. A number counts as
 * one, and may be of no item: one too large for 64 bits becomes the largest.
 */
static size_t look_up(const struct office *office, const char *word, uint64_t *item)
{
    size_t found = 0;
    if (is_by_number(word)) {
        *item = strtoull(word + 1, NULL, 10);
        return 1;
    }
    for (size_t i = 0; i < office->count; i++) {
        if (strcmp(office->items[i].name, word) == 0 && found++ == 0)
            *item = i;
    }
    return found;
}

static bool differs_in_case(const char *typed, const char *name)
{
    return strcasecmp(typed, name) == 0;
}

/* Any two letters are one letter apart: shorter names are not taken for one another. */
static bool may_mean(const char *typed, const char *name)
{
    enum { SHORTEST = 3 };
    return strlen(typed) >= SHORTEST && strlen(name) >= SHORTEST && is_near(typed, name);
}

/* The first item whose name is like the word; the count of items if there is none. */
static size_t first_like(const struct office *office, const char *word,
                         bool (*is_like)(const char *typed, const char *name))
{
    size_t i = 0;
    while (i < office->count && !is_like(word, office->items[i].name))
        i++;
    return i;
}

bool no_item(const struct office *office, const char *word)
{
    size_t meant = first_like(office, word, differs_in_case);
    bool capitals = meant < office->count;
    if (!capitals)
        meant = first_like(office, word, may_mean);
    print_word(word);
    if (is_digits(word) && strtoull(word, NULL, 10) < office->count) {
        printf(" is no item; by number it is #%s\n", word);
    } else if (meant < office->count && !is_by_number(word)) {
        printf(" is no item%s; did you mean ", capitals ? ": capitals count" : "");
        print_label(office, meant);
        puts("?");
    } else {
        puts(" is no item: type show for all names, or # and an item's number");
    }
    return false;
}

bool find_item(const struct office *office, const char *word, uint64_t *item)
{
    size_t found = look_up(office, word, item);
    if (found == 1)
        return true;
    if (found == 0)
        return no_item(office, word);
    print_word(word);
    printf(" names %zu items, the first is #%" PRIu64 ": type # and the number of the right one\n",
           found, *item);
    return false;
}

const char *item_word(const struct office *office, size_t i, char word[ITEM_WORD_BYTES])
{
    uint64_t item = 0;
    const char *name = office->items[i].name;
    if (look_up(office, name, &item) == 1 && item == i)
        return name;
    snprintf(word, ITEM_WORD_BYTES, "#%zu", i);
    return word;
}

/* ---- Numbers ---- */

/*
 * Whether it is all digits, or has a comma before each three of them but the first. After a 0 a
 * comma is more likely a decimal one, and is not taken.
 */
static bool is_amount(const char *word)
{
    size_t first = strspn(word, digits);
    if (word[first] == '\0')
        return first > 0;
    if (first == 0 || first > 3 || word[0] == '0')
        return false;
    for (word += first; word[0] == ',' && strspn(word + 1, digits) == 3; word += 4)
        continue;
    return *word == '\0';
}

/* A number, which may have a sign. One too large for 64 bits becomes one that no call takes. */
static bool read_number(const char *word, int64_t *number)
{
    bool negative = word[0] == '-';
    word += word[0] == '-' || word[0] == '+';
    if (!is_amount(word))
        return false;
    int64_t size = 0;
    for (; *word != '\0'; word++) {
        int digit = *word - '0';
        if (*word != ',')
            size = size > (INT64_MAX - digit) / 10 ? INT64_MAX : 10 * size + digit;
    }
    *number = negative ? -size : size;
    return true;
}

#define WHOLE_NUMBER "type a whole number of grams, such as 1000 or 1,000"

bool read_value(const char *word, uint64_t *kind, int64_t *number)
{
    *kind = ROZHINAL_NULL;
    *number = 0;
    if (strcasecmp(word, "null") == 0)
        return true;
    *kind = ROZHINAL_NUMBER;
    if (read_number(word, number))
        return true;
    print_word(word);
    puts(" is no value: " WHOLE_NUMBER ", or null for nothing recorded");
    return false;
}

bool read_quantity(const char *word, int64_t *quantity)
{
    if (read_number(word, quantity))
        return true;
    print_word(word);
    puts(" is no quantity: " WHOLE_NUMBER);
    return false;
}

bool read_count(const char *word, size_t most, size_t *count)
{
    int64_t number;
    if (read_number(word, &number) && number >= 1 && (uint64_t)number <= most) {
        *count = (size_t)number;
        return true;
    }
    print_word(word);
    printf(" does not fit here: type a whole number from 1 to %zu\n", most);
    return false;
}

const char *value_word(const uint8_t *record, char word[ROZHELP_VALUE_BYTES])
{
    if (record[0] == ROZHINAL_NULL)
        return "null";
    return rozhelp_value_text(record[0], rozhelp_number(record + NUMBER_AT), word);
}
