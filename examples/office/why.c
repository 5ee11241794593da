/* Why an item has its value: its rule in words, what decides, and its parents up the circuit. */
#include "office.h"

#include <inttypes.h>
#include <stdio.h>
#include <stdlib.h>
#include <string.h>

struct inquiry {
    const struct office *office;
    const uint8_t *table;                /* a closed copy */
    size_t depth;                        /* so many levels of parents are shown */
    size_t unfolded[ROZHINAL_MAX_ITEMS]; /* so many of them are already, above each figure */
};

static unsigned kind_of(const struct inquiry *inquiry, size_t i)
{
    return record_of(inquiry->table, i)[0];
}

static int64_t number_of(const struct inquiry *inquiry, size_t i)
{
    return rozhelp_number(record_of(inquiry->table, i) + NUMBER_AT);
}

/* ---- What decides ---- */

enum cause {
    PLAIN,      /* the rule says it all */
    AS_PARENT,  /* it is NULL or OUT because the deciding parent is */
    ALL_NULL,   /* it is NULL because all parents are */
    SOME_NULL,  /* it leaves out a parent that is NULL */
    PICKED,     /* it is the deciding parent, of several */
    NO_SHARE,   /* it is OUT because the deciding parent is no number of ten-thousandths */
    OUT_OF_RANGE
};

struct reason {
    enum cause cause;
    size_t parent; /* the deciding one, an item */
};

/* The first parent of a kind; false if there is none. */
static bool find_parent(const struct inquiry *inquiry, const rozhelp_item *item, unsigned kind,
                        size_t *parent)
{
    for (size_t k = 0; k < item->parent_count; k++) {
        *parent = item->parents[k];
        if (kind_of(inquiry, *parent) == kind)
            return true;
    }
    return false;
}

static struct reason choice_reason(const struct inquiry *inquiry, const rozhelp_item *item)
{
    const size_t *parents = item->parents;
    if (kind_of(inquiry, parents[0]) != ROZHINAL_NUMBER)
        return (struct reason){ AS_PARENT, parents[0] };
    return (struct reason){ PICKED, parents[number_of(inquiry, parents[0]) > 0 ? 1 : 2] };
}

/* Whether an item has the value of another, which is a number. */
static bool has_value_of(const struct inquiry *inquiry, size_t i, size_t other)
{
    return kind_of(inquiry, i) == ROZHINAL_NUMBER
           && number_of(inquiry, i) == number_of(inquiry, other);
}

/* Of a smallest or largest: the first parent that has its value. */
static struct reason picked_reason(const struct inquiry *inquiry, const rozhelp_item *item)
{
    size_t k = 0;
    while (k + 1 < item->parent_count
           && !has_value_of(inquiry, item->parents[k], item->number))
        k++;
    return (struct reason){ PICKED, item->parents[k] };
}

static struct reason reason_of(const struct inquiry *inquiry, const rozhelp_item *item)
{
    size_t parent = 0;
    bool both_needed = item->rule == ROZHINAL_SHARE || item->rule == ROZHINAL_AT_LEAST;
    if (item->rule == ROZHINAL_CHOICE)
        return choice_reason(inquiry, item);
    if (find_parent(inquiry, item, ROZHINAL_OUT, &parent))
        return (struct reason){ AS_PARENT, parent };
    bool some_null = find_parent(inquiry, item, ROZHINAL_NULL, &parent);
    if (some_null && both_needed)
        return (struct reason){ AS_PARENT, parent };
    if (kind_of(inquiry, item->number) == ROZHINAL_NULL)
        return (struct reason){ ALL_NULL, parent };
    if (kind_of(inquiry, item->number) == ROZHINAL_OUT && item->rule == ROZHINAL_SHARE)
        return (struct reason){ NO_SHARE, item->parents[1] };
    if (kind_of(inquiry, item->number) == ROZHINAL_OUT)
        return (struct reason){ OUT_OF_RANGE, parent };
    if (item->rule == ROZHINAL_SMALLEST || item->rule == ROZHINAL_LARGEST)
        return picked_reason(inquiry, item);
    return (struct reason){ some_null && item->rule != ROZHINAL_COUNT ? SOME_NULL : PLAIN, parent };
}

/* ---- In words ---- */

static void print_labelled_value(const struct inquiry *inquiry, size_t i, const char *between)
{
    print_label(inquiry->office, i);
    fputs(between, stdout);
    print_value(0, kind_of(inquiry, i), number_of(inquiry, i));
}

enum { NAMED = 3 };

/* Items by name, if they are not too many; false if they are. */
static bool print_labels(const struct inquiry *inquiry, const size_t *items, size_t count)
{
    for (size_t k = 0; k < count && count <= NAMED; k++) {
        if (k > 0)
            fputs(k + 1 < count ? ", " : " and ", stdout);
        print_label(inquiry->office, items[k]);
    }
    return count <= NAMED;
}

static void print_parents(const struct inquiry *inquiry, const rozhelp_item *item)
{
    if (!print_labels(inquiry, item->parents, item->parent_count))
        printf("the %zu items below", item->parent_count);
}

/* The rule in words: %0 to %2 are parents, %* is all of them. */
static void print_rule(const struct inquiry *inquiry, const rozhelp_item *item)
{
    static const char *const rules[] = {
        [ROZHINAL_SUM] = "the sum of %*",
        [ROZHINAL_DIFFERENCE] = "%0 less %1",
        [ROZHINAL_SMALLEST] = "the smallest of %*",
        [ROZHINAL_LARGEST] = "the largest of %*",
        [ROZHINAL_SHARE] = "%1 ten-thousandths of %0, rounded down",
        [ROZHINAL_CHOICE] = "%1 if %0 is above 0, else %2",
        [ROZHINAL_COUNT] = "how many of %* are recorded",
        [ROZHINAL_AT_LEAST] = "1 if %0 is at least %1, else 0",
    };
    bool count_of_one = item->rule == ROZHINAL_COUNT && item->parent_count == 1;
    const char *rule = count_of_one ? "1 if %0 is recorded, else -" : rules[item->rule];
    for (const char *at = rule; *at != '\0'; at++) {
        if (*at != '%')
            putchar(*at);
        else if (*++at == '*')
            print_parents(inquiry, item);
        else
            print_label(inquiry->office, item->parents[*at - '0']);
    }
}

/* What a sum or a difference comes to. 16 numbers within the range fit 64 bits. */
static int64_t exact_result(const struct inquiry *inquiry, const rozhelp_item *item)
{
    int64_t result = 0;
    for (size_t k = 0; k < item->parent_count; k++) {
        int64_t number = number_of(inquiry, item->parents[k]);
        result += item->rule == ROZHINAL_DIFFERENCE && k == 1 ? -number : number;
    }
    return result;
}

/* Why a figure is OUT that no parent makes so. */
static void print_origin(const struct inquiry *inquiry, const rozhelp_item *item,
                         struct reason reason)
{
    if (reason.cause == NO_SHARE) {
        print_labelled_value(inquiry, reason.parent, " is ");
        printf(", and ten-thousandths go from 0 to %" PRId64, ROZHINAL_WHOLE);
    } else {
        printf("it comes to %" PRId64 ", and values go from %" PRId64 " to %" PRId64,
               exact_result(inquiry, item), -ROZHINAL_LIMIT, ROZHINAL_LIMIT);
    }
}

/* Which way a choice goes. */
static void print_choice(const struct inquiry *inquiry, size_t switch_item, size_t picked)
{
    print_label(inquiry->office, switch_item);
    printf(" is %sabove 0, so it is ", number_of(inquiry, switch_item) > 0 ? "" : "not ");
    print_label(inquiry->office, picked);
}

static bool is_among(const size_t *items, size_t count, size_t item)
{
    size_t k = 0;
    while (k < count && items[k] != item)
        k++;
    return k < count;
}

/* The parents that have the value of a smallest or largest, each once; one of them is its value. */
static void print_picked(const struct inquiry *inquiry, const rozhelp_item *item)
{
    size_t equal[ROZHINAL_MAX_PARENTS], count = 0;
    for (size_t k = 0; k < item->parent_count; k++) {
        if (has_value_of(inquiry, item->parents[k], item->number)
            && !is_among(equal, count, item->parents[k]))
            equal[count++] = item->parents[k];
    }
    fputs("here ", stdout);
    if (!print_labels(inquiry, equal, count)) {
        print_label(inquiry->office, equal[0]);
        printf(" and %zu others", count - 1);
    }
}

/* What decides, after the rule. */
static void print_reason(const struct inquiry *inquiry, const rozhelp_item *item)
{
    struct reason reason = reason_of(inquiry, item);
    if (reason.cause == PLAIN)
        return;
    fputs("; ", stdout);
    switch (reason.cause) {
    case AS_PARENT:
        print_label(inquiry->office, reason.parent);
        fputs(kind_of(inquiry, reason.parent) == ROZHINAL_OUT ? " is OUT, and so is this"
                                                          : " has nothing recorded, nor has this",
              stdout);
        break;
    case ALL_NULL:
        fputs("nothing is recorded for it", stdout);
        break;
    case SOME_NULL:
        fputs("nothing recorded counts as 0", stdout);
        break;
    case PICKED:
        if (item->rule == ROZHINAL_CHOICE)
            print_choice(inquiry, item->parents[0], reason.parent);
        else
            print_picked(inquiry, item);
        break;
    default:
        print_origin(inquiry, item, reason);
    }
}

/* ---- Up the circuit ---- */

/*
 * A parent has a lower number, and a sheet at most 64 levels: the recursion ends. A figure is
 * unfolded again where more levels are left for it than above, so at most once for each depth.
 */
static void explain(struct inquiry *inquiry, size_t i, size_t level)
{
    enum { INDENT = 2 };
    char text[ITEM_WORD_BYTES];
    const rozhelp_item *item = &inquiry->office->items[i];
    size_t left = inquiry->depth - level;
    printf("%*s", (int)(INDENT * level), "");
    print_labelled_value(inquiry, i, " = ");
    if (!item->figure) {
        puts(kind_of(inquiry, i) == ROZHINAL_NULL ? ", an entry with nothing recorded"
                                                  : ", an entry");
    } else if (inquiry->unfolded[i] > 0 && inquiry->unfolded[i] >= left) {
        puts(" (see above)");
    } else if (left == 0) {
        printf(" ... (type why %s for more)\n", item_word(inquiry->office, i, text));
    } else {
        inquiry->unfolded[i] = left;
        fputs(": ", stdout);
        print_rule(inquiry, item);
        print_reason(inquiry, item);
        putchar('\n');
        for (size_t k = 0; k < item->parent_count; k++)
            explain(inquiry, item->parents[k], level + 1);
    }
}

/* Marks the parents that make a figure OUT; false if none does, and it is OUT by itself. */
static bool reach_parents(const struct inquiry *inquiry, const rozhelp_item *item, bool *reached)
{
    struct reason reason = reason_of(inquiry, item);
    if (reason.cause != AS_PARENT && reason.cause != PICKED)
        return false;
    reached[reason.parent] = true;
    for (size_t k = 0; k < item->parent_count && item->rule != ROZHINAL_CHOICE; k++)
        reached[item->parents[k]] |= kind_of(inquiry, item->parents[k]) == ROZHINAL_OUT;
    return true;
}

/*
 * Where the OUT of a figure begins, however far up the circuit: each figure that is OUT by itself,
 * and by which this one is.
 */
static void explain_out(const struct inquiry *inquiry, size_t top)
{
    bool reached[ROZHINAL_MAX_ITEMS] = { false };
    reached[top] = true;
    for (size_t i = top + 1; i-- > 0;) {
        const rozhelp_item *item = &inquiry->office->items[i];
        if (!reached[i] || reach_parents(inquiry, item, reached) || i == top)
            continue;
        fputs("OUT begins at ", stdout);
        print_label(inquiry->office, i);
        fputs(": ", stdout);
        print_origin(inquiry, item, reason_of(inquiry, item));
        putchar('\n');
    }
}

bool why(const struct office *office, uint64_t item, const char *depth)
{
    struct inquiry inquiry = { .office = office, .depth = USUAL_DEPTH };
    if (item >= office->count)
        return refuse(ROZHINAL_REFUSED_ITEM);
    if (depth != NULL && !read_count(depth, ROZHINAL_MAX_LEVEL, &inquiry.depth))
        return false;
    uint8_t *table = closed_copy(office);
    if (table == NULL)
        return false;
    inquiry.table = table;
    explain(&inquiry, (size_t)item, 0);
    if (kind_of(&inquiry, (size_t)item) == ROZHINAL_OUT)
        explain_out(&inquiry, (size_t)item);
    free(table);
    return true;
}
