/*
 * The size macros with each sort of argument, as C and as C++: no warning under strict options, the
 * same size whatever the argument's type, and constants where C wants one.
 */
#include "rozhinal.h"

#ifdef __cplusplus
#define ALWAYS static_assert
#else
#define ALWAYS _Static_assert
#endif

enum { N = 5, INDEX = ROZHINAL_INDEX_BYTES(N), RESULTS = ROZHINAL_RESULTS_BYTES(2 + 1) };

uint8_t idx[ROZHINAL_INDEX_BYTES(N)], table[ROZHINAL_TABLE_BYTES(5)];
uint8_t items[ROZHINAL_ITEMS_BYTES(3)], results[RESULTS];
uint8_t sheet[ROZHINAL_MAX_SHEET_BYTES(N)];
static const size_t stack = ROZHINAL_STACK_BYTES_FOR(N);
static const uint16_t edition = ROZHINAL_EDITION_FOR(ROZHINAL_MAX_ITEMS);

ALWAYS(INDEX == 20 && sizeof idx == 20 && sizeof table == 55, "index and table");
ALWAYS(sizeof items == 6 && sizeof results == 27 && sizeof sheet == 249, "lists and sheet");
ALWAYS(sizeof ROZHINAL_INDEX_BYTES(1) == sizeof(size_t), "a size");
ALWAYS(sizeof ROZHINAL_STACK_BYTES_FOR(1) == sizeof(size_t), "a size");
ALWAYS(ROZHINAL_TABLE_BYTES(1 ? 2 : 3) == 22 && 1 + ROZHINAL_ITEMS_BYTES(1 + 1) * 2 == 9, "signs");

/* All macros of n at once, as one number. */
#define ALL(n)                                                                                   \
    (ROZHINAL_INDEX_BYTES(n) + 3 * ROZHINAL_TABLE_BYTES(n) + 5 * ROZHINAL_ITEMS_BYTES(n)         \
     + 7 * ROZHINAL_RESULTS_BYTES(n) + 11 * ROZHINAL_MAX_SHEET_BYTES(n)                          \
     + 13 * ROZHINAL_STACK_BYTES_FOR(n) + (ROZHINAL_EDITION_FOR(n) == 2 ? 17U : 0U))

#define OF(type, name)                                                                           \
    static size_t name(type n)                                                                   \
    {                                                                                            \
        return ALL(n);                                                                           \
    }

OF(int, of_int)
OF(unsigned, of_unsigned)
OF(long long, of_long_long)
OF(size_t, of_size)
OF(uint16_t, of_short)
OF(int16_t, of_signed_short)

static int same(int n)
{
    size_t size = of_int(n);
    return size == of_unsigned((unsigned)n) && size == of_long_long(n) && size == of_size((size_t)n)
           && size == of_short((uint16_t)n) && size == of_signed_short((int16_t)n);
}

int main(void)
{
    static const int counts[] = { 1, 2, 64, 128, 129, 1024, 1025, 4096 };
    for (size_t k = 0; k < sizeof counts / sizeof *counts; k++)
        if (!same(counts[k]))
            return 1;
    int four = 4;
    uint8_t entries[ROZHINAL_INDEX_BYTES(8)];
    const uint8_t *last = entries + ROZHINAL_INDEX_BYTES(four + 3);
    int bits = 4, agree = last - entries == 28 && ROZHINAL_EDITION_FOR(four - 5) == 2
                && ROZHINAL_STACK_BYTES_FOR(-1) == ROZHINAL_STACK_BYTES_4096
                && ROZHINAL_STACK_BYTES_FOR(bits | 1024) == ROZHINAL_STACK_BYTES_4096
                && ROZHINAL_TABLE_BYTES(bits | 1) == 55 && ALL(5) == of_int(5) && ALL(1025U) == of_int(1025)
                && ALL((size_t)4096) == of_int(4096);
    return agree && stack == ROZHINAL_STACK_BYTES_128 && edition == 2 ? 0 : 1;
}
