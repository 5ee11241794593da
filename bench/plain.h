/*
 * The calls of rozhinal.h in plain C, with the same signatures, answers and bytes. The benchmark
 * holds the library against them.
 */
#ifndef PLAIN_H
#define PLAIN_H

#include "rozhinal.h"

rozhinal_answer plain_open_bare(const uint8_t *sheet, size_t sheet_len,
                                uint8_t *idx, size_t idx_len,
                                uint8_t *table, size_t table_len);
rozhinal_answer plain_open_full(const uint8_t *sheet, size_t sheet_len,
                                uint8_t *idx, size_t idx_len,
                                uint8_t *table, size_t table_len);
rozhinal_answer plain_post(const uint8_t *sheet, size_t sheet_len,
                           const uint8_t *idx, size_t idx_len,
                           uint8_t *table, size_t table_len,
                           uint64_t item, uint64_t kind, int64_t number);
rozhinal_answer plain_swap(const uint8_t *sheet, size_t sheet_len,
                           const uint8_t *idx, size_t idx_len,
                           uint8_t *table, size_t table_len,
                           uint64_t giver, uint64_t taker, int64_t quantity);
rozhinal_answer plain_keep(const uint8_t *sheet, size_t sheet_len,
                           const uint8_t *idx, size_t idx_len,
                           uint8_t *table, size_t table_len,
                           uint64_t item);
rozhinal_answer plain_drop(const uint8_t *sheet, size_t sheet_len,
                           const uint8_t *idx, size_t idx_len,
                           uint8_t *table, size_t table_len,
                           uint64_t item);
rozhinal_answer plain_step(const uint8_t *sheet, size_t sheet_len,
                           const uint8_t *idx, size_t idx_len,
                           uint8_t *table, size_t table_len,
                           uint64_t item);
rozhinal_reading plain_ask(const uint8_t *sheet, size_t sheet_len,
                           const uint8_t *idx, size_t idx_len,
                           uint8_t *table, size_t table_len,
                           uint64_t item);
rozhinal_answer plain_board(const uint8_t *sheet, size_t sheet_len,
                            const uint8_t *idx, size_t idx_len,
                            uint8_t *table, size_t table_len,
                            const uint8_t *items, size_t items_len,
                            uint8_t *results, size_t results_len);
rozhinal_answer plain_close(const uint8_t *sheet, size_t sheet_len,
                            const uint8_t *idx, size_t idx_len,
                            uint8_t *table, size_t table_len);
int64_t plain_print(uint64_t kind, int64_t number, uint8_t *scratch, size_t scratch_len);

#endif
