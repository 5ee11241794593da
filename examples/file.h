/* Whole files in memory. */
#ifndef FILE_H
#define FILE_H

#include "rozhinal.h"

#include <stdio.h>

/*
 * The whole file in memory that the caller frees, with its length. Null if it cannot be read
 * or is over the given size; errno says why (EFBIG for the size).
 */
uint8_t *read_file(const char *path, size_t most, size_t *length);

/* The same of a file that is open, and stays so. */
uint8_t *read_open_file(FILE *file, size_t most, size_t *length);

/* No sheet that opens is longer, of either edition. */
#define SHEET_MOST ROZHINAL_MAX_SHEET_BYTES(ROZHINAL_MAX_ITEMS)

#endif
