#include "file.h"

#include <errno.h>
#include <stdlib.h>

uint8_t *read_open_file(FILE *file, size_t most, size_t *length)
{
    uint8_t *bytes = malloc(most + 1);
    if (bytes == NULL)
        return NULL;
    errno = 0;
    *length = fread(bytes, 1, most + 1, file);
    int cause = ferror(file) ? (errno != 0 ? errno : EIO) : *length > most ? EFBIG : 0;
    if (cause == 0)
        return bytes;
    free(bytes);
    errno = cause;
    return NULL;
}

uint8_t *read_file(const char *path, size_t most, size_t *length)
{
    FILE *file = fopen(path, "rb");
    if (file == NULL)
        return NULL;
    uint8_t *bytes = read_open_file(file, most, length);
    int cause = errno;
    fclose(file);
    errno = cause;
    return bytes;
}
