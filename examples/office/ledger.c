/*
 * The file, numbers little-endian: the mark of a ledger, three lengths (4 bytes each), sheet,
 * index, table, and the FNV-1a sum of all bytes before it (8 bytes). The library cannot tell how
 * old a table is; the mark can.
 */
#include "ledger.h"

#include "../file.h"
#include "disk.h"
#include "former.h"

#include <errno.h>
#include <stdlib.h>
#include <string.h>

enum { MARK_BYTES = 16, LENGTH_BYTES = 4, SUM_BYTES = 8 };
enum { HEAD_BYTES = MARK_BYTES + 3 * LENGTH_BYTES };
static const char ledger_mark[MARK_BYTES + 1] = "rozhinal book 4\n";
/* Of ledgers from before version 4.0.0, whose form is the same. */
static const char stale_mark[MARK_BYTES + 1] = "rozhinal book 3\n";
/* Of ledgers from before versions 3.0.0 and 2.0.0. Their records have no owed byte. */
static const char former_mark[MARK_BYTES + 1] = "rozhinal book 2\n";
static const char older_mark[MARK_BYTES + 1] = "rozhinal book 1\n";

#define LEDGER_MOST                                                                                \
    (HEAD_BYTES + SHEET_MOST + ROZHINAL_INDEX_BYTES(ROZHINAL_MAX_ITEMS)                            \
     + ROZHINAL_TABLE_BYTES(ROZHINAL_MAX_ITEMS) + SUM_BYTES)

static void put_number(uint8_t *to, size_t bytes, uint64_t number)
{
    for (size_t k = 0; k < bytes; k++, number >>= 8)
        to[k] = (uint8_t)(number & 0xFF);
}

static uint64_t get_number(const uint8_t *from, size_t bytes)
{
    uint64_t number = 0;
    for (size_t k = bytes; k > 0; k--)
        number = number << 8 | from[k - 1];
    return number;
}

static uint64_t sum_of(const uint8_t *bytes, size_t length)
{
    uint64_t sum = UINT64_C(0xCBF29CE484222325);
    for (size_t k = 0; k < length; k++)
        sum = (sum ^ bytes[k]) * UINT64_C(0x100000001B3);
    return sum;
}

/* ---- Loading ---- */

/* The state of a whole ledger with this mark; LEDGER_DAMAGED for another mark. */
static enum ledger_state state_of(const uint8_t *mark)
{
    if (memcmp(mark, ledger_mark, MARK_BYTES) == 0)
        return LEDGER_LOADED;
    if (memcmp(mark, stale_mark, MARK_BYTES) == 0)
        return LEDGER_STALE;
    if (memcmp(mark, former_mark, MARK_BYTES) == 0)
        return LEDGER_FORMER;
    return memcmp(mark, older_mark, MARK_BYTES) == 0 ? LEDGER_OLDER : LEDGER_DAMAGED;
}

/* Finds the parts of a file that has room for head and sum; false if its lengths are wrong. */
static bool find_parts(uint8_t *bytes, size_t length, struct parts *parts)
{
    const uint8_t *lengths = bytes + MARK_BYTES;
    uint64_t sheet_len = get_number(lengths, LENGTH_BYTES);
    uint64_t idx_len = get_number(lengths + LENGTH_BYTES, LENGTH_BYTES);
    uint64_t table_len = get_number(lengths + 2 * LENGTH_BYTES, LENGTH_BYTES);
    /* Three lengths of 32 bits do not overflow 64. */
    if (sheet_len + idx_len + table_len != length - HEAD_BYTES - SUM_BYTES)
        return false;
    parts->sheet_len = (size_t)sheet_len;
    parts->idx_len = (size_t)idx_len;
    parts->table_len = (size_t)table_len;
    parts->sheet = bytes + HEAD_BYTES;
    parts->idx = parts->sheet + parts->sheet_len;
    parts->table = parts->idx + parts->idx_len;
    const uint8_t *sum = parts->table + parts->table_len;
    parts->whole = get_number(sum, SUM_BYTES) == sum_of(bytes, length - SUM_BYTES);
    return true;
}

/*
 * The library's word on sheet, index and table, 0 if they are good: a step of no item is then
 * refused with 11.
 */
static uint64_t refusal_of(const struct parts *parts)
{
    rozhinal_answer answer = rozhinal_step(LENT(parts), UINT64_MAX);
    return answer.number == ROZHINAL_REFUSED_ITEM ? 0 : answer.number;
}

/* Takes index and table, which the library has accepted: 0, or a refusal and nothing taken. */
static uint64_t take_table(struct ledger *ledger, const struct parts *parts, bool stale)
{
    uint64_t refusal = stale ? renew_figures(parts) : 0;
    if (refusal == 0) {
        memcpy(ledger->idx, parts->idx, ledger->idx_len);
        memcpy(ledger->table, parts->table, ledger->table_len);
    }
    return refusal;
}

/* The bytes may be changed meanwhile. */
static enum ledger_state load_bytes(struct ledger *ledger, uint8_t *bytes, size_t length,
                                    struct ledger_fault *fault)
{
    struct parts parts;
    enum ledger_state state = length < HEAD_BYTES + SUM_BYTES ? LEDGER_DAMAGED : state_of(bytes);
    if (state == LEDGER_DAMAGED || !find_parts(bytes, length, &parts))
        return LEDGER_DAMAGED;
    if (parts.sheet_len != ledger->sheet_len
        || memcmp(parts.sheet, ledger->sheet, ledger->sheet_len) != 0)
        return parts.whole ? LEDGER_OTHER_SHEET : LEDGER_DAMAGED;
    bool with_owed = state == LEDGER_LOADED || state == LEDGER_STALE;
    if (with_owed)
        fault->refusal = refusal_of(&parts);
    else
        *fault = former_fault(ledger, &parts);
    if (fault->refusal != 0 || !parts.whole)
        return LEDGER_DAMAGED;
    fault->refusal = with_owed ? take_table(ledger, &parts, state == LEDGER_STALE)
                               : post_entries(ledger, parts.table);
    return fault->refusal == 0 ? state : LEDGER_DAMAGED;
}

enum ledger_state ledger_load(struct ledger *ledger, struct ledger_fault *fault)
{
    struct ledger_file *file = &ledger->standing;
    *fault = (struct ledger_fault){ 0, LEDGER_NO_ITEM };
    if (disk_read(ledger, LEDGER_MOST, file) != 0)
        return ledger->why == NULL && errno == EFBIG ? LEDGER_DAMAGED : LEDGER_UNREADABLE;
    if (file->bytes == NULL)
        return LEDGER_ABSENT;
    uint8_t *bytes = malloc(file->length + 1);
    if (bytes == NULL)
        return LEDGER_UNREADABLE;
    memcpy(bytes, file->bytes, file->length);
    enum ledger_state state = load_bytes(ledger, bytes, file->length, fault);
    free(bytes);
    return state;
}

/* ---- Saving ---- */

/* The bytes of a file with index and table as they are; null without memory. */
static uint8_t *ledger_bytes(const struct ledger *ledger, size_t *length)
{
    size_t inside = ledger->sheet_len + ledger->idx_len + ledger->table_len;
    *length = HEAD_BYTES + inside + SUM_BYTES;
    uint8_t *bytes = malloc(*length);
    if (bytes == NULL)
        return NULL;
    memcpy(bytes, ledger_mark, MARK_BYTES);
    put_number(bytes + MARK_BYTES, LENGTH_BYTES, ledger->sheet_len);
    put_number(bytes + MARK_BYTES + LENGTH_BYTES, LENGTH_BYTES, ledger->idx_len);
    put_number(bytes + MARK_BYTES + 2 * LENGTH_BYTES, LENGTH_BYTES, ledger->table_len);
    uint8_t *sheet = bytes + HEAD_BYTES, *idx = sheet + ledger->sheet_len;
    memcpy(sheet, ledger->sheet, ledger->sheet_len);
    memcpy(idx, ledger->idx, ledger->idx_len);
    memcpy(idx + ledger->idx_len, ledger->table, ledger->table_len);
    put_number(bytes + *length - SUM_BYTES, SUM_BYTES, sum_of(bytes, *length - SUM_BYTES));
    return bytes;
}

static bool is_same(const struct ledger_file *one, const struct ledger_file *other)
{
    if (one->bytes == NULL || other->bytes == NULL)
        return one->bytes == other->bytes;
    return one->length == other->length && memcmp(one->bytes, other->bytes, one->length) == 0;
}

/* Reads the file that stands: 0, or -1 if it is not the one that this process knows. */
static int read_standing(struct ledger *ledger, struct ledger_file *found)
{
    bool read = disk_read(ledger, LEDGER_MOST, found) == 0;
    if (ledger->why != NULL)
        return -1;
    if (read && is_same(found, &ledger->standing))
        return 0;
    if (read && found->bytes == NULL)
        return ledger_bar(ledger, "the file that this office loaded or last wrote is gone, and no "
                                  "other is written; put it back, or end this office");
    /* It may be too long for a ledger by now, or a link. */
    if (read || errno == EFBIG || errno == ELOOP)
        return ledger_bar(ledger, "the file there is not the one that this office loaded or last "
                                  "wrote, and is left as it is; end this office, and start again");
    return -1;
}

/* As ledger_check; gives the file that stands. */
static int may_save(struct ledger *ledger, struct ledger_file *found)
{
    *found = (struct ledger_file){ .bytes = NULL };
    if (ledger->read_only != NULL)
        return ledger_bar(ledger, "it is open for reading only");
    if (!disk_has_lock(ledger))
        return ledger_bar(ledger, "its lock file was removed or replaced, so that another office "
                                  "may have it; end this office, and start again");
    return read_standing(ledger, found);
}

int ledger_check(struct ledger *ledger)
{
    struct ledger_file found;
    int state = may_save(ledger, &found);
    int cause = errno;
    free(found.bytes);
    errno = cause;
    return state;
}

int ledger_save(struct ledger *ledger)
{
    struct ledger_file found, new = { .bytes = NULL };
    int state = may_save(ledger, &found);
    if (state == 0) {
        new.bytes = ledger_bytes(ledger, &new.length);
        state = new.bytes != NULL ? disk_replace(ledger, &found, &new) : -1;
    }
    int cause = errno;
    free(found.bytes);
    free(state < 0 ? new.bytes : ledger->standing.bytes);
    if (state >= 0)
        ledger->standing = new;
    errno = cause;
    return state;
}
