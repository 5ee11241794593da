/*
 * Runs the asks in threads, the posts to a mapped file, the board, the swap, the close, the
 * catching up, the change of a sheet that forgets, the working out anew and the taking over of an
 * older table of docs/USE.md: the C of the page is included, with its main under another name.
 */
#include <sys/mman.h>

static int at_msync(void *bytes, size_t length, int flags);

#define main page
#define msync(bytes, length, flags) at_msync(bytes, length, flags)
#include "use.c"
#undef main
#undef msync

#include <sys/wait.h>
#include <unistd.h>

/* A is 1000, L is 300 with notice, S is NULL, T is not stored, and B is stored as OUT. */
static uint8_t former[5][10] = {
    { 3, 0, 1000 & 0xFF, 1000 >> 8 }, { 3, 2, 300 & 0xFF, 300 >> 8 }, { 1 }, { 0 }, { 2 },
};

/* A is 1000, L is 300, S is NULL, T is stored as OUT, and B is not stored; A and S are owed. */
static uint8_t stale[ROZHINAL_TABLE_BYTES(5)] = {
    3, 0, 1000 & 0xFF, 1000 >> 8, [10] = 1,
    [11] = 3, [13] = 300 & 0xFF, [14] = 300 >> 8,
    [22] = 1, [32] = 1,
    [33] = 2,
};

/* Afterwards T is stored as 1000, and B is not stored. */
static int works_out_anew(const uint8_t *idx, size_t idx_len)
{
    uint8_t before[sizeof stale];
    if (work_out_anew(idx, idx_len, stale, sizeof stale - 1, before) != ROZHINAL_REFUSED_SIZES
        || work_out_anew(idx, idx_len, stale, sizeof stale, before) != ROZHINAL_ACCEPTED)
        return 0;
    const uint8_t *record = stale + 3 * ROZHINAL_RECORD_BYTES;
    return record[0] == ROZHINAL_NUMBER && number_at(record + 2) == 1000
           && record[ROZHINAL_RECORD_BYTES] == ROZHINAL_UNK;
}

#define CHANGED bytes, sizeof bytes, idx, idx_len

/*
 * The page's sheet in edition 2, with two figures that forget, is refused at the first. Then both
 * defer, no other byte has changed, and the table goes on: T, of A and S, is marked refresh.
 */
static int retires_forget(const uint8_t *idx, size_t idx_len, const uint8_t *closed)
{
    uint8_t bytes[sizeof sheet], deferring[sizeof sheet], table[ROZHINAL_TABLE_BYTES(5)];
    memcpy(deferring, sheet, sizeof sheet);
    deferring[3] = ROZHINAL_EDITION_2;
    memcpy(bytes, deferring, sizeof bytes);
    bytes[19 + 5] = bytes[31 + 5] = ROZHINAL_FORGET;
    memcpy(table, closed, sizeof table);
    rozhinal_answer refused = rozhinal_post(CHANGED, table, sizeof table, 0, ROZHINAL_NUMBER, 2000);
    if (refused.number != ROZHINAL_REFUSED_RULE || refused.offset != 19
        || retire_forget(bytes, idx, idx_len) != 2
        || retire_forget(bytes, idx, idx_len) != 0
        || memcmp(bytes, deferring, sizeof bytes) != 0)
        return 0;
    return rozhinal_post(CHANGED, table, sizeof table, 0, ROZHINAL_NUMBER, 2000).number == 0
           && rozhinal_step(CHANGED, table, sizeof table, 0).number == 0
           && table[ROZHINAL_TABLE_BYTES(3) + 1] == ROZHINAL_MARK_REFRESH
           && rozhinal_ask(CHANGED, table, sizeof table, 4).value == 1700;
}

/* How many steps are made before there is something else to do. */
static int steps_left;

static int busy(void)
{
    return steps_left-- == 0;
}

static int is_marked(const uint8_t *table)
{
    int marked = 0;
    for (size_t item = 0; item < 5; item++)
        marked |= table[ROZHINAL_TABLE_BYTES(item) + 1] != ROZHINAL_MARK_NONE;
    return marked;
}

/* Asks on copies of the two tables give the same, and leave no mark on the second if it had none. */
static int same_asks(const uint8_t *idx, size_t idx_len, const uint8_t *one,
                     const uint8_t *other)
{
    uint8_t tables[2][ROZHINAL_TABLE_BYTES(5)];
    memcpy(tables[0], one, sizeof tables[0]);
    memcpy(tables[1], other, sizeof tables[1]);
    for (uint64_t item = 0; item < 5; item++) {
        rozhinal_reading readings[2];
        for (size_t k = 0; k < 2; k++)
            readings[k] = rozhinal_ask(sheet, sizeof sheet, idx, idx_len, tables[k],
                                       sizeof tables[k], item);
        if (readings[0].number != ROZHINAL_ACCEPTED
            || memcmp(&readings[0], &readings[1], sizeof readings[0]) != 0)
            return 0;
        if (is_marked(tables[1]) && !is_marked(other))
            return 0;
    }
    return 1;
}

/*
 * After two posts to a closed table there are six steps: A and S, then T and B twice each. It is
 * stopped after each of them, and goes on; asks between and afterwards are those without a step.
 */
static int catches_up(const uint8_t *idx, size_t idx_len, const uint8_t *closed)
{
    uint8_t posted[ROZHINAL_TABLE_BYTES(5)], table[sizeof posted], whole[sizeof posted];
    size_t table_len = sizeof posted;
    memcpy(table, closed, sizeof table);
    if (rozhinal_post(LENT, 0, ROZHINAL_NUMBER, 2000).number != ROZHINAL_ACCEPTED
        || rozhinal_post(LENT, 2, ROZHINAL_NUMBER, -200).number != ROZHINAL_ACCEPTED)
        return 0;
    memcpy(posted, table, sizeof posted);
    for (int steps = 6; steps >= 0; steps--) {
        memcpy(table, posted, sizeof table);
        steps_left = steps;
        if (catch_up(idx, idx_len, table, table_len, busy) != ROZHINAL_ACCEPTED
            || is_marked(table) != (steps < 6) || !same_asks(idx, idx_len, posted, table))
            return 0;
        steps_left = 6 - steps;
        if (catch_up(idx, idx_len, table, table_len, busy) != ROZHINAL_ACCEPTED)
            return 0;
        if (steps == 6)
            memcpy(whole, table, sizeof whole);
        if (memcmp(table, whole, sizeof whole) != 0 || is_marked(table))
            return 0;
    }
    steps_left = 1;
    return catch_up(idx, idx_len, posted, table_len - 1, busy) == ROZHINAL_REFUSED_SIZES
           && number_at(table + ROZHINAL_TABLE_BYTES(4) + 2) == 1500;
}

enum { FIELD = 10 }; /* bytes of a figure of one parent, with a name of one */

/* An entry and figures with the one before as parent, up to level 64; then all lean on level 63. */
static size_t make_deep(uint8_t *deep, size_t n)
{
    const uint8_t head[] = { 1, 4, 0, ROZHINAL_EDITION_FOR(n), 0, (uint8_t)n, (uint8_t)(n >> 8) };
    memcpy(deep, head, sizeof head);
    uint8_t *field = deep + sizeof head;
    memcpy(field, (const uint8_t[]){ 2, 1, 0, 'E' }, 4);
    field += 4;
    for (size_t i = 1; i < n; i++, field += FIELD) {
        uint8_t parent = i < ROZHINAL_MAX_LEVEL ? (uint8_t)(i - 1) : ROZHINAL_MAX_LEVEL - 1;
        memcpy(field, (const uint8_t[]){ 3, 7, 0, ROZHINAL_SUM, 0, 0, 1, parent, 0, 'F' }, FIELD);
    }
    memcpy(field, (const uint8_t[]){ 4, 0, 0 }, 3);
    return (size_t)(field + 3 - deep);
}

/* The last item is worked out through all levels, in a thread with a stack for the sheet. */
static int asks_in_threads(void)
{
    static const size_t counts[] = { 66, 127, 128, 129, 1023, 1024, 1025, 4095, 4096 };
    static uint8_t deep[7 + FIELD * ROZHINAL_MAX_ITEMS + 3];
    static uint8_t idx[ROZHINAL_INDEX_BYTES(ROZHINAL_MAX_ITEMS)];
    static uint8_t table[ROZHINAL_TABLE_BYTES(ROZHINAL_MAX_ITEMS)];
    for (size_t k = 0; k < sizeof counts / sizeof *counts; k++) {
        size_t n = counts[k], deep_len = make_deep(deep, n);
        struct asking a = { deep, idx, table, deep_len, n, n - 1, { 0, 0, 0, 0 } };
        size_t idx_len = ROZHINAL_INDEX_BYTES(n), table_len = ROZHINAL_TABLE_BYTES(n);
        if (rozhinal_open_bare(deep, deep_len, idx, idx_len, table, table_len).number != 0
            || rozhinal_post(deep, deep_len, idx, idx_len, table, table_len, 0, ROZHINAL_NUMBER,
                             (int64_t)n).number != 0
            || ask_in_thread(&a) != 0 || a.reading.number != 0 || a.reading.value != (int64_t)n)
            return 0;
    }
    return 1;
}

enum { PLACE = ROZHINAL_TABLE_BYTES(5), MAPPED = 1 + 2 * PLACE, POSTS = 10 };

/* A file that is gone when its descriptor is closed, mapped, with the page's sheet opened. */
static struct mapped map_file(uint8_t *idx, size_t idx_len)
{
    const char *folder = getenv("TMPDIR");
    char path[4096];
    snprintf(path, sizeof path, "%s/mapped.XXXXXX", folder == NULL ? "/tmp" : folder);
    struct mapped file = { mkstemp(path), NULL, PLACE };
    unlink(path);
    if (ftruncate(file.fd, MAPPED) != 0)
        exit(1);
    file.bytes = mmap(NULL, MAPPED, PROT_READ | PROT_WRITE, MAP_SHARED, file.fd, 0);
    if (file.bytes == MAP_FAILED
        || rozhinal_open_bare(sheet, sizeof sheet, idx, idx_len, file.bytes + 1, PLACE).number != 0)
        exit(1);
    return file;
}

/* What an ask gives on a copy of the table that holds. */
static int64_t value_in(const struct mapped *file, const uint8_t *idx, size_t idx_len,
                        uint64_t item)
{
    uint8_t table[PLACE];
    memcpy(table, file->bytes + 1 + (file->bytes[0] == 0 ? 0 : PLACE), PLACE);
    return rozhinal_ask(sheet, sizeof sheet, idx, idx_len, table, PLACE, item).value;
}

/* A process for each entry posts 1 to 10 times one more than its number; no post is lost. */
static int posts_in_processes(const struct mapped *file, const uint8_t *idx, size_t idx_len)
{
    int good = 1, status;
    for (uint64_t entry = 0; entry < 3; entry++) {
        pid_t child = fork();
        if (child == -1)
            return 0;
        for (int64_t k = 1; child == 0 && k <= POSTS; k++)
            if (post_mapped(file, idx, idx_len, entry, k * (int64_t)(entry + 1)) != 0)
                _exit(1);
        if (child == 0)
            _exit(0);
    }
    for (int k = 0; k < 3; k++)
        good &= wait(&status) > 0 && status == 0;
    for (uint64_t entry = 0; entry < 3; entry++)
        good &= value_in(file, idx, idx_len, entry) == POSTS * (int64_t)(entry + 1);
    return good && value_in(file, idx, idx_len, 4) == POSTS * (1 + 3 - 2);
}

/*
 * What the disk has of a watched file, while the page's code works on it. The system may write any
 * page of the file at any moment; so where memory and disk differ, they differ in nothing that holds
 * by either of them. A process ends at its call with the number end_at, before the disk has more.
 */
static struct watch {
    const struct mapped *file; /* null if none is watched */
    uint8_t disk[MAPPED];
    int calls, end_at, faults;
} *watch;

/* Whether another process finds the file locked. */
static int is_locked(int fd)
{
    int status = 1;
    pid_t child = fork();
    if (child == 0) {
        struct flock whole = { .l_type = F_WRLCK, .l_whence = SEEK_SET };
        _exit(fcntl(fd, F_GETLK, &whole) == 0 && whole.l_type == F_WRLCK ? 0 : 1);
    }
    return child > 0 && waitpid(child, &status, 0) == child && status == 0;
}

static int at_msync(void *bytes, size_t length, int flags)
{
    if (watch == NULL || watch->file == NULL)
        return msync(bytes, length, flags);
    const uint8_t *memory = bytes;
    for (int of_disk = 0; of_disk < 2; of_disk++) {
        size_t held = 1 + ((of_disk ? watch->disk[0] : memory[0]) == 0 ? 0 : (size_t)PLACE);
        watch->faults += memcmp(watch->disk + held, memory + held, PLACE) != 0;
    }
    watch->faults += length != MAPPED || flags != MS_SYNC || !is_locked(watch->file->fd);
    if (++watch->calls == watch->end_at)
        _exit(9);
    memcpy(watch->disk, memory, MAPPED);
    return 0;
}

/* A process is ended at each of its calls to the disk in turn, and the next one posts. */
static int posts_survive(const struct mapped *file, const uint8_t *idx, size_t idx_len)
{
    int status, good = 1, zero = open("/dev/zero", O_RDWR);
    watch = mmap(NULL, sizeof *watch, PROT_READ | PROT_WRITE, MAP_SHARED, zero, 0);
    if (watch == MAP_FAILED)
        return 0;
    for (int end_at = 1; end_at <= 4; end_at++) {
        *watch = (struct watch){ .file = file, .end_at = end_at };
        memcpy(watch->disk, file->bytes, MAPPED);
        pid_t child = fork();
        if (child == 0)
            _exit(post_mapped(file, idx, idx_len, 0, 100 + end_at) == 0 ? 0 : 1);
        good &= child > 0 && waitpid(child, &status, 0) == child
                && WEXITSTATUS(status) == (end_at <= 3 ? 9 : 0);
        watch->end_at = 0;
        good &= value_in(file, idx, idx_len, 0) == 100 + (end_at < 3 ? 0 : end_at);
        good &= post_mapped(file, idx, idx_len, 1, end_at) == 0 && watch->faults == 0
                && watch->calls == (end_at <= 3 ? end_at : 3) + 3;
        watch->file = NULL;
        good &= value_in(file, idx, idx_len, 1) == end_at;
        good &= post_mapped(file, idx, idx_len, 0, 100) == 0;
    }
    return munmap(watch, sizeof *watch) == 0 && close(zero) == 0 && (watch = NULL) == NULL && good;
}

/* The place that does not hold may have any bytes. What is refused changes nothing that holds. */
static int posts_to_mapped(void)
{
    uint8_t idx[ROZHINAL_INDEX_BYTES(5)], before[MAPPED];
    size_t idx_len = sizeof idx;
    struct mapped file = map_file(idx, idx_len), closed = file;
    if (!posts_in_processes(&file, idx, idx_len) || post_mapped(&file, idx, idx_len, 0, 100) != 0
        || !posts_survive(&file, idx, idx_len))
        return 0;
    for (int64_t k = 0; k < 2; k++) {
        memset(file.bytes + 1 + (file.bytes[0] == 0 ? PLACE : 0), 0xA5, PLACE);
        if (post_mapped(&file, idx, idx_len, 0, k) != 0 || value_in(&file, idx, idx_len, 0) != k)
            return 0;
    }
    memcpy(before, file.bytes, MAPPED);
    size_t held = 1 + (before[0] == 0 ? 0 : PLACE);
    closed.fd = -1;
    if (post_mapped(&file, idx, idx_len, 4, 1) != ROZHINAL_REFUSED_SORT
        || post_mapped(&closed, idx, idx_len, 0, 1) != -1 || errno != EBADF
        || before[0] != file.bytes[0] || memcmp(before + held, file.bytes + held, PLACE) != 0)
        return 0;
    return munmap(file.bytes, MAPPED) == 0 && close(file.fd) == 0;
}

int main(void)
{
    if (!asks_in_threads() || !posts_to_mapped())
        return 1;
    uint8_t idx[ROZHINAL_INDEX_BYTES(5)], table[ROZHINAL_TABLE_BYTES(5)];
    size_t idx_len = sizeof idx, table_len = sizeof table;
    if (rozhinal_open_bare(LENT).number != ROZHINAL_ACCEPTED
        || rozhinal_post(LENT, 0, ROZHINAL_NUMBER, 1000).number != ROZHINAL_ACCEPTED
        || rozhinal_post(LENT, 1, ROZHINAL_NUMBER, 300).number != ROZHINAL_ACCEPTED)
        return 1;
    if (show_board(idx, idx_len, table, table_len) != ROZHINAL_ACCEPTED
        || swap_quota() != ROZHINAL_ACCEPTED
        || close_season(idx, idx_len, table, table_len) != ROZHINAL_ACCEPTED)
        return 1;
    if (!catches_up(idx, idx_len, table) || !retires_forget(idx, idx_len, table)
        || !works_out_anew(idx, idx_len))
        return 1;
    const uint8_t *bytes = former[0];
    if (take_over(idx, idx_len, table, table_len, bytes, 49) != ROZHINAL_REFUSED_SIZES)
        return 1;
    former[2][0] = ROZHINAL_OUT;
    if (take_over(idx, idx_len, table, table_len, bytes, 50) != ROZHINAL_REFUSED_POSTED)
        return 1;
    former[2][0] = ROZHINAL_NULL;
    if (take_over(idx, idx_len, table, table_len, bytes, 50) != ROZHINAL_ACCEPTED)
        return 1;
    return (int)show_board(idx, idx_len, table, table_len);
}
