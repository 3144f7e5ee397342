/* Makes drawn changes by steps, and after each of them, and some of the steps, compares the library's file with the one
   on the device: same FILE.

   Then the bytes past the file's end are overwritten, as nothing is promised of them. Where costore_file.c gives pages
   back after each log, that isn't done; there no page of the region may have bytes of its own. */
#define _GNU_SOURCE
#include "costore_file.c"

#include <inttypes.h>

enum { NAMES = 40, MOST = 1 << 14, CHANGES = 1000, ROOM = 1 << 21, LOG = 1 << 23, PAST = 20000 };

static const bool at_once = COSTORE_PENDING_PAGES == 1;
static uint8_t mine[ROOM], theirs[ROOM], object[MOST];
static uint64_t checks, wrong, longest;

static unsigned drawn(void) {
    static unsigned state = 7;
    state = state * 1664525u + 1013904223u;
    return state >> 8;
}

/* How many KB of the region are memory of this process alone. */
static long own(const costore_file_t *f) {
    uint64_t begin = (uint64_t)(uintptr_t)f->file.at, from = 0, to = 0, at, end;
    char line[512];
    long found, sum = 0;
    FILE *maps = fopen("/proc/self/smaps", "r");
    while (maps && fgets(line, sizeof line, maps))
        if (sscanf(line, "%" SCNx64 "-%" SCNx64 " ", &at, &end) == 2)
            from = at, to = end;
        else if (from < begin + f->file.n && begin < to && sscanf(line, "Anonymous: %ld", &found) == 1)
            sum += found;
    if (maps)
        fclose(maps);
    return sum;
}

/* Whether a position is in one of the two gaps, as costore_file.c knows them. */
static bool in_gap(const costore_file_t *f, uint64_t at) {
    const struct costore_touched *t = f->touched;
    return (t->lower.from <= at && at < t->lower.to) || (t->upper.from <= at && at < t->upper.to);
}

/* The library's file is that on the device. So is its memory, except in the gaps, in which the file has zeros. */
static bool is_same(costore_file_t *f, uint64_t length) {
    struct stat is;
    if (fstat(f->fd, &is) || (uint64_t)is.st_size != length || pread(f->fd, theirs, length, 0) != (ssize_t)length
        || costore_file_bytes(f, 0, mine, length) != COSTORE_DONE || memcmp(mine, theirs, length))
        return false;
    for (uint64_t at = 0; at < length; at++)
        if (f->reads || in_gap(f, at) ? theirs[at] != 0 && f->file.at[at] != theirs[at] : f->file.at[at] != theirs[at])
            return false;
    return !at_once || f->reads || own(f) == 0;
}

static void check(costore_file_t *f) {
    uint64_t log, length = 0;
    costore_lengths(&f->store, &log, &length);
    longest = length > longest ? length : longest;
    checks++;
    if (!is_same(f, length) && wrong++ == 0)
        printf("same: failed: at check %" PRIu64 "\n", checks);
    if (!at_once)
        memset(f->file.at + length, 0xa5, f->file.n - length < PAST ? f->file.n - length : PAST);
}

/* Makes a change, by steps or at once, and answers its last answer. */
static int32_t change(costore_file_t *f, int n) {
    uint8_t name[16];
    size_t length = (size_t)sprintf((char *)name, "n%u", drawn() % NAMES), size = drawn() % (1u << drawn() % 15);
    unsigned kind = drawn() % 16;
    memset(object, 1 + n % 255, size);
    if (kind == 0)
        return costore_file_keep(f);
    if (kind < 3)
        return costore_file_put(f, name, length, object, size);
    int32_t code = kind < 6 ? costore_file_begin_del(f, name, length)
                            : costore_file_begin_put(f, name, length, object, size);
    while (code == COSTORE_IN_HAND || code == COSTORE_MOVED) {
        if (drawn() % 8 == 0)
            check(f);
        code = costore_file_step(f);
    }
    return code;
}

int main(int argc, char **argv) {
    costore_file_t f;
    uint64_t refused = 0;
    if (argc != 2 || costore_file_format(&f, argv[1], 9, 64, ROOM, LOG) != COSTORE_DONE)
        return 2;
    for (int n = 0; n < CHANGES && wrong == 0; n++) {
        check(&f);
        int32_t code = change(&f, n);
        refused += code < COSTORE_DONE && code != COSTORE_MISSING;
        if (n % 100 != 99)
            continue;
        costore_file_close(&f);
        if (costore_file_open(&f, argv[1], ROOM, LOG) != COSTORE_DONE)
            return 2;
    }
    check(&f);
    costore_file_close(&f);
    bool failed = wrong > 0 || refused > 0 || checks < CHANGES + CHANGES / 2 || longest < 100000;
    if (failed)
        printf("same: failed: %" PRIu64 " refused, %" PRIu64 " checks, %" PRIu64 " bytes\n", refused, checks, longest);
    printf("%d passed, %d failed\n", !failed, failed);
    return failed;
}
