/* See costore_file.h. */
#define _GNU_SOURCE
#include "costore_file.h"

#include <errno.h>
#include <fcntl.h>
#include <libgen.h>
#include <stdio.h>
#include <stdlib.h>
#include <string.h>
#include <sys/file.h>
#include <sys/stat.h>
#include <unistd.h>

#if defined(__linux__) && !defined(COSTORE_FILE_READS)
#include <sys/mman.h>
#define MAPS 1
#else
#define MAPS 0
#endif

enum { PIECE = 1 << 16, MOST_READ = 1 << 30, LOG_KEPT = 1 << 20 };

/* The positions of a file from one up to another. */
typedef struct span_t {
    uint64_t from, to;
} span_t;

/* What is known of the region's pages that may have bytes of their own: how many are marked, and which are the two gaps
   of the library, parts that the file grew by and nobody wrote yet. It knows that the file has zeros there, whatever
   the memory has. Where there would be a third, it fills the shortest (crates/lent_disk/src/gaps.rt). */
struct costore_touched {
    uint64_t pages;
    span_t lower, upper;
};

static void tick(const costore_file_t *f) {
    if (f->before)
        f->before(f->with);
}

/* ---- calls on the file ---- */

/* Reads up to n bytes from the file's start on, fewer only where the file ends, and answers how many. */
static int64_t read_front(int fd, uint8_t *out, uint64_t n) {
    uint64_t had = 0;
    while (had < n) {
        uint64_t left = n - had;
        ssize_t done = pread(fd, out + had, left < MOST_READ ? (size_t)left : MOST_READ, (off_t)had);
        if (done < 0 && errno == EINTR)
            continue;
        if (done < 0)
            return -1;
        if (done == 0)
            break;
        had += (uint64_t)done;
    }
    return (int64_t)had;
}

/* Writes all the bytes at a position. */
static int write_at(const costore_file_t *f, const uint8_t *bytes, uint64_t n, uint64_t at) {
    while (n > 0) {
        tick(f);
        ssize_t done = pwrite(f->fd, bytes, (size_t)n, (off_t)at);
        if (done < 0 && errno == EINTR)
            continue;
        if (done <= 0)
            return -1;
        bytes += done, n -= (uint64_t)done, at += (uint64_t)done;
    }
    return 0;
}

static int set_length(const costore_file_t *f, uint64_t length) {
    int done;
    tick(f);
    do
        done = ftruncate(f->fd, (off_t)length);
    while (done < 0 && errno == EINTR);
    return done;
}

/* Whether the name still leads to the open file, or the system can't tell. */
static bool leads(const costore_file_t *f) {
    struct stat is, named;
    if (stat(f->path, &named))
        return errno != ENOENT && errno != ENOTDIR;
    return fstat(f->fd, &is) || (named.st_dev == is.st_dev && named.st_ino == is.st_ino);
}

/* Syncs the file. Where the name doesn't lead to it, nobody would find what was synced. */
static int32_t sync_data(const costore_file_t *f) {
    tick(f);
    if (fdatasync(f->fd))
        return COSTORE_SYSTEM;
    return leads(f) ? COSTORE_DONE : COSTORE_GONE;
}

/* ---- the two regions ---- */

static uint64_t page_size(void) {
    return (uint64_t)sysconf(_SC_PAGESIZE);
}

static uint64_t down(uint64_t at) {
    return at - at % page_size();
}

static uint64_t up(uint64_t at) {
    return down(at + page_size() - 1);
}

#if MAPS

/* Addresses for n bytes, which take memory where they are written. Core dumps leave them out. */
static void *reserve(size_t n) {
    void *at = mmap(NULL, n, PROT_READ | PROT_WRITE, MAP_PRIVATE | MAP_ANONYMOUS | MAP_NORESERVE, -1, 0);
    if (at == MAP_FAILED)
        return NULL;
    madvise(at, n, MADV_DONTDUMP);
    return at;
}

static void release(void *at, size_t n) {
    munmap(at, n);
}

/* Puts pages of the file, or empty ones where `fd` is -1, in the place of those from one position up to another. */
static int put_pages(const costore_file_t *f, int fd, uint64_t from, uint64_t to) {
    int how = MAP_PRIVATE | MAP_FIXED | MAP_NORESERVE | (fd < 0 ? MAP_ANONYMOUS : 0);
    void *at = f->file.at + from;
    tick(f);
    if (mmap(at, to - from, PROT_READ | PROT_WRITE, how, fd, fd < 0 ? 0 : (off_t)from) == MAP_FAILED)
        return -1;
    madvise(at, to - from, MADV_DONTDUMP);
    return 0;
}

/* Gives back what pages have of their own. Where the system refuses that, they keep it. */
static void give_back(const costore_file_t *f, void *at, uint64_t n) {
    tick(f);
    madvise(at, n, MADV_DONTNEED);
}

#else

static void *reserve(size_t n) {
    return malloc(n);
}

static void release(void *at, size_t n) {
    (void)n;
    free(at);
}

static int put_pages(const costore_file_t *f, int fd, uint64_t from, uint64_t to) {
    (void)f, (void)fd, (void)from, (void)to;
    errno = ENODEV;
    return -1;
}

static void give_back(const costore_file_t *f, void *at, uint64_t n) {
    (void)f, (void)at, (void)n;
}

#endif

static bool take_region(costore_region *region, uint64_t n) {
    region->n = (size_t)n;
    region->at = n < SIZE_MAX / 2 ? reserve(n > 0 ? region->n : 1) : NULL;
    return region->at;
}

static void leave_region(costore_region *region) {
    if (region->at)
        release(region->at, region->n > 0 ? region->n : 1);
}

/* Takes addresses for the file and a mark for each of its pages, and for the log: for the larger one of two, or else
   for the smaller one. */
static int32_t take_regions(costore_file_t *f, uint64_t room, uint64_t log, uint64_t larger_log) {
    if (!take_region(&f->file, room) || (!f->reads && !take_region(&f->marks, room / page_size() / 8 + 1)))
        return COSTORE_NO_MEMORY;
    if (larger_log > log && take_region(&f->log, larger_log))
        return COSTORE_DONE;
    return take_region(&f->log, log) ? COSTORE_DONE : COSTORE_NO_MEMORY;
}

/* Maps the file over the pages from one position up to another. Whether it can be mapped is known by the first try. If
   it can't, the region has all its bytes as memory. */
static int32_t map_file(costore_file_t *f, uint64_t from, uint64_t to) {
    if (put_pages(f, f->fd, from, to) == 0)
        return COSTORE_DONE;
    if (from > 0 || (errno != ENODEV && errno != EINVAL && errno != EACCES))
        return COSTORE_SYSTEM;
    f->reads = true;
    return COSTORE_DONE;
}

/* Maps a file, or else reads it. */
static int32_t show_file(costore_file_t *f, uint64_t length) {
    f->length = f->mapped = length;
    if (!f->reads && map_file(f, 0, length) != COSTORE_DONE)
        return COSTORE_SYSTEM;
    if (!f->reads)
        return COSTORE_DONE;
    int64_t had = read_front(f->fd, f->file.at, length);
    f->length = had < 0 ? 0 : (uint64_t)had;
    return had < 0 ? COSTORE_SYSTEM : COSTORE_DONE;
}

/* ---- what the region has of its own ---- */

/* Marks the pages of a part of the file. */
static void touch(costore_file_t *f, uint64_t from, uint64_t to) {
    uint64_t size = page_size();
    for (uint64_t page = from / size; from < to && page * size < to; page++) {
        uint8_t *bits = &f->marks.at[page / 8], bit = (uint8_t)(1 << page % 8);
        f->touched->pages += !(*bits & bit);
        *bits |= bit;
    }
}

static span_t before(span_t gap, uint64_t at) {
    return (span_t){gap.from < at ? gap.from : at, gap.to < at ? gap.to : at};
}

static span_t since(span_t gap, uint64_t at) {
    return (span_t){gap.from > at ? gap.from : at, gap.to > at ? gap.to : at};
}

/* Of three gaps the shortest is none any more: the library wrote zeros there. Of equal ones it is the first. */
static void keep_two(costore_file_t *f, span_t first, span_t second, span_t third) {
    uint64_t one = first.to - first.from, two = second.to - second.from, three = third.to - third.from;
    span_t filled = third;
    f->touched->lower = first, f->touched->upper = second;
    if (one <= two && one <= three)
        filled = first, f->touched->lower = second, f->touched->upper = third;
    else if (two <= three)
        filled = second, f->touched->upper = third;
    touch(f, filled.from, filled.to);
}

/* A part was written, and is in no gap any more. */
static void part(costore_file_t *f, uint64_t from, uint64_t to) {
    span_t lower = f->touched->lower, upper = f->touched->upper;
    keep_two(f, before(lower, from), since(lower, to), upper);
    upper = f->touched->upper;
    keep_two(f, f->touched->lower, before(upper, from), since(upper, to));
    touch(f, from, to);
}

/* The file grew by a part, which is a gap, or is joined to one. */
static void extend(costore_file_t *f, uint64_t from, uint64_t to) {
    span_t upper = f->touched->upper;
    if (upper.to == from)
        f->touched->upper.to = to;
    else
        keep_two(f, f->touched->lower, upper, (span_t){from, to});
}

/* The file was cut. */
static void cut(costore_file_t *f, uint64_t length) {
    f->touched->lower = before(f->touched->lower, length);
    f->touched->upper = before(f->touched->upper, length);
}

/* Whether a page is marked; then the mark is taken away. */
static bool was_touched(const costore_file_t *f, uint64_t page) {
    uint8_t *bits = &f->marks.at[page / 8], bit = (uint8_t)(1 << page % 8);
    bool touched = *bits & bit;
    *bits &= (uint8_t)~bit;
    return touched;
}

/* Maps the file as far as it isn't, and gives back what the marked pages have of their own: the file has the same. */
static int32_t give_back_all(costore_file_t *f) {
    uint64_t page = 0, size = page_size(), end = up(f->file.n) / size;
    if (f->length > f->mapped && map_file(f, down(f->mapped), f->length) != COSTORE_DONE)
        return COSTORE_SYSTEM;
    f->mapped = f->length;
    while (!f->reads && page < end) {
        uint64_t from = page;
        if (page % 8 == 0 && f->marks.at[page / 8] == 0) {
            page += 8;
            continue;
        }
        while (page < end && was_touched(f, page))
            page++;
        if (page > from)
            give_back(f, f->file.at + from * size, (page - from) * size);
        page++;
    }
    f->touched->pages = 0;
    return COSTORE_DONE;
}

/* ---- the replay of a log ---- */

typedef struct entry_t {
    int kind;
    uint64_t where, count;
    const uint8_t *bytes;
} entry_t;

static uint64_t number(const uint8_t *bytes) {
    uint64_t n = 0;
    for (int i = 7; i >= 0; i--)
        n = n << 8 | bytes[i];
    return n;
}

/* The entry of the log that begins at `at`, if one does, and where the next one begins. */
static bool next_entry(const costore_file_t *f, uint64_t log, uint64_t *at, entry_t *entry) {
    const uint8_t *head = f->log.at + *at;
    if (log - *at < COSTORE_ENTRY_HEAD)
        return false;
    *entry = (entry_t){head[0], number(head + 1), number(head + 9), head + COSTORE_ENTRY_HEAD};
    *at += COSTORE_ENTRY_HEAD + entry->count;
    return true;
}

static int32_t make_entry(const costore_file_t *f, const entry_t *entry) {
    if (entry->kind == 3)
        return sync_data(f);
    int done = entry->kind == 2 ? set_length(f, entry->where) : write_at(f, entry->bytes, entry->count, entry->where);
    return done ? COSTORE_SYSTEM : COSTORE_DONE;
}

/* After a replay: no page past the file's end is one of the file, and not too many have bytes of their own. */
static int32_t settle(costore_file_t *f, uint64_t log, uint64_t length) {
    uint64_t at = 0, end = f->length;
    for (entry_t it; next_entry(f, log, &at, &it);) {
        if (it.kind == 1)
            part(f, it.where, it.where + it.count);
        else if (it.kind == 2 && it.where > end)
            extend(f, end, it.where);
        else if (it.kind == 2)
            cut(f, it.where);
        end = it.kind == 2 ? it.where : end;
    }
    f->length = length;
    if (up(length) < up(f->mapped) && put_pages(f, -1, up(length), up(f->mapped)))
        return COSTORE_SYSTEM;
    f->mapped = length < f->mapped ? length : f->mapped;
    return f->touched->pages * page_size() < COSTORE_PENDING_PAGES ? COSTORE_DONE : give_back_all(f);
}

/* The file is used no more. What the device has of it may have another length than the library's, so that its region
   can't be read either. */
static int32_t fail(costore_file_t *f, int32_t code) {
    int why = errno;
    f->failed = true;
    costore_close(&f->store);
    errno = why;
    return code;
}

/* Replays the log: makes its calls, in order. The first that fails ends that, and the use of the file. */
static int32_t replay(costore_file_t *f, int32_t code) {
    uint64_t log = 0, length = 0, at = 0;
    int32_t made = COSTORE_DONE;
    if (code < COSTORE_DONE)
        return code;
    costore_lengths(&f->store, &log, &length);
    for (entry_t it; made == COSTORE_DONE && next_entry(f, log, &at, &it);)
        made = make_entry(f, &it);
    if (made == COSTORE_DONE && log > 0 && !f->reads)
        made = settle(f, log, length);
    if (made != COSTORE_DONE)
        return fail(f, made);
    if (log > LOG_KEPT)
        give_back(f, f->log.at + LOG_KEPT, log - LOG_KEPT);
    return code;
}

/* ---- opening and making ---- */

/* The path from the root on: the program may go to another folder while the file is open. */
static char *from_root(const char *path) {
    char *folder, *whole;
    if (*path == '/')
        return strdup(path);
    folder = getcwd(NULL, 0);
    whole = folder ? malloc(strlen(folder) + strlen(path) + 2) : NULL;
    if (whole)
        sprintf(whole, "%s/%s", folder, path);
    free(folder);
    return whole;
}

/* Nothing is open yet. */
static int32_t begin(costore_file_t *f, const char *path) {
    memset(f, 0, sizeof *f);
    f->fd = -1;
    f->reads = !MAPS;
    f->touched = calloc(1, sizeof *f->touched);
    if (!f->touched)
        return COSTORE_NO_MEMORY;
    f->path = from_root(path);
    return f->path ? COSTORE_DONE : COSTORE_SYSTEM;
}

/* What has the name is looked at before it is opened: to open a pipe waits, and to open a device may do anything. */
static int32_t find_file(const char *path) {
    struct stat is;
    if (stat(path, &is))
        return COSTORE_SYSTEM;
    return S_ISREG(is.st_mode) ? COSTORE_DONE : COSTORE_NOT_A_FILE;
}

/* Opens a file, takes its lock, and looks at what was opened: the name may have changed hands, and a pipe that has it
   now isn't waited for. */
static int32_t take(costore_file_t *f, const char *path, int how, uint64_t *length) {
    struct stat is;
    f->fd = open(path, O_RDWR | O_CLOEXEC | O_NOCTTY | O_NONBLOCK | how, 0666);
    if (f->fd < 0)
        return COSTORE_SYSTEM;
    if (flock(f->fd, LOCK_EX | LOCK_NB))
        return errno == EWOULDBLOCK ? COSTORE_LOCKED : COSTORE_SYSTEM;
    if (fstat(f->fd, &is) || fcntl(f->fd, F_SETFL, 0) < 0)
        return COSTORE_SYSTEM;
    *length = (uint64_t)is.st_size;
    return S_ISREG(is.st_mode) ? COSTORE_DONE : COSTORE_NOT_A_FILE;
}

static int32_t ended(costore_file_t *f, int32_t code) {
    if (code < COSTORE_DONE) {
        int why = errno;
        costore_file_close(f);
        errno = why;
    }
    return code;
}

/* Reads the first bytes of the file, which are those of a store. */
static int32_t read_shape(const costore_file_t *f, costore_shape *shape) {
    uint8_t front[COSTORE_FRONT];
    int64_t had = read_front(f->fd, front, sizeof front);
    if (had < 0)
        return COSTORE_SYSTEM;
    return costore_shape_of(front, (size_t)had, shape) == COSTORE_DONE ? COSTORE_DONE : COSTORE_NO_STORE;
}

/* The most that an opening logs, for a file of `length` bytes with room for `names` names. It cuts the file, or it
   finishes a flush: that moves each object at most twice, in pieces of 65,536 bytes, and saves at most once before each
   move and once at the end (MovesOn of store_model/specs/Opened). It never makes the file longer, so that the room, of
   at least its length, suffices. */
static uint64_t most_log(uint64_t length, uint64_t names) {
    uint64_t save = 8497 + 80 * names + COSTORE_ENTRY_HEAD * (names / 512 + 7);
    return 2 * length + COSTORE_ENTRY_HEAD * (2 * length / PIECE + 4 * names + 2) + (2 * names + 1) * save;
}

/* Half of the machine's memory. What is logged is in the file's region, too. */
static uint64_t half_of_memory(void) {
#ifdef _SC_PHYS_PAGES
    long pages = sysconf(_SC_PHYS_PAGES);
    return pages > 0 ? (uint64_t)pages * page_size() / 2 : UINT64_MAX;
#else
    return UINT64_MAX;
#endif
}

/* Opens the store in the file that was taken. Its log has room to finish each flush for which the machine has memory;
   the library refuses one that needs more. */
static int32_t open_store(costore_file_t *f, uint64_t length, uint64_t names, uint64_t room, uint64_t log) {
    uint64_t most = most_log(length, names), half = half_of_memory();
    int32_t code = take_regions(f, room < length ? length : room, log, most < half ? most : half);
    if (code == COSTORE_DONE)
        code = show_file(f, length);
    if (code == COSTORE_DONE)
        code = costore_new(f->file, f->length, f->log, &f->store);
    return code == COSTORE_DONE ? costore_open(&f->store) : code;
}

int32_t costore_file_open(costore_file_t *f, const char *path, uint64_t room, uint64_t log) {
    costore_shape shape = {0};
    uint64_t length = 0;
    int32_t code = begin(f, path);
    if (code == COSTORE_DONE)
        code = find_file(path);
    if (code == COSTORE_DONE)
        code = take(f, path, 0, &length);
    if (code == COSTORE_DONE)
        code = read_shape(f, &shape);
    /* What an earlier process wrote must be on the device before the library reads it. */
    if (code == COSTORE_DONE && fsync(f->fd))
        code = COSTORE_SYSTEM;
    if (code == COSTORE_DONE)
        code = open_store(f, length, shape.names, room, log);
    return ended(f, replay(f, code));
}

/* Takes the empty file that has the name, if there is one. */
static int32_t take_empty(costore_file_t *f, const char *path) {
    uint64_t length = 0;
    int32_t code = find_file(path);
    if (code == COSTORE_SYSTEM && errno == ENOENT)
        return COSTORE_DONE;
    if (code == COSTORE_DONE)
        code = take(f, path, 0, &length);
    return code == COSTORE_DONE && length > 0 ? COSTORE_NOT_NEW : code;
}

/* Makes the file unless it was taken, and syncs it and its entry in the folder. Nothing was written to it yet. */
static int32_t place(costore_file_t *f, const char *path) {
    uint64_t length = 0;
    char *copy = strdup(path);
    int folder = copy ? open(dirname(copy), O_RDONLY | O_DIRECTORY | O_CLOEXEC) : -1;
    int32_t code = folder < 0 ? COSTORE_SYSTEM : COSTORE_DONE;
    if (code == COSTORE_DONE && f->fd < 0)
        code = take(f, path, O_CREAT | O_EXCL, &length);
    if (code == COSTORE_DONE && length > 0)
        code = COSTORE_NOT_NEW;
    if (code == COSTORE_DONE && (fsync(f->fd) || fsync(folder)))
        code = COSTORE_SYSTEM;
    int why = errno;
    if (folder >= 0)
        close(folder);
    free(copy);
    errno = why;
    return code;
}

/* A dump of which a store is made, or none for one of no names. */
typedef struct dump_t {
    const uint8_t *text;
    size_t n;
    uint64_t *number;
} dump_t;

/* Makes a store in memory first, and then its file: where the library refuses, no file is made. */
static int32_t make(costore_file_t *f, const char *path, const dump_t *dump, uint64_t k, uint64_t names,
                    uint64_t room, uint64_t log) {
    int32_t code = begin(f, path);
    if (code == COSTORE_DONE)
        code = take_empty(f, path);
    if (code == COSTORE_DONE)
        code = take_regions(f, room, log, 0);
    if (code == COSTORE_DONE)
        code = costore_new(f->file, 0, f->log, &f->store);
    if (code == COSTORE_DONE)
        code = dump ? costore_load(&f->store, dump->text, dump->n, k, names, dump->number)
                    : costore_format(&f->store, k, names);
    if (code == COSTORE_DONE)
        code = place(f, path);
    return ended(f, replay(f, code));
}

int32_t costore_file_format(costore_file_t *f, const char *path, uint64_t k, uint64_t names, uint64_t room,
                            uint64_t log) {
    return make(f, path, NULL, k, names, room, log);
}

int32_t costore_file_load(costore_file_t *f, const char *path, const uint8_t *text, size_t n, uint64_t k,
                          uint64_t names, uint64_t room, uint64_t log, uint64_t *number) {
    dump_t dump = {text, n, number};
    return make(f, path, &dump, k, names, room, log);
}

void costore_file_close(costore_file_t *f) {
    costore_free(&f->store);
    leave_region(&f->file);
    leave_region(&f->marks);
    leave_region(&f->log);
    if (f->fd >= 0)
        close(f->fd);
    free(f->touched);
    free(f->path);
    memset(f, 0, sizeof *f);
    f->fd = -1;
    f->failed = true;
}

int32_t costore_file_put(costore_file_t *f, const uint8_t *name, size_t n, const uint8_t *object, size_t m) {
    return f->failed ? COSTORE_BROKEN : replay(f, costore_put(&f->store, name, n, object, m));
}

int32_t costore_file_del(costore_file_t *f, const uint8_t *name, size_t n) {
    return f->failed ? COSTORE_BROKEN : replay(f, costore_del(&f->store, name, n));
}

int32_t costore_file_keep(costore_file_t *f) {
    return f->failed ? COSTORE_BROKEN : replay(f, costore_keep(&f->store));
}

int32_t costore_file_upgrade(costore_file_t *f) {
    return f->failed ? COSTORE_BROKEN : replay(f, costore_upgrade(&f->store));
}

int32_t costore_file_begin_put(costore_file_t *f, const uint8_t *name, size_t n, const uint8_t *object, size_t m) {
    return f->failed ? COSTORE_BROKEN : replay(f, costore_begin_put(&f->store, name, n, object, m));
}

int32_t costore_file_begin_del(costore_file_t *f, const uint8_t *name, size_t n) {
    return f->failed ? COSTORE_BROKEN : replay(f, costore_begin_del(&f->store, name, n));
}

int32_t costore_file_step(costore_file_t *f) {
    return f->failed ? COSTORE_BROKEN : replay(f, costore_step(&f->store));
}

int32_t costore_file_finish(costore_file_t *f, uint64_t *number) {
    uint64_t size = 0;
    uint8_t *text;
    int32_t code = f->failed ? COSTORE_BROKEN
                             : costore_size(&f->store, (const uint8_t *)COSTORE_BATCH, sizeof COSTORE_BATCH - 1, &size);
    if (code < COSTORE_DONE)
        return code == COSTORE_MISSING ? COSTORE_DONE : code;
    text = malloc(size + 1);
    if (!text)
        return COSTORE_NO_MEMORY;
    code = replay(f, costore_finish(&f->store, text, size, number));
    free(text);
    return code;
}

int32_t costore_file_batch(costore_file_t *f, const uint8_t *text, size_t n, uint64_t *number) {
    int32_t code = f->failed ? COSTORE_BROKEN : costore_batch(&f->store, text, n, number);
    if (code == COSTORE_PENDING) {
        code = costore_file_finish(f, number);
        if (code < COSTORE_DONE)
            return code;
        code = costore_batch(&f->store, text, n, number);
    }
    return replay(f, code);
}

/* ---- what logs nothing ---- */

int32_t costore_file_back(costore_file_t *f) {
    return f->failed ? COSTORE_BROKEN : costore_back(&f->store);
}

bool costore_file_in_hand(const costore_file_t *f) {
    return !f->failed && costore_in_hand(&f->store);
}

int32_t costore_file_size(const costore_file_t *f, const uint8_t *name, size_t n, uint64_t *size) {
    return f->failed ? COSTORE_BROKEN : costore_size(&f->store, name, n, size);
}

int32_t costore_file_position(const costore_file_t *f, const uint8_t *name, size_t n, uint64_t *at, uint64_t *size) {
    return f->failed ? COSTORE_BROKEN : costore_position(&f->store, name, n, at, size);
}

int32_t costore_file_get(const costore_file_t *f, const uint8_t *name, size_t n, uint8_t *out, size_t m,
                         uint64_t *size) {
    return f->failed ? COSTORE_BROKEN : costore_get(&f->store, name, n, out, m, size);
}

int32_t costore_file_old(const costore_file_t *f, const uint8_t *name, size_t n, uint8_t *out, size_t m,
                         uint64_t *size) {
    return f->failed ? COSTORE_BROKEN : costore_old(&f->store, name, n, out, m, size);
}

int32_t costore_file_read(const costore_file_t *f, const uint8_t *name, size_t n, uint64_t from, uint8_t *out,
                          size_t m, uint64_t *size) {
    return f->failed ? COSTORE_BROKEN : costore_read(&f->store, name, n, from, out, m, size);
}

int32_t costore_file_look(const costore_file_t *f, const uint8_t *name, size_t n, const uint8_t **bytes,
                          uint64_t *size) {
    uint64_t at = 0;
    int32_t code = f->failed ? COSTORE_BROKEN : costore_position(&f->store, name, n, &at, size);
    if (code == COSTORE_DONE)
        *bytes = f->file.at + at;
    return code;
}

int32_t costore_file_next(const costore_file_t *f, const uint8_t *above, size_t n, uint8_t *out, size_t m,
                          uint64_t *length, uint64_t *size) {
    return f->failed ? COSTORE_BROKEN : costore_next(&f->store, above, n, out, m, length, size);
}

int32_t costore_file_list(const costore_file_t *f, uint8_t *out, size_t m, uint64_t *size) {
    return f->failed ? COSTORE_BROKEN : costore_list(&f->store, out, m, size);
}

int32_t costore_file_stat(const costore_file_t *f, costore_counts *counts) {
    return f->failed ? COSTORE_BROKEN : costore_stat(&f->store, counts);
}

int32_t costore_file_info(const costore_file_t *f, costore_facts *facts) {
    return f->failed ? COSTORE_BROKEN : costore_info(&f->store, facts);
}

int32_t costore_file_check(const costore_file_t *f, costore_fault *fault) {
    return f->failed ? COSTORE_BROKEN : costore_check(&f->store, fault);
}

int32_t costore_file_dump(const costore_file_t *f, uint8_t *out, size_t m, uint64_t *size) {
    return f->failed ? COSTORE_BROKEN : costore_dump(&f->store, out, m, size);
}

int32_t costore_file_bytes(const costore_file_t *f, uint64_t at, uint8_t *out, size_t m) {
    return f->failed ? COSTORE_BROKEN : costore_file(&f->store, at, out, m);
}
