/* Runs drawn sessions that are killed within a replay, and opens each file again: killed FOLDER RUNS. It must then have
   the last checkpoint that was acknowledged, or the state after the request that was under way. A third of them is
   killed where pages of the file are mapped or given back. */
#define _GNU_SOURCE
#include <signal.h>
#include <stdbool.h>
#include <stdio.h>
#include <sys/mman.h>
#include <sys/wait.h>
#include <unistd.h>

/* Whether the moments of this run are the calls below, or those before which costore_file.c calls `before`. How many
   came, and at which the process is killed (at none where that is 0). */
static bool at_pages;
static int moments, last_moment;

static void come(bool pages) {
    if (pages == at_pages && ++moments == last_moment)
        kill(getpid(), SIGKILL);
}

static void *come_mmap(void *at, size_t n, int prot, int how, int fd, off_t from) {
    come(true);
    return mmap(at, n, prot, how, fd, from);
}

static int come_madvise(void *at, size_t n, int how) {
    come(true);
    return madvise(at, n, how);
}

#define mmap come_mmap
#define madvise come_madvise
#include "costore_file.c"

enum { NAMES = 40, MOST = 3000, REQUESTS = 400 };

/* In half of the runs each change is made by steps, with just the room that costore_need computes, and no log of a call
   may be longer than the log that it computes. */
static uint64_t room, log_room;

static int by_steps(unsigned run) {
    return run % 2;
}

static void measure(unsigned run) {
    costore_need(9, 64, NAMES * MOST, MOST, &room, &log_room);
    if (!by_steps(run))
        log_room = 1 << 22;
}

/* A map: for each name the size, or -1 if there is no object, and the seed of its bytes. */
typedef struct map_t {
    int size[NAMES];
    unsigned seed[NAMES];
} map_t;

static unsigned drawn(unsigned *state) {
    *state = *state * 1664525u + 1013904223u;
    return *state >> 8;
}

static size_t name_of(int which, uint8_t *name) {
    return (size_t)sprintf((char *)name, "name%d", which);
}

static void bytes_of(unsigned seed, int size, uint8_t *out) {
    for (int i = 0; i < size; i++)
        out[i] = (uint8_t)(drawn(&seed) & 0xff);
}

/* The request of a number: its name, and the size and seed of its object; or -1 to remove it, or -2 to keep. */
static void request(unsigned run, int number, int *which, int *size, unsigned *seed) {
    unsigned state = run * 7919u + (unsigned)number * 104729u + 1;
    drawn(&state);
    *which = (int)(drawn(&state) % NAMES);
    *seed = drawn(&state);
    unsigned kind = drawn(&state) % 12;
    *size = kind == 0 ? -2 : kind < 4 ? -1 : (int)(drawn(&state) % MOST);
}

static void come_before(void *with) {
    (void)with;
    come(false);
}

/* Whether the last log is no longer than was asked for: an opened file has more, so as to finish any flush. */
static bool fits(costore_file_t *f) {
    uint64_t log = 0, length;
    return costore_lengths(&f->store, &log, &length) == COSTORE_DONE && log <= log_room;
}

/* Makes one request, by steps or as one call, and answers what its last call answers. */
static int32_t serve(costore_file_t *f, unsigned run, int number) {
    uint8_t name[64], object[MOST];
    int which, size;
    unsigned seed;
    int32_t code;
    request(run, number, &which, &size, &seed);
    size_t n = name_of(which, name);
    if (size == -2)
        return costore_file_keep(f);
    if (size >= 0)
        bytes_of(seed, size, object);
    if (!by_steps(run) && number % 2 == 0)
        return size < 0 ? costore_file_del(f, name, n) : costore_file_put(f, name, n, object, (size_t)size);
    code = size < 0 ? costore_file_begin_del(f, name, n)
                    : costore_file_begin_put(f, name, n, object, (size_t)size);
    while (fits(f) && (code == COSTORE_IN_HAND || code == COSTORE_MOVED))
        code = costore_file_step(f);
    return fits(f) ? code : COSTORE_SHORT;
}

static void change(map_t *m, unsigned run, int number) {
    int which, size;
    unsigned seed;
    request(run, number, &which, &size, &seed);
    if (size == -2)
        return;
    m->size[which] = size;
    m->seed[which] = seed;
}

static int same(costore_file_t *f, const map_t *m) {
    uint8_t name[64], object[MOST], out[MOST];
    uint64_t size;
    for (int i = 0; i < NAMES; i++) {
        size_t n = name_of(i, name);
        int32_t code = costore_file_get(f, name, n, out, sizeof out, &size);
        if (m->size[i] < 0) {
            if (code != COSTORE_MISSING)
                return 0;
            continue;
        }
        bytes_of(m->seed[i], m->size[i], object);
        if (code != COSTORE_DONE || size != (uint64_t)m->size[i] || memcmp(out, object, size))
            return 0;
    }
    return 1;
}

static int killed_at_pages;

/* One run: a child serves requests, reports each, and is killed. */
static const char *try(const char *path, unsigned run) {
    costore_file_t f;
    int ends[2];
    struct { int number; int32_t code; } said;
    map_t now, kept, next;
    unsigned state = run + 77;
    measure(run);
    unlink(path);
    if (costore_file_format(&f, path, 9, 64, room, log_room) != COSTORE_DONE)
        return "format";
    costore_file_close(&f);
    at_pages = run % 3 == 2;
    int last = 1 + (int)(drawn(&state) % (at_pages ? 100 : 3000));
    if (pipe(ends))
        return "pipe";
    pid_t child = fork();
    if (child == 0) {
        if (costore_file_open(&f, path, room, log_room) != COSTORE_DONE)
            _exit(1);
        f.before = come_before, moments = 0, last_moment = last;
        for (int i = 0; i < REQUESTS; i++) {
            said.number = i;
            said.code = serve(&f, run, i);
            if (write(ends[1], &said, sizeof said) != sizeof said)
                _exit(1);
        }
        _exit(0);
    }
    close(ends[1]);
    for (int i = 0; i < NAMES; i++)
        now.size[i] = -1;
    kept = now;
    int done = 0;
    while (read(ends[0], &said, sizeof said) == sizeof said) {
        if (said.code >= COSTORE_DONE)
            change(&now, run, said.number);
        else if (said.code != COSTORE_MISSING)
            return "a request was refused";
        if (said.code == COSTORE_KEPT)
            kept = now;
        done = said.number + 1;
    }
    close(ends[0]);
    int status;
    waitpid(child, &status, 0);
    killed_at_pages += at_pages && WIFSIGNALED(status);
    next = now;
    if (done < REQUESTS)
        change(&next, run, done);
    if (costore_file_open(&f, path, room, log_room) != COSTORE_DONE)
        return "the file doesn't open";
    const char *wrong = same(&f, &kept) || (done < REQUESTS && same(&f, &next)) ? NULL : "another map";
    if (!wrong && costore_file_keep(&f) != COSTORE_KEPT)
        wrong = "it can't go on";
    costore_file_close(&f);
    return wrong;
}

int main(int argc, char **argv) {
    int passed = 0, failed = 0;
    char path[4096];
    if (argc != 3)
        return 2;
    snprintf(path, sizeof path, "%s/killed", argv[1]);
    for (int run = 0; run < atoi(argv[2]); run++) {
        const char *wrong = try(path, (unsigned)run);
        if (!wrong) {
            passed++;
        } else {
            failed++;
            printf("killed: failed: run %d: %s\n", run, wrong);
        }
    }
    /* So many of 20 runs come to these moments. */
    if (atoi(argv[2]) >= 20 && killed_at_pages < 3) {
        failed++;
        printf("killed: failed: %d were killed where pages are mapped or given back\n", killed_at_pages);
    }
    printf("%d passed, %d failed\n", passed, failed);
    return failed != 0;
}
