/* Opens a store that is larger than memory, reads and changes it, and begins a flush of it: larger PATH. No more than
   64 MB may then be memory of the process alone. The store has 65,535 objects of a MiB of zeros in a sparse file, whose
   head is written here by hand. */
#define _GNU_SOURCE
#include "costore_file.h"

#include <fcntl.h>
#include <stdio.h>
#include <stdlib.h>
#include <string.h>
#include <time.h>
#include <unistd.h>

enum { K = 64, NAMES = 65536, OBJECTS = NAMES - 1, SIZE = 1 << 20, CLASS = 20, RECORD = 80, MOST_KB = 64 << 10 };
enum { LARGE = 200, SMALL = 1000 };
enum { HEADER = 8488, FRONT = 64, SLOT = HEADER + RECORD * NAMES + 1, HEAD = FRONT + 2 * SLOT + 1 };

static int passed, failed;
static long most;
static double opening, begin, step;

static void is(const char *what, int64_t found, int64_t wanted) {
    if (found == wanted) {
        passed++;
    } else {
        failed++;
        printf("larger: failed: %s: %lld, not %lld\n", what, (long long)found, (long long)wanted);
    }
}

/* How many KB are memory of this process alone. */
static void look(void *with) {
    char line[256];
    long now = 0;
    FILE *status = fopen("/proc/self/status", "r");
    (void)with;
    while (status && fgets(line, sizeof line, status))
        if (sscanf(line, "RssAnon: %ld", &now) == 1)
            most = now > most ? now : most;
    if (status)
        fclose(status);
}

static double now(void) {
    struct timespec t;
    clock_gettime(CLOCK_MONOTONIC, &t);
    return (double)t.tv_sec * 1e3 + (double)t.tv_nsec / 1e6;
}

static uint8_t *put_number(uint8_t *out, uint64_t n) {
    for (int i = 0; i < 8; i++)
        *out++ = (uint8_t)(n >> 8 * i);
    return out;
}

static size_t name_of(int i, uint8_t name[16]) { return (size_t)sprintf((char *)name, "n%05d", i); }

/* Writes the file: superblock, a slot with its table and its gate, an empty slot, the format's gate (docs/FORMAT.md).
   The objects are one payload segment, with its buffer after it. */
static bool craft(const char *path) {
    uint64_t bytes = (uint64_t)OBJECTS * SIZE;
    uint8_t *head = calloc(1, HEAD), *at = head + FRONT;
    int fd = open(path, O_RDWR | O_CREAT | O_TRUNC, 0666);
    memcpy(head, "COSTORE1", 8);
    put_number(put_number(head + 8, K), NAMES);
    at[0] = 1;
    put_number(put_number(at + 8, 1), OBJECTS);
    put_number(at + 40 + 8 * CLASS, bytes);
    at += HEADER;
    for (int i = 0; i < OBJECTS; i++, at += RECORD) {
        uint8_t name[16];
        at[0] = (uint8_t)name_of(i, name);
        memcpy(at + 1, name, at[0]);
        put_number(put_number(at + 64, (uint64_t)i * SIZE), SIZE);
    }
    head[FRONT + SLOT - 1] = head[HEAD - 1] = 0xa5;
    bool made = fd >= 0 && ftruncate(fd, (off_t)(HEAD + bytes + bytes / K)) == 0 && pwrite(fd, head, HEAD, 0) == HEAD;
    if (fd >= 0)
        close(fd);
    if (!made)
        unlink(path);
    free(head);
    return made;
}

static uint8_t object[SIZE], out[SIZE];

/* Gets an object, whose bytes are all of one value. */
static bool has(costore_file_t *f, int i, uint64_t wanted, int byte) {
    uint8_t name[16];
    uint64_t size = 0;
    memset(object, byte, sizeof object);
    return costore_file_get(f, name, name_of(i, name), out, sizeof out, &size) == COSTORE_DONE && size == wanted
           && memcmp(out, object, size) == 0;
}

static int32_t put(costore_file_t *f, int i, size_t size, int byte) {
    uint8_t name[16];
    memset(object, byte, size);
    return costore_file_begin_put(f, name, name_of(i, name), object, size);
}

/* Opens it with as much room and log as it may need, and looks at the memory within each replay. */
static bool opens(costore_file_t *f, const char *path) {
    uint64_t room, log;
    costore_need(K, NAMES, (uint64_t)2 * OBJECTS * SIZE, SIZE, &room, &log);
    double began = now();
    int32_t code = costore_file_open(f, path, room, log);
    opening = now() - began;
    is("open", code, COSTORE_DONE);
    f->before = look;
    look(NULL);
    return code == COSTORE_DONE;
}

/* Reads, puts that need no flush, and a checkpoint. */
static void use(costore_file_t *f) {
    int gets = 0, puts = 0;
    for (int i = 0; i < 200; i++)
        gets += has(f, i * 7919 % OBJECTS, SIZE, 0);
    is("gets", gets, 200);
    for (int i = 0; i < LARGE; i++)
        puts += put(f, i, SIZE, i % 256) == COSTORE_DONE;
    is("puts", puts, LARGE);
    is("keep", costore_file_keep(f), COSTORE_KEPT);
    look(NULL);
}

/* Puts small objects in the place of large ones until a flush begins, and makes the steps that move what was put. */
static void flush(costore_file_t *f) {
    int i = LARGE, steps = 0;
    double began = now();
    while (i < OBJECTS && put(f, i, SMALL, i % 256) == COSTORE_DONE)
        i++, began = now();
    begin = now() - began, began = now();
    is("a flush begins", costore_file_in_hand(f), 1);
    while (steps < LARGE && costore_file_step(f) == COSTORE_MOVED)
        steps++;
    step = (now() - began) / LARGE;
    is("steps", steps, LARGE);
    while (steps < 2 * LARGE && costore_file_step(f) == COSTORE_MOVED)
        steps++;
    is("more steps", steps, 2 * LARGE);
    is("get, moved", has(f, LARGE / 2, SIZE, LARGE / 2), 1);
    is("get, asked for", has(f, i, SMALL, i % 256), 1);
    look(NULL);
}

int main(int argc, char **argv) {
    costore_file_t f;
    if (argc != 2)
        return 2;
    if (!craft(argv[1])) {
        printf("larger: skipped: there can't be a file of 64 GB\n0 passed, 0 failed\n");
        return 0;
    }
    if (opens(&f, argv[1]))
        use(&f);
    costore_file_close(&f);
    if (opens(&f, argv[1])) {
        is("get again", has(&f, LARGE - 1, SIZE, LARGE - 1), 1);
        flush(&f);
    }
    costore_file_close(&f);
    is("memory", most > 0 && most <= MOST_KB, 1);
    printf("larger: %.1f ms to open, %.1f to begin, %.1f a step, %ld KB of memory\n", opening, begin, step, most);
    printf("%d passed, %d failed\n", passed, failed);
    return failed != 0;
}
