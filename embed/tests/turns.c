/* Reads one handle in several threads in turn, under a lock. The store is in memory, and has no file. Each thread asks
   for each object in an order of its own, and compares its bytes, its size, and what stands at its position in the
   file. Between two rounds it puts an object that only it has a name for. */
#include "costore.h"

#include <pthread.h>
#include <stdio.h>
#include <string.h>

#define THREADS 8
#define NAMES 61
#define ROUNDS 10

static uint8_t memory[1 << 22], noted[1 << 20];
static costore store;
static pthread_mutex_t lock = PTHREAD_MUTEX_INITIALIZER;

typedef struct reader {
    int number, passed, failed;
} reader;

static void is(reader *r, const char *what, int64_t found, int64_t wanted) {
    if (found == wanted) {
        r->passed++;
    } else {
        r->failed++;
        printf("turns: failed: %s in thread %d: %lld, not %lld\n", what, r->number, (long long)found,
               (long long)wanted);
    }
}

/* The name and the object of a number; an object has up to 960 bytes. */
static size_t named(int i, char *name) { return (size_t)sprintf(name, "object%d", i); }

static size_t filled(int i, uint8_t *object) {
    size_t m = (size_t)i * 16;
    for (size_t at = 0; at < m; at++)
        object[at] = (uint8_t)(at * 7 + (size_t)i * 31);
    return m;
}

/* The first of the reads of an object that is wrong, from 1; or 0. */
static int read_one(const costore *from, int i) {
    char name[24];
    uint8_t wanted[1024], out[1024];
    uint64_t size = 0, at = 0;
    size_t n = named(i, name), m = filled(i, wanted);
    if (costore_size(from, (uint8_t *)name, n, &size) != COSTORE_DONE || size != m)
        return 1;
    if (costore_get(from, (uint8_t *)name, n, out, sizeof out, &size) != COSTORE_DONE || memcmp(out, wanted, m))
        return 2;
    if (costore_position(from, (uint8_t *)name, n, &at, &size) != COSTORE_DONE || size != m)
        return 3;
    return costore_file(from, at, out, m) != COSTORE_DONE || memcmp(out, wanted, m) ? 4 : 0;
}

static void *run(void *of) {
    reader *r = of;
    char name[24];
    uint8_t list[1 << 14];
    uint64_t size = 0;
    size_t n = (size_t)sprintf(name, "mine%d", r->number);
    for (int round = 0; round < ROUNDS; round++) {
        int wrong = 0;
        for (int i = 0; i < NAMES && !wrong; i++) {
            pthread_mutex_lock(&lock);
            wrong = read_one(&store, (i * (r->number + 1) + round) % NAMES);
            pthread_mutex_unlock(&lock);
        }
        is(r, "the first read that is wrong", wrong, 0);
        pthread_mutex_lock(&lock);
        is(r, "put", costore_put(&store, (uint8_t *)name, n, (uint8_t *)name, n) >= COSTORE_DONE, 1);
        is(r, "list", costore_list(&store, list, sizeof list - 1, &size), COSTORE_DONE);
        list[size] = 0;
        is(r, "my line", strstr((char *)list, name) != NULL, 1);
        pthread_mutex_unlock(&lock);
    }
    return NULL;
}

int main(void) {
    reader readers[THREADS], all = {-1, 0, 0};
    pthread_t threads[THREADS];
    char name[24];
    uint8_t object[1024];
    costore_region file = {memory, sizeof memory}, notes = {noted, sizeof noted};
    is(&all, "new", costore_new(file, 0, notes, &store), COSTORE_DONE);
    is(&all, "format", costore_format(&store, 9, 1024), COSTORE_DONE);
    for (int i = 0; i < NAMES; i++) {
        size_t n = named(i, name), m = filled(i, object);
        is(&all, "put", costore_put(&store, (uint8_t *)name, n, object, m) >= COSTORE_DONE, 1);
    }
    for (int i = 0; i < THREADS; i++) {
        readers[i] = (reader){i, 0, 0};
        is(&all, "thread", pthread_create(&threads[i], NULL, run, &readers[i]), 0);
    }
    for (int i = 0; i < THREADS; i++) {
        pthread_join(threads[i], NULL);
        all.passed += readers[i].passed;
        all.failed += readers[i].failed;
    }
    costore_free(&store);
    printf("%d passed, %d failed\n", all.passed, all.failed);
    return all.failed != 0;
}
