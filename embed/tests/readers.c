/* Reads one store from some threads at a time, between its changes and between the steps of a flush: readers FILE. */
#include "costore_file.h"
#include "counted.h"

#include <pthread.h>
#include <stdbool.h>

enum { THREADS = 4, ROUNDS = 20, OBJECTS = 50, MOST = 8000, NAMES = 80, ROOM = 1 << 23, LOG = 1 << 23 };

static costore_file_t f;
static int round_of[OBJECTS];

static size_t name_of(int i, uint8_t name[16]) { return (size_t)sprintf((char *)name, "n%02d", i); }

static size_t size_of(int i, int round) { return (size_t)(i * 397 + round * 131) % MOST; }

/* Whether bytes are those of an object, from an offset on. */
static bool are(const uint8_t *bytes, uint64_t n, int i, size_t from) {
    for (uint64_t at = 0; at < n; at++)
        if (bytes[at] != (uint8_t)(from + at + (size_t)(i + round_of[i])))
            return false;
    return true;
}

/* Reads an object by each call. */
static bool reads(int i) {
    uint8_t name[16], out[MOST], found[COSTORE_NAME_MOST];
    const uint8_t *bytes;
    uint64_t size = 0, part = 0, looked = 0, at = 0, n = 0;
    size_t length = name_of(i, name), wanted = size_of(i, round_of[i]);
    costore_fault fault;
    return costore_file_get(&f, name, length, out, sizeof out, &size) == COSTORE_DONE && size == wanted
           && are(out, size, i, 0)
           && costore_file_read(&f, name, length, wanted / 3, out, sizeof out, &part) == COSTORE_DONE
           && part == wanted - wanted / 3 && are(out, part, i, wanted / 3)
           && costore_file_look(&f, name, length, &bytes, &looked) == COSTORE_DONE && looked == wanted
           && are(bytes, looked, i, 0) && costore_file_position(&f, name, length, &at, &size) == COSTORE_DONE
           && costore_file_bytes(&f, at, out, wanted) == COSTORE_DONE && are(out, wanted, i, 0)
           && costore_file_next(&f, name, length - 1, found, sizeof found, &n, &size) == COSTORE_DONE && n == length
           && (i % 10 != 0 || costore_file_check(&f, &fault) == COSTORE_DONE);
}

/* One thread: all objects, from another one on. */
static void *read_all(void *with) {
    int *right = with, first = *right;
    *right = 0;
    for (int n = 0; n < OBJECTS; n++)
        *right += reads((first + n) % OBJECTS);
    return NULL;
}

/* Reads by all threads at a time, each all objects. */
static void read_at_once(const char *when) {
    pthread_t threads[THREADS];
    int right[THREADS];
    for (int i = 0; i < THREADS; i++) {
        right[i] = i * OBJECTS / THREADS;
        is("thread", when, pthread_create(&threads[i], NULL, read_all, &right[i]), 0);
    }
    for (int i = 0; i < THREADS; i++) {
        pthread_join(threads[i], NULL);
        is("objects", when, right[i], OBJECTS);
    }
}

static int32_t put(int i, int round) {
    static uint8_t object[MOST];
    uint8_t name[16];
    for (size_t at = 0; at < MOST; at++)
        object[at] = (uint8_t)(at + (size_t)(i + round));
    round_of[i] = round;
    return costore_file_begin_put(&f, name, name_of(i, name), object, size_of(i, round));
}

int main(int argc, char **argv) {
    if (argc != 2)
        return 2;
    is("format", "readers", costore_file_format(&f, argv[1], 9, NAMES, ROOM, LOG), COSTORE_DONE);
    for (int i = 0; i < OBJECTS; i++) {
        is("put", "readers", put(i, 0) >= COSTORE_DONE, 1);
        while (costore_file_in_hand(&f))
            is("step", "readers", costore_file_step(&f) > COSTORE_DONE, 1);
    }
    for (int round = 1; round <= ROUNDS; round++) {
        int32_t code = put(round * 7 % OBJECTS, round);
        for (int step = 0; code == COSTORE_IN_HAND || code == COSTORE_MOVED; step++) {
            if (step % 8 == 0)
                read_at_once("in hand");
            code = costore_file_step(&f);
        }
        is("change", "readers", code >= COSTORE_DONE, 1);
        if (round == ROUNDS / 2)
            is("upgrade", "readers", costore_file_upgrade(&f), COSTORE_KEPT);
        read_at_once("settled");
    }
    costore_file_close(&f);
    return counted();
}
