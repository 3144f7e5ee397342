/* Upgrades a store to digests, damages it, and replays each part of the log of an upgrade: upgrades FILE. */
#define _GNU_SOURCE
#include "costore_file.h"
#include "counted.h"

#include <stdbool.h>
#include <stdlib.h>
#include <unistd.h>

enum { NAMES = 20, ROOM = 1 << 20, LOG = 1 << 20, OBJECTS = 12, MOST = 500 };

static size_t name_of(int i, uint8_t name[16]) { return (size_t)sprintf((char *)name, "n%02d", i); }

/* The object of a name, after a number of rounds. */
static size_t object_of(int i, int round, uint8_t object[MOST]) {
    size_t size = (size_t)(i * 37 + round * 11) % MOST;
    for (size_t at = 0; at < size; at++)
        object[at] = (uint8_t)(at * 3 + (size_t)(i + round));
    return size;
}

/* ---- damage ---- */

static int32_t get(const costore_file_t *f, int i) {
    uint8_t name[16], out[MOST], object[MOST];
    uint64_t size = 0;
    int32_t code = costore_file_get(f, name, name_of(i, name), out, sizeof out, &size);
    if (code != COSTORE_DONE)
        return code;
    return size == object_of(i, 0, object) && memcmp(out, object, size) == 0 ? code : COSTORE_SHORT;
}

/* Flips a bit of the byte in the file where an object has its n-th. */
static void flip(const costore_file_t *f, int i, uint64_t n) {
    uint8_t name[16], byte = 0;
    uint64_t at = 0, size = 0;
    is("position", "to flip", costore_file_position(f, name, name_of(i, name), &at, &size), COSTORE_DONE);
    is("flip", "within the object", n < size && pread(f->fd, &byte, 1, (off_t)(at + n)) == 1, 1);
    byte ^= 16;
    is("flip", "writes", pwrite(f->fd, &byte, 1, (off_t)(at + n)), 1);
}

/* An object that was damaged while the file was closed: what finds it, and what doesn't. */
static void damaged(costore_file_t *f, const char *path) {
    enum { WHICH = 5, AT = 100 };
    uint8_t name[16], out[1 << 14], object[MOST];
    uint64_t size = 0;
    costore_fault fault;
    size_t n = name_of(WHICH, name), m = object_of(WHICH, 0, object);
    flip(f, WHICH, AT);
    costore_file_close(f);
    is("open", "damaged", costore_file_open(f, path, ROOM, LOG), COSTORE_DONE);
    for (int i = 0; i < OBJECTS; i++)
        is("get", i == WHICH ? "damaged" : "others", get(f, i), i == WHICH ? COSTORE_DAMAGED : COSTORE_DONE);
    is("check", "damaged", costore_file_check(f, &fault), COSTORE_DONE);
    is("old", "damaged", costore_file_old(f, name, n, out, sizeof out, &size), COSTORE_DAMAGED);
    is("dump", "damaged", costore_file_dump(f, out, sizeof out, &size), COSTORE_DAMAGED);
    is("size", "damaged", costore_file_size(f, name, n, &size), COSTORE_DONE);
    is("read", "damaged", costore_file_read(f, name, n, 0, out, sizeof out, &size), COSTORE_DONE);
    object[AT] ^= 16;
    is("read", "its bytes", size == m && memcmp(out, object, m) == 0, 1);
    object[AT] ^= 16;
    is("put", "damaged", costore_file_put(f, name, n, object, m) >= COSTORE_DONE, 1);
    is("get", "put again", get(f, WHICH), COSTORE_DONE);
    is("keep", "put again", costore_file_keep(f), COSTORE_KEPT);
}

static void upgraded(const char *path) {
    uint8_t name[16], object[MOST];
    costore_file_t f;
    costore_facts facts = {0};
    uint64_t log = 77, file = 0;
    is("format", "upgrades", costore_file_format(&f, path, 9, NAMES, ROOM, LOG), COSTORE_DONE);
    is("info", "new", costore_file_info(&f, &facts) == COSTORE_DONE && facts.version == 1, 1);
    for (int i = 0; i < OBJECTS; i++) {
        size_t m = object_of(i, 0, object), n = name_of(i, name);
        is("put", "upgrades", costore_file_put(&f, name, n, object, m) >= COSTORE_DONE, 1);
    }
    is("begin", "upgrades", costore_file_begin_put(&f, TEXT("large"), (const uint8_t[3000]){1}, 3000), COSTORE_IN_HAND);
    is("upgrade", "in hand", costore_file_upgrade(&f), COSTORE_BUSY);
    while (costore_file_in_hand(&f))
        is("step", "upgrades", costore_file_step(&f) > COSTORE_DONE, 1);
    is("del", "upgrades", costore_file_del(&f, TEXT("large")) >= COSTORE_DONE, 1);
    is("upgrade", "once", costore_file_upgrade(&f), COSTORE_KEPT);
    is("upgrade", "twice", costore_file_upgrade(&f), COSTORE_DONE);
    is("upgrade", "logs nothing", costore_lengths(&f.store, &log, &file) == COSTORE_DONE && log == 0 && file > 0, 1);
    costore_file_close(&f);
    is("open", "upgraded", costore_file_open(&f, path, ROOM, LOG), COSTORE_DONE);
    is("info", "upgraded", costore_file_info(&f, &facts) == COSTORE_DONE && facts.version == 2, 1);
    for (int i = 0; i < OBJECTS; i++)
        is("get", "upgraded", get(&f, i), COSTORE_DONE);
    damaged(&f, path);
    costore_file_close(&f);
}

/* ---- what a crash leaves of an upgrade ---- */

/* A file in memory, and what is lent to a handle. */
static uint8_t before[ROOM], image[ROOM], lent[ROOM], noted[LOG], log_then[LOG], small[LOG];
static uint64_t length, used;

static uint64_t number(const uint8_t *bytes) {
    uint64_t n = 0;
    for (int i = 7; i >= 0; i--)
        n = n << 8 | bytes[i];
    return n;
}

/* Makes the first calls of the log on the image: so many, and a part of the next one if it writes. */
static void replay(int calls, uint64_t part) {
    uint64_t at = 0, end = length;
    memset(image, 0, sizeof image);
    memcpy(image, before, length);
    for (int n = 0; n <= calls && at < used; n++) {
        const uint8_t *entry = log_then + at;
        uint64_t where = number(entry + 1), count = number(entry + 9), made = n < calls ? count : part * count / 4;
        if (entry[0] == 1)
            memcpy(image + where, entry + COSTORE_ENTRY_HEAD, made);
        if (entry[0] == 2 && n < calls)
            end = where;
        at += COSTORE_ENTRY_HEAD + count;
    }
    is("replay", "the length stays", (int64_t)end, (int64_t)length);
}

/* How many calls a log has. */
static int calls_of(void) {
    int calls = 0;
    for (uint64_t at = 0; at < used; calls++)
        at += COSTORE_ENTRY_HEAD + number(log_then + at + 9);
    return calls;
}

/* Of which round each object is at the last checkpoint before the upgrade, and as it begins. */
static int kept[OBJECTS], now[OBJECTS];

/* How many objects are those of their rounds. */
static int of_rounds(const costore *store, const int *round) {
    uint8_t name[16], out[MOST], object[MOST];
    uint64_t size = 0;
    int right = 0;
    for (int i = 0; i < OBJECTS; i++) {
        size_t m = object_of(i, round[i], object), n = name_of(i, name);
        right += costore_get(store, name, n, out, sizeof out, &size) == COSTORE_DONE && size == m
                 && memcmp(out, object, m) == 0;
    }
    return right;
}

/* Opens the image: the last checkpoint without digests, or the state of the upgrade with them. Answers its version. */
static uint64_t opened(void) {
    costore store = {0};
    costore_facts facts = {0};
    costore_region region = {lent, ROOM}, log = {small, LOG};
    memcpy(lent, image, ROOM);
    is("new", "an image", costore_new(region, length, log, &store), COSTORE_DONE);
    is("open", "an image", costore_open(&store), COSTORE_DONE);
    is("info", "an image", costore_info(&store, &facts), COSTORE_DONE);
    is("objects", "an image", of_rounds(&store, facts.version == 1 ? kept : now), OBJECTS);
    is("can go on", "an image", costore_keep(&store), COSTORE_KEPT);
    costore_free(&store);
    return facts.version;
}

/* Puts objects of the second round until one isn't kept yet. */
static void change(costore *store) {
    uint8_t name[16], object[MOST];
    int32_t code = COSTORE_KEPT;
    for (int i = 0; i < OBJECTS && code == COSTORE_KEPT; i++) {
        size_t m = object_of(i, 1, object);
        now[i] = 1;
        code = costore_put(store, name, name_of(i, name), object, m);
        if (code == COSTORE_KEPT)
            memcpy(kept, now, sizeof kept);
    }
    is("change", "not kept", code, COSTORE_DONE);
}

/* Makes a store, changes it, and upgrades it. */
static void make(void) {
    uint8_t name[16], object[MOST];
    uint64_t file = 0;
    costore store = {0};
    costore_region region = {lent, ROOM}, log = {noted, LOG};
    memset(lent, 0, sizeof lent);
    is("new", "to upgrade", costore_new(region, 0, log, &store), COSTORE_DONE);
    is("format", "to upgrade", costore_format(&store, 2, NAMES), COSTORE_DONE);
    for (int i = 0; i < OBJECTS; i++) {
        size_t m = object_of(i, 0, object);
        is("put", "to upgrade", costore_put(&store, name, name_of(i, name), object, m) >= COSTORE_DONE, 1);
    }
    is("keep", "to upgrade", costore_keep(&store), COSTORE_KEPT);
    change(&store);
    is("lengths", "to upgrade", costore_lengths(&store, &used, &length), COSTORE_DONE);
    is("file", "to upgrade", costore_file(&store, 0, before, length), COSTORE_DONE);
    is("upgrade", "to upgrade", costore_upgrade(&store), COSTORE_KEPT);
    is("lengths", "upgraded", costore_lengths(&store, &used, &file), COSTORE_DONE);
    is("its length", "upgraded", (int64_t)file, (int64_t)length);
    memcpy(log_then, noted, used);
    costore_free(&store);
}

static void crashes(void) {
    uint64_t version = 1;
    make();
    int calls = calls_of();
    is("calls", "of an upgrade", calls >= 7, 1);
    for (int n = 0; n <= calls; n++)
        for (uint64_t part = 0; part < 4; part++) {
            replay(n, part);
            uint64_t found = opened();
            is("version", "never goes back", found >= version, 1);
            version = found;
        }
    is("version", "at the end", (int64_t)version, 2);
}

int main(int argc, char **argv) {
    if (argc != 2)
        return 2;
    upgraded(argv[1]);
    crashes();
    return counted();
}
