/* Calls each function of costore_file.c, and by these or itself each of the library, and compares what they answer:
   functions FILE. */
#define _GNU_SOURCE
#include "costore_file.h"

#include <stdio.h>
#include <stdlib.h>
#include <string.h>
#include <unistd.h>

#define TEXT(text) (const uint8_t *)(text), strlen(text)

static int passed, failed;

/* What is lent to a handle that has no file of the system. */
static uint8_t memory[1 << 20], noted[1 << 16];

static void is(const char *what, int64_t found, int64_t wanted) {
    if (found == wanted) {
        passed++;
    } else {
        failed++;
        printf("functions: failed: %s: %lld, not %lld\n", what, (long long)found, (long long)wanted);
    }
}

/* Makes a handle over a file of `length` bytes at the start of `memory`. */
static int32_t lend(costore *store, size_t room, uint64_t length, size_t log) {
    costore_region file = {memory, room}, notes = {noted, log};
    return costore_new(file, length, notes, store);
}

static void changes(costore_file_t *f) {
    uint8_t out[4096], object[3000];
    uint64_t size = 0, log = 0, length = 0, at = 0;
    costore_counts counts;
    memset(object, 'x', sizeof object);
    is("put", costore_file_put(f, TEXT("a"), TEXT("one")) >= 0, 1);
    is("keep", costore_file_keep(f), COSTORE_KEPT);
    is("size", costore_file_size(f, TEXT("a"), &size), COSTORE_DONE);
    is("size of a", (int64_t)size, 3);
    is("get", costore_file_get(f, TEXT("a"), out, sizeof out, &size), COSTORE_DONE);
    is("bytes of a", memcmp(out, "one", 3), 0);
    is("get, too short", costore_file_get(f, TEXT("a"), out, 2, &size), COSTORE_SHORT);
    is("get, missing", costore_file_get(f, TEXT("b"), out, sizeof out, &size), COSTORE_MISSING);
    is("get, no name", costore_file_get(f, TEXT("a b"), out, sizeof out, &size), COSTORE_BAD_NAME);
    is("del", costore_file_del(f, TEXT("a")) >= 0, 1);
    is("del, missing", costore_file_del(f, TEXT("a")), COSTORE_MISSING);
    is("back", costore_file_back(f), COSTORE_DONE);
    is("old", costore_file_old(f, TEXT("a"), out, sizeof out, &size) == COSTORE_DONE
                  || size == 3, 1);
    is("stat", costore_file_stat(f, &counts), COSTORE_DONE);
    is("names", (int64_t)counts.names, (int64_t)counts.kept_names);
    is("begin", costore_file_begin_put(f, TEXT("big"), object, sizeof object), COSTORE_IN_HAND);
    is("in hand", costore_file_in_hand(f), 1);
    is("put, busy", costore_put(&f->store, TEXT("c"), TEXT("d")), COSTORE_BUSY);
    is("get, in hand", costore_file_get(f, TEXT("big"), out, sizeof out, &size), COSTORE_DONE);
    is("bytes of big", memcmp(out, object, sizeof object), 0);
    is("position, in hand", costore_file_position(f, TEXT("big"), &at, &size), COSTORE_DONE);
    is("size, in hand", (int64_t)size, sizeof object);
    is("file, in hand", costore_file_bytes(f, at, out, sizeof object), COSTORE_DONE);
    is("is big", memcmp(out, object, sizeof object), 0);
    is("old, busy", costore_file_old(f, TEXT("a"), out, sizeof out, &size), COSTORE_BUSY);
    is("stat, busy", costore_file_stat(f, &counts), COSTORE_BUSY);
    is("back, busy", costore_file_back(f), COSTORE_BUSY);
    for (int step = 0; costore_file_in_hand(f); step++)
        is("step", costore_file_step(f) >= COSTORE_KEPT, 1);
    is("step, idle", costore_step(&f->store), COSTORE_IDLE);
    is("begin to remove", costore_file_begin_del(f, TEXT("big")) >= 0, 1);
    while (costore_file_in_hand(f))
        is("step", costore_file_step(f) >= COSTORE_KEPT, 1);
    is("list", costore_file_list(f, out, sizeof out, &size), COSTORE_DONE);
    is("list, just fits", costore_file_list(f, out, size, &size), COSTORE_DONE);
    is("lengths", costore_lengths(&f->store, &log, &length), COSTORE_DONE);
    is("log, too long", costore_log(&f->store, log, out, 1), COSTORE_SHORT);
    is("file", costore_file_bytes(f, 0, out, 8), COSTORE_DONE);
}

/* The texts of the log, the list and the file, and the numbers of what there is. */
static void texts(costore_file_t *f) {
    uint8_t out[256], byte;
    const uint8_t *bytes = NULL;
    uint64_t size = 0, log = 0, length = 0;
    costore_counts counts;
    costore_facts facts;
    costore_fault fault;
    is("put of a", costore_file_put(f, TEXT("a"), TEXT("one")) >= COSTORE_DONE, 1);
    is("put of b", costore_file_put(f, TEXT("b"), TEXT("four")) >= COSTORE_DONE, 1);
    is("list", costore_file_list(f, out, sizeof out, &size), COSTORE_DONE);
    is("size of the list", (int64_t)size, 8);
    is("text of the list", memcmp(out, "a 3\nb 4\n", 8), 0);
    is("list, just fits", costore_file_list(f, out, 8, &size), COSTORE_DONE);
    is("list, too short", costore_file_list(f, out, 7, &size), COSTORE_SHORT);
    is("get, just fits", costore_file_get(f, TEXT("b"), out, 4, &size), COSTORE_DONE);
    is("keep", costore_file_keep(f), COSTORE_KEPT);
    is("check", costore_file_check(f, &fault), COSTORE_DONE);
    is("read", costore_file_read(f, TEXT("b"), 1, out, 2, &size), COSTORE_DONE);
    is("its bytes", size == 2 && memcmp(out, "ou", 2) == 0, 1);
    is("look", costore_file_look(f, TEXT("b"), &bytes, &size), COSTORE_DONE);
    is("its bytes", size == 4 && memcmp(bytes, "four", 4) == 0, 1);
    is("next", costore_file_next(f, TEXT("a"), out, sizeof out, &length, &size), COSTORE_DONE);
    is("its name", length == 1 && out[0] == 'b' && size == 4, 1);
    is("info", costore_file_info(f, &facts), COSTORE_DONE);
    is("names of info", facts.live == 2 && facts.kept == 2 && facts.bytes == 7 && facts.names == 64, 1);
    is("stat", costore_file_stat(f, &counts), COSTORE_DONE);
    is("names", (int64_t)counts.names, 2);
    is("bytes", (int64_t)counts.bytes, 7);
    is("kept names", (int64_t)counts.kept_names, 2);
    is("kept bytes", (int64_t)counts.kept_bytes, 7);
    is("old", costore_file_old(f, TEXT("b"), out, sizeof out, &size), COSTORE_DONE);
    is("size of old", (int64_t)size, 4);
    is("bytes of old", memcmp(out, "four", 4), 0);
    is("old, too short", costore_file_old(f, TEXT("b"), out, 3, &size), COSTORE_SHORT);
    is("lengths", costore_lengths(&f->store, &log, &length), COSTORE_DONE);
    is("last entry", costore_log(&f->store, log - COSTORE_ENTRY_HEAD, out, COSTORE_ENTRY_HEAD), COSTORE_DONE);
    is("its kind", out[0], 3);
    is("file", costore_file_bytes(f, 0, out, 8), COSTORE_DONE);
    is("first bytes", memcmp(out, "COSTORE1", 8), 0);
    is("byte of the file", pread(f->fd, &byte, 1, (off_t)length - 1), 1);
    is("last byte", costore_file_bytes(f, length - 1, out, 1), COSTORE_DONE);
    is("is that of the file", out[0], byte);
    is("file, too long", costore_file_bytes(f, length, out, 1), COSTORE_SHORT);
}

/* An object is in the file in memory, and in the one on the device, where its position says. */
static void position(costore_file_t *f, const char *name, const char *object) {
    uint8_t out[64];
    uint64_t at = 7, size = 7, log = 0, length = 0;
    size_t n = strlen(object);
    is("position", costore_file_position(f, TEXT(name), &at, &size), COSTORE_DONE);
    is("its size", (int64_t)size, (int64_t)n);
    is("lengths", costore_lengths(&f->store, &log, &length), COSTORE_DONE);
    is("within the file", at + size <= length, 1);
    is("file there", costore_file_bytes(f, at, out, n), COSTORE_DONE);
    is("is the object", memcmp(out, object, n), 0);
    is("device there", pread(f->fd, out, n, (off_t)at), (int64_t)n);
    is("is the object", memcmp(out, object, n), 0);
    at = size = 7;
    is("position, missing", costore_file_position(f, TEXT("none"), &at, &size), COSTORE_MISSING);
    is("position, no name", costore_file_position(f, TEXT("a b"), &at, &size), COSTORE_BAD_NAME);
    is("nothing is written", at == 7 && size == 7, 1);
}

/* A change that isn't kept is gone after a way back. */
static void back(costore_file_t *f) {
    uint8_t out[64], name[16];
    uint64_t size;
    costore_counts counts;
    size_t n = 0;
    int32_t code = COSTORE_KEPT;
    for (int i = 0; i < 50 && code == COSTORE_KEPT; i++) {
        n = (size_t)sprintf((char *)name, "q%d", i);
        code = costore_file_put(f, name, n, (const uint8_t *)"", 0);
    }
    is("quiet put", code, COSTORE_DONE);
    is("stat", costore_file_stat(f, &counts), COSTORE_DONE);
    is("one more name", (int64_t)counts.names, (int64_t)counts.kept_names + 1);
    is("old", costore_file_old(f, name, n, out, sizeof out, &size), COSTORE_MISSING);
    is("size", costore_file_size(f, name, n, &size), COSTORE_DONE);
    is("back", costore_file_back(f), COSTORE_DONE);
    is("size, gone", costore_file_size(f, name, n, &size), COSTORE_MISSING);
}

/* Batches, and the refusals of one. */
static void batches(costore_file_t *f) {
    uint8_t out[256], room[64];
    uint64_t size = 0, number = 77;
    costore *store = &f->store;
    is("batch", costore_file_batch(f, TEXT("put ba 3\none\nput bb 0\n\n"), &number), COSTORE_KEPT);
    is("number, as it was", (int64_t)number, 77);
    is("get of ba", costore_get(store, TEXT("ba"), out, sizeof out, &size), COSTORE_DONE);
    is("bytes of ba", memcmp(out, "one", 3), 0);
    is("batch is gone", costore_size(store, TEXT(COSTORE_BATCH), &size), COSTORE_MISSING);
    is("batch that removes", costore_file_batch(f, TEXT("del ba\nput bb 1\nx\n"), &number), COSTORE_KEPT);
    is("get, removed", costore_get(store, TEXT("ba"), out, sizeof out, &size), COSTORE_MISSING);
    is("batch, empty", costore_file_batch(f, TEXT(""), &number), COSTORE_DONE);
    is("batch, not rising", costore_batch(store, TEXT("del bb\ndel ba\n"), &number), COSTORE_LINE);
    is("second request", (int64_t)number, 2);
    is("batch, no requests", costore_batch(store, TEXT("get bb\n"), &number), COSTORE_LINE);
    is("first request", (int64_t)number, 1);
    is("batch, unfit", costore_batch(store, TEXT("del bb\ndel bc\n"), &number), COSTORE_UNFIT);
    is("unfit request", (int64_t)number, 2);
    is("get of bb", costore_get(store, TEXT("bb"), out, sizeof out, &size), COSTORE_DONE);
    is("finish, none", costore_finish(store, room, 0, &number), COSTORE_DONE);
    is("put of a batch", costore_file_put(f, TEXT(COSTORE_BATCH), TEXT("del bb\n")) >= COSTORE_DONE, 1);
    is("batch, pending", costore_batch(store, TEXT(""), &number), COSTORE_PENDING);
    is("finish, short", costore_finish(store, room, 6, &number), COSTORE_SHORT);
    is("finish", costore_file_finish(f, &number), COSTORE_KEPT);
    is("get, finished", costore_get(store, TEXT("bb"), out, sizeof out, &size), COSTORE_MISSING);
    is("put of no batch", costore_file_put(f, TEXT(COSTORE_BATCH), TEXT("xyz")) >= COSTORE_DONE, 1);
    is("batch, no batch", costore_file_batch(f, TEXT(""), &number), COSTORE_NO_BATCH);
    is("del of no batch", costore_file_del(f, TEXT(COSTORE_BATCH)) >= COSTORE_DONE, 1);
    is("keep", costore_file_keep(f), COSTORE_KEPT);
}

/* A log and a room that are one byte too small for the load of two objects, one of three bytes and one of none: 277
   bytes of log before them, 20 for the one that has bytes, and 8,776 for the save. */
static void small_loads(const uint8_t *dump, size_t size) {
    enum { LOG = 277 + 20 + 8776, ROOM = 17043 + 160 * 16 + 3 };
    costore bare = {0};
    uint64_t number = 77;
    is("new, small log", lend(&bare, ROOM, 0, LOG - 1), COSTORE_DONE);
    is("load, small log", costore_load(&bare, dump, size, 5, 16, &number), COSTORE_DISK);
    costore_free(&bare);
    is("new, small room", lend(&bare, ROOM - 1, 0, LOG), COSTORE_DONE);
    is("load, small room", costore_load(&bare, dump, size, 5, 16, &number), COSTORE_DISK);
    costore_free(&bare);
    is("new, both fit", lend(&bare, ROOM, 0, LOG), COSTORE_DONE);
    is("load, both fit", costore_load(&bare, dump, size, 5, 16, &number), COSTORE_DONE);
    is("its number", (int64_t)number, 77);
    costore_free(&bare);
}

/* A dump, stores that are loaded from it, and texts that aren't dumps. */
static void streams(const char *path) {
    costore_file_t f;
    costore bare = {0};
    uint8_t out[512], other[512];
    uint64_t size = 0, again = 0, number = 77;
    static const char wanted[] = "put a 3\none\nput b 0\n\n";
    size_t rest = strlen(wanted);
    is("format for a dump", costore_file_format(&f, path, 9, 64, 1 << 22, 1 << 20), COSTORE_DONE);
    is("put", costore_file_batch(&f, TEXT(wanted), &number), COSTORE_KEPT);
    is("dump", costore_file_dump(&f, out, sizeof out, &size), COSTORE_DONE);
    is("its first line", memcmp(out, "dump 2 0 3 0 ", 13), 0);
    is("its objects", memcmp(out + size - rest, wanted, rest), 0);
    is("dump, too short", costore_file_dump(&f, other, size - 1, &again), COSTORE_SHORT);
    costore_file_close(&f);
    is("unlink", unlink(path), 0);
    is("load", costore_file_load(&f, path, out, size, 5, 16, 1 << 22, 1 << 20, &number), COSTORE_DONE);
    is("dump again", costore_file_dump(&f, other, sizeof other, &again), COSTORE_DONE);
    is("its size", (int64_t)again, (int64_t)size);
    is("the same", memcmp(out, other, size), 0);
    costore_file_close(&f);
    is("load, not empty", costore_file_load(&f, path, out, size, 5, 16, 1 << 22, 1 << 20, &number), COSTORE_NOT_NEW);
    is("unlink", unlink(path), 0);
    is("new", lend(&bare, sizeof memory, 0, sizeof noted), COSTORE_DONE);
    is("load, bad number", costore_load(&bare, out, size, 5, 15, &number), COSTORE_BAD_NUMBER);
    is("load, cut", costore_load(&bare, out, size - 1, 5, 16, &number), COSTORE_LINE);
    is("second object", (int64_t)number, 2);
    is("load, closed", costore_load(&bare, out, size, 5, 16, &number), COSTORE_NOT_NEW);
    is("dump, closed", costore_dump(&bare, out, size, &again), COSTORE_CLOSED);
    is("batch, closed", costore_batch(&bare, out, 0, &number), COSTORE_CLOSED);
    costore_free(&bare);
    is("new", lend(&bare, sizeof memory, 0, sizeof noted), COSTORE_DONE);
    memcpy(other, "dump 17", 7);
    memcpy(other + 7, out + 6, size - 6);
    is("load, more names", costore_load(&bare, other, size + 1, 5, 16, &number), COSTORE_MORE_NAMES);
    is("how many", (int64_t)number, 17);
    costore_free(&bare);
    small_loads(out, size);
}

/* A file with too small a room: a change is refused, and nothing else is. A batch is begun, and breaks the store. */
static void small_room(const char *path) {
    static const uint8_t object[2000];
    static uint8_t text[2100];
    int n = sprintf((char *)text, "put z 2000\n") + 2000;
    costore_file_t f;
    costore_counts counts = {0}, again = {0};
    uint64_t size = 0, number = 77;
    is("open, small room", costore_file_open(&f, path, 0, 1 << 20), COSTORE_DONE);
    is("stat", costore_file_stat(&f, &counts), COSTORE_DONE);
    is("put, room too small", costore_file_put(&f, TEXT("z"), object, sizeof object), COSTORE_NO_ROOM);
    is("begin, room too small", costore_file_begin_put(&f, TEXT("z"), object, sizeof object), COSTORE_NO_ROOM);
    is("none is in hand", costore_file_in_hand(&f), 0);
    is("put, another cause", costore_file_put(&f, TEXT("a b"), object, sizeof object), COSTORE_BAD_NAME);
    is("del, another cause", costore_file_del(&f, TEXT("z")), COSTORE_MISSING);
    is("begin, another cause", costore_file_begin_del(&f, TEXT("z")), COSTORE_MISSING);
    is("size, as before", costore_file_size(&f, TEXT("z"), &size), COSTORE_MISSING);
    is("stat", costore_file_stat(&f, &again), COSTORE_DONE);
    is("as before", memcmp(&counts, &again, sizeof counts), 0);
    is("keep, not broken", costore_file_keep(&f), COSTORE_KEPT);
    is("upgrade, not broken", costore_file_upgrade(&f), COSTORE_KEPT);
    is("back, not broken", costore_file_back(&f), COSTORE_DONE);
    is("batch, not broken", costore_file_batch(&f, TEXT(""), &number), COSTORE_DONE);
    text[n] = '\n';
    is("batch, room too small", costore_file_batch(&f, text, (size_t)n + 1, &number), COSTORE_DISK);
    is("get, broken", costore_file_get(&f, TEXT("z"), text, sizeof text, &size), COSTORE_BROKEN);
    is("close", costore_close(&f.store), COSTORE_DONE);
    is("close, closed", costore_close(&f.store), COSTORE_CLOSED);
    is("position, closed", costore_position(&f.store, TEXT("a"), &size, &number), COSTORE_CLOSED);
    is("in hand, closed", costore_in_hand(&f.store), 0);
    is("put, closed", costore_put(&f.store, TEXT("z"), TEXT("z")), COSTORE_CLOSED);
    is("format, closed", costore_format(&f.store, 9, 64), COSTORE_NOT_NEW);
    is("open, closed", costore_open(&f.store), COSTORE_NOT_NEW);
    costore_file_close(&f);
}

/* A log that is too small: the store is broken, for reads too. */
static void small_log(const char *path) {
    static const uint8_t object[2000];
    costore_file_t f;
    costore bare = {0};
    costore_facts facts;
    costore_counts counts;
    uint8_t out[16];
    uint64_t size = 77, at = 77;
    is("open, to copy", costore_file_open(&f, path, 1 << 20, 1 << 20), COSTORE_DONE);
    ssize_t n = pread(f.fd, memory, sizeof memory, 0);
    costore_file_close(&f);
    is("new, small log", lend(&bare, sizeof memory, (uint64_t)n, 1000), COSTORE_DONE);
    is("open, small log", costore_open(&bare), COSTORE_DONE);
    is("put, log too small", costore_put(&bare, TEXT("z"), object, sizeof object), COSTORE_DISK);
    is("put, broken", costore_put(&bare, TEXT("z"), TEXT("z")), COSTORE_BROKEN);
    is("del, broken", costore_del(&bare, TEXT("a")), COSTORE_BROKEN);
    is("keep, broken", costore_keep(&bare), COSTORE_BROKEN);
    is("upgrade, broken", costore_upgrade(&bare), COSTORE_BROKEN);
    is("back, broken", costore_back(&bare), COSTORE_BROKEN);
    is("begin, broken", costore_begin_put(&bare, TEXT("z"), TEXT("z")), COSTORE_BROKEN);
    is("get, broken", costore_get(&bare, TEXT("a"), out, sizeof out, &size), COSTORE_BROKEN);
    is("old, broken", costore_old(&bare, TEXT("a"), out, sizeof out, &size), COSTORE_BROKEN);
    is("read, broken", costore_read(&bare, TEXT("a"), 0, out, sizeof out, &size), COSTORE_BROKEN);
    is("size, broken", costore_size(&bare, TEXT("a"), &size), COSTORE_BROKEN);
    is("position, broken", costore_position(&bare, TEXT("a"), &at, &size), COSTORE_BROKEN);
    is("next, broken", costore_next(&bare, TEXT("a"), out, sizeof out, &at, &size), COSTORE_BROKEN);
    is("list, broken", costore_list(&bare, out, sizeof out, &size), COSTORE_BROKEN);
    is("stat, broken", costore_stat(&bare, &counts), COSTORE_BROKEN);
    is("info, broken", costore_info(&bare, &facts), COSTORE_BROKEN);
    is("dump, broken", costore_dump(&bare, out, sizeof out, &size), COSTORE_BROKEN);
    is("nothing is written", at == 77 && size == 77, 1);
    costore_free(&bare);
}

/* A log that is one byte too small for a format, and for the cut of a file that is a byte longer than its layout. */
static void small_logs(void) {
    enum { NAMES = 64, HEAD = 17043 + 160 * NAMES };
    costore bare = {0};
    memset(memory, 0, sizeof memory);
    is("new, log of 259", lend(&bare, HEAD, 0, 259), COSTORE_DONE);
    is("format, log of 259", costore_format(&bare, 9, NAMES), COSTORE_DISK);
    is("format, closed", costore_format(&bare, 9, NAMES), COSTORE_NOT_NEW);
    costore_free(&bare);
    is("new, log of 260", lend(&bare, HEAD, 0, 260), COSTORE_DONE);
    is("format, log of 260", costore_format(&bare, 9, NAMES), COSTORE_DONE);
    costore_free(&bare);
    is("new, no cut", lend(&bare, HEAD, HEAD, 0), COSTORE_DONE);
    is("open, no log", costore_open(&bare), COSTORE_DONE);
    costore_free(&bare);
    is("new, log of 33", lend(&bare, HEAD + 1, HEAD + 1, 33), COSTORE_DONE);
    is("open, log of 33", costore_open(&bare), COSTORE_DISK);
    costore_free(&bare);
    is("new, log of 34", lend(&bare, HEAD + 1, HEAD + 1, 34), COSTORE_DONE);
    is("open, log of 34", costore_open(&bare), COSTORE_DONE);
    costore_free(&bare);
}

/* Handles over regions that have no store, and stores that are made in memory which isn't zeros. */
static void regions(void) {
    costore bare = {0};
    uint8_t out[16];
    uint64_t size = 0, number = 77, log = 0, length = 0;
    memset(memory, 'm', sizeof memory);
    memset(noted, 'n', sizeof noted);
    is("new, longer than its region", lend(&bare, 8, 9, 8), COSTORE_BAD_NUMBER);
    is("nothing is written", bare.at == NULL, 1);
    is("new", lend(&bare, 8, 0, 8), COSTORE_DONE);
    is("format, bad number", costore_format(&bare, 1, 1024), COSTORE_BAD_NUMBER);
    is("format, small room", costore_format(&bare, 9, 1024), COSTORE_NO_ROOM);
    is("load, small room", costore_load(&bare, TEXT("dump"), 9, 1024, &number), COSTORE_NO_ROOM);
    is("open, no store", costore_open(&bare), COSTORE_NO_STORE);
    is("open, closed", costore_open(&bare), COSTORE_NOT_NEW);
    costore_free(&bare);
    small_logs();
    memset(memory, 'm', sizeof memory);
    memset(noted, 'n', sizeof noted);
    is("new, just fits", lend(&bare, 8, 8, 8), COSTORE_DONE);
    is("nothing is touched", memory[0] == 'm' && memory[7] == 'm' && noted[0] == 'n', 1);
    is("put, no store yet", costore_put(&bare, TEXT("a"), TEXT("b")), COSTORE_CLOSED);
    is("format, not empty", costore_format(&bare, 9, 1024), COSTORE_NOT_NEW);
    is("load, not empty", costore_load(&bare, TEXT(""), 9, 1024, &number), COSTORE_NOT_NEW);
    is("open, no store", costore_open(&bare), COSTORE_NO_STORE);
    costore_free(&bare);
    is("new", lend(&bare, sizeof memory, 0, sizeof noted), COSTORE_DONE);
    is("format", costore_format(&bare, 9, 64), COSTORE_DONE);
    is("open, open", costore_open(&bare), COSTORE_NOT_NEW);
    is("put", costore_put(&bare, TEXT("a"), TEXT("one")), COSTORE_KEPT);
    is("get", costore_get(&bare, TEXT("a"), out, sizeof out, &size), COSTORE_DONE);
    is("bytes of a", size == 3 && memcmp(out, "one", 3) == 0, 1);
    is("lengths", costore_lengths(&bare, &log, &length), COSTORE_DONE);
    is("log, too long", costore_log(&bare, log, out, 1), COSTORE_SHORT);
    is("log", costore_log(&bare, log - 16, out, 16), COSTORE_DONE);
    is("the log is in its region", memcmp(out, noted + log - 16, 16), 0);
    is("close", costore_close(&bare), COSTORE_DONE);
    costore_free(&bare);
}

int main(int argc, char **argv) {
    costore_file_t f, other;
    uint64_t room, log;
    if (argc != 2)
        return 2;
    is("need", costore_need(9, 64, 1000, 100, &room, &log), COSTORE_DONE);
    is("need of log", (int64_t)log, 100 + 17 + 8490 + 80 * 64 + 17 * 9);
    is("need, bad number", costore_need(1, 64, 1000, 100, &room, &log), COSTORE_BAD_NUMBER);
    regions();
    is("format", costore_file_format(&f, argv[1], 9, 64, 1 << 22, 1 << 20), COSTORE_DONE);
    texts(&f);
    position(&f, "a", "one");
    position(&f, "b", "four");
    back(&f);
    batches(&f);
    costore_file_close(&f);
    is("unlink", unlink(argv[1]), 0);
    streams(argv[1]);
    is("format another", costore_file_format(&f, argv[1], 9, 64, 1 << 22, 1 << 20), COSTORE_DONE);
    is("locked", costore_file_open(&other, argv[1], 1 << 22, 1 << 20), COSTORE_LOCKED);
    changes(&f);
    costore_file_close(&f);
    is("format again", costore_file_format(&f, argv[1], 9, 64, 1 << 22, 1 << 20), COSTORE_NOT_NEW);
    small_log(argv[1]);
    small_room(argv[1]);
    is("open again", costore_file_open(&f, argv[1], 1 << 22, 1 << 20), COSTORE_DONE);
    costore_file_close(&f);
    printf("%d passed, %d failed\n", passed, failed);
    return failed != 0;
}
