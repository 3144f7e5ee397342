/* Opens files that were damaged at drawn places, and uses those that open: hostile FOLDER RUNS. Each is opened, or
   refused and left as it is, as costore_check judges its bytes. */
#define _GNU_SOURCE
#include "costore_file.h"
#include "counted.h"

#include <stdbool.h>
#include <stdlib.h>
#include <unistd.h>

enum { NAMES = 30, OBJECTS = 20, MOST = 1500, ROOM = 1 << 20, LOG = 1 << 21, BASES = 3, PAGE = 4096, WAYS = 8 };

static char path[4096];
static uint8_t base[BASES][ROOM], bytes[ROOM], after[ROOM], lent[ROOM], noted[LOG], text[ROOM];
static size_t lengths[BASES], length;

static uint64_t drawn(uint64_t below) {
    static uint64_t state = 0x9E3779B97F4A7C15u;
    state ^= state << 13, state ^= state >> 7, state ^= state << 17;
    return state % below;
}

static size_t name_of(uint64_t i, uint8_t name[16]) { return (size_t)sprintf((char *)name, "n%02d", (int)i); }

static size_t read_file(uint8_t *out) {
    FILE *file = fopen(path, "r");
    size_t n = file ? fread(out, 1, ROOM, file) : 0;
    if (file)
        fclose(file);
    return n;
}

static void write_file(const uint8_t *from, size_t n) {
    FILE *file = fopen(path, "w");
    if (!file || fwrite(from, 1, n, file) != n || fclose(file))
        is("write", path, 1, 0);
}

/* Lends the bytes, and answers what a check and an opening with so much log say of them. */
static int32_t judged(size_t log, int32_t *opened) {
    costore store = {0};
    costore_fault fault = {0, 0, 0};
    costore_region region = {lent, ROOM}, notes = {noted, log};
    memcpy(lent, bytes, length);
    memset(lent + length, 0xa5, ROOM - length);
    is("new", "of a file", costore_new(region, length, notes, &store), COSTORE_DONE);
    int32_t code = costore_check(&store, &fault);
    is("a fault is told", "of a file", fault.kind != 0, code == COSTORE_NO_STORE);
    *opened = costore_open(&store);
    costore_free(&store);
    return code;
}

/* Whether the file's last checkpoint was saved within a flush: to finish that needs a log. */
static bool is_moving(void) {
    int32_t opened;
    length = read_file(bytes);
    judged(100, &opened);
    return opened == COSTORE_DISK;
}

/* Three files: as a store is between flushes, with digests, and within a flush. */
static void make(int which) {
    costore_file_t f;
    uint8_t name[16], object[MOST];
    bool moving = false;
    unlink(path);
    is("format", "base", costore_file_format(&f, path, 5, NAMES, ROOM, LOG), COSTORE_DONE);
    memset(object, 'o', sizeof object);
    for (uint64_t i = 0; i < OBJECTS; i++)
        is("put", "base", costore_file_put(&f, name, name_of(i, name), object, drawn(MOST)) >= COSTORE_DONE, 1);
    is("keep", "base", costore_file_keep(&f), COSTORE_KEPT);
    if (which > 0)
        is("upgrade", "base", costore_file_upgrade(&f), COSTORE_KEPT);
    for (uint64_t i = 0; which == 2 && i < OBJECTS && !moving; i++) {
        int32_t code = costore_file_begin_put(&f, name, name_of(i, name), object, sizeof object);
        while ((code == COSTORE_IN_HAND || code == COSTORE_MOVED) && !(moving = is_moving()))
            code = costore_file_step(&f);
    }
    is("base", "moving", moving, which == 2);
    costore_file_close(&f);
    lengths[which] = read_file(base[which]);
}

/* ---- damage ---- */

/* A drawn position: mostly in the head, and there mostly where it has something. */
static size_t place(void) {
    size_t head = 64 + 2 * (8488 + 80 * NAMES + 1) + 1, slot = 8488 + 80 * NAMES + 1;
    switch (drawn(6)) {
    case 0: return drawn(length);
    case 1: return drawn(head < length ? head : length);
    case 2: return drawn(64);
    case 3: return 64 + drawn(2) * slot + drawn(40);
    case 4: return 64 + drawn(2) * slot + 8488 + drawn((uint64_t)OBJECTS * 112);
    default: return 64 + drawn(2) * slot + 40 + 8 * drawn(27) + 256 * drawn(27);
    }
}

static void flip(size_t at) {
    if (at < length)
        bytes[at] ^= (uint8_t)(1 << drawn(8));
}

/* A part of the file, which is filled with one byte. */
static void fill(size_t at, size_t n, int byte) {
    if (at < length)
        memset(bytes + at, byte, n < length - at ? n : length - at);
}

static void damage(uint64_t way) {
    switch (way) {
    case 0: break;
    case 1: flip(place()); break;
    case 2: flip(place()), flip(place()), flip(place()); break;
    case 3: length = drawn(2) ? drawn(length + 1) : length - drawn(200); break;
    case 4: fill(drawn(length) / PAGE * PAGE, PAGE, 0); break;
    case 5: length += drawn(3 * PAGE), fill(lengths[0] < length ? length - 1 : 0, 1, (int)drawn(256)); break;
    case 6: fill(place(), 8, drawn(2) ? 0xff : 0); break;
    default: fill(place() / PAGE * PAGE, PAGE, (int)drawn(256)); break;
    }
}

/* ---- use ---- */

static int opened_files, refused_files, damaged_objects;

/* Reads each object of an open store in each way. */
static void read_all(costore_file_t *f) {
    uint8_t name[COSTORE_NAME_MOST], above[COSTORE_NAME_MOST] = "", out[1 << 16];
    const uint8_t *at = NULL;
    uint64_t n = 0, size = 0, part = 0, sum = 0;
    while (costore_file_next(f, above, n, name, sizeof name, &n, &size) == COSTORE_DONE) {
        int32_t code = costore_file_get(f, name, n, out, sizeof out, &part);
        is("get", "hostile", code == COSTORE_DONE ? part == size
                             : code == COSTORE_DAMAGED || (code == COSTORE_SHORT && size > sizeof out), 1);
        damaged_objects += code == COSTORE_DAMAGED;
        is("read", "hostile", costore_file_read(f, name, n, size / 2, out, sizeof out, &part), COSTORE_DONE);
        is("look", "hostile", costore_file_look(f, name, n, &at, &part), COSTORE_DONE);
        for (uint64_t i = 0; i < part; i++)
            sum += at[i];
        memcpy(above, name, n);
    }
    int32_t code = costore_file_dump(f, text, sizeof text, &size);
    is("dump", "hostile", code == COSTORE_DONE || code == COSTORE_DAMAGED || (code == COSTORE_SHORT && sum > 0), 1);
    is("list", "hostile", costore_file_list(f, text, sizeof text, &size), COSTORE_DONE);
}

/* Changes it, and opens it again. */
static void change(costore_file_t *f) {
    uint8_t name[16], object[MOST] = {0};
    costore_fault fault;
    for (int i = 0; i < 6; i++) {
        int32_t code = i % 3 == 2 ? costore_file_del(f, name, name_of(drawn(OBJECTS), name))
                                  : costore_file_put(f, name, name_of(drawn(NAMES + 5), name), object, drawn(MOST));
        is("change", "hostile", code >= COSTORE_DONE || code == COSTORE_MISSING || code == COSTORE_FULL, 1);
    }
    is("keep", "hostile", costore_file_keep(f), COSTORE_KEPT);
    is("check", "hostile", costore_file_check(f, &fault), COSTORE_DONE);
}

/* A store that opens from hostile bytes can need more room, or be worn: then only reads are made. */
static bool can_change(const costore_file_t *f) {
    costore_facts facts = {0};
    return costore_file_info(f, &facts) == COSTORE_DONE && facts.file < ROOM / 4 && facts.sequence < (uint64_t)1 << 60;
}

static void run(void) {
    costore_file_t f;
    uint64_t which = drawn(BASES);
    int32_t lent_opened;
    length = lengths[which];
    memcpy(bytes, base[which], ROOM);
    damage(drawn(WAYS));
    write_file(bytes, length);
    int32_t wanted = judged(LOG, &lent_opened);
    int32_t code = costore_file_open(&f, path, ROOM, LOG);
    is("open, as it is judged", "hostile", code, wanted);
    is("open, as it is lent", "hostile", lent_opened, wanted);
    if (code != COSTORE_DONE) {
        refused_files++;
        is("refused: its bytes", "hostile", read_file(after) == length && memcmp(after, bytes, length) == 0, 1);
        return;
    }
    opened_files++;
    read_all(&f);
    bool changes = can_change(&f);
    if (changes)
        change(&f);
    costore_file_close(&f);
    if (!changes)
        return;
    is("open again", "hostile", costore_file_open(&f, path, ROOM, LOG), COSTORE_DONE);
    read_all(&f);
    costore_file_close(&f);
}

int main(int argc, char **argv) {
    if (argc != 3)
        return 2;
    snprintf(path, sizeof path, "%s/hostile", argv[1]);
    for (int which = 0; which < BASES; which++)
        make(which);
    for (int i = 0; i < atoi(argv[2]); i++) {
        int before = passed, wrong = failed;
        run();
        passed = before + (failed == wrong), failed = wrong + (failed > wrong);
    }
    if (atoi(argv[2]) >= 100)
        is("runs", "of each kind", opened_files > 20 && refused_files > 20 && damaged_objects > 0, 1);
    unlink(path);
    return counted();
}
