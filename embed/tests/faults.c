/* Lends files that break the format, each in one way, and compares what costore_check and costore_open answer with
   docs/FORMAT.md: its table of refusals, and the examples of its rules. faults FOLDER writes these files too, each with
   the line that the program's `check` prints of it. */
#include "costore.h"
#include "counted.h"

#include <stdlib.h>

enum { K = 9, NAMES = 16, HEADER = 8488, RECORD = 80, SLOT = HEADER + RECORD * NAMES + 1, HEAD = 64 + 2 * SLOT + 1 };
enum { ROOM = 1 << 16, LOG = 1 << 20, OPEN = 0xa5 };

/* Where the parts of slot 0 are, and the gates. */
enum { VERSION = 64, KIND = 65, BOUNDARY = 66, SEQUENCE = 72, NUMBER = 80, WALL = 88, SLACK = 96, GRID = 64 + 296 };
enum { RECORDS = 64 + HEADER, GATE_0 = 64 + SLOT - 1, SLOT_1 = 64 + SLOT, GATE_1 = HEAD - 2, GATE = HEAD - 1 };
enum { NAME = 1, PLACE = 64, SIZE = 72 };

static uint8_t file[ROOM], noted[LOG];

static void put(size_t at, uint64_t n, int bytes) {
    for (int i = 0; i < bytes; i++)
        file[at + (size_t)i] = (uint8_t)(n >> 8 * i);
}

static size_t capacity(int c) { return 64 + 40 + 8 * (size_t)c; }
static size_t taken(int buffer, int c) { return GRID + 8 * (32 * (size_t)buffer + (size_t)c); }
static size_t record(int i) { return RECORDS + RECORD * (size_t)i; }

static void put_record(int i, char name, uint64_t place, uint64_t size) {
    file[record(i)] = 1, file[record(i) + NAME] = (uint8_t)name;
    put(record(i) + PLACE, place, 8), put(record(i) + SIZE, size, 8);
    put(NUMBER, (uint64_t)i + 1, 8);
}

/* A head without names, and zeros after it. */
static void begin(void) {
    memset(file, 0, sizeof file);
    memcpy(file, "COSTORE1", 8);
    put(8, K, 8), put(16, NAMES, 8);
    put(VERSION, 1, 1), put(SEQUENCE, 1, 8);
    file[GATE_0] = file[GATE] = OPEN;
}

/* The three tables of docs/FORMAT.md, "The rules of a table", each with the length of its data part. */
static uint64_t hello(void) {
    begin();
    put(capacity(2), 5, 8);
    put_record(0, 'a', 0, 5);
    return 5;
}

static uint64_t hundreds(void) {
    begin();
    put(capacity(6), 100, 8), put(capacity(7), 200, 8);
    put_record(0, 'a', 0, 100), put_record(1, 'b', 111, 200);
    return 333;
}

static uint64_t moving(void) {
    begin();
    put(KIND, 1, 1), put(BOUNDARY, 2, 1), put(WALL, 239, 8), put(SLACK, 112, 8);
    put_record(0, 'a', 139, 100), put_record(1, 'b', 239, 10), put_record(2, 'c', 249, 5);
    return 254;
}

/* ---- what breaks them ---- */

static uint64_t whole(uint64_t data) { return data; }
static uint64_t longer_object(uint64_t data) { return put(record(0) + SIZE, 67108865, 8), data; }
static uint64_t empty_at_1(uint64_t data) { return put_record(0, 'a', 1, 0), data; }
static uint64_t ends_after(uint64_t data) { return put(record(0) + PLACE, 1, 8), data; }
static uint64_t boundary_1(uint64_t data) { return put(BOUNDARY, 1, 1), data; }
static uint64_t boundary_27(uint64_t data) { return put(BOUNDARY, 27, 1), data; }
static uint64_t class_27(uint64_t data) { return put(capacity(27), 1, 8), data; }
static uint64_t taken_of_none(uint64_t data) { return put(taken(2, 2), 1, 8), data; }
static uint64_t other_class(uint64_t data) { return put(capacity(2), 0, 8), put(capacity(3), 5, 8), data; }
static uint64_t a_hole(uint64_t data) { return put(capacity(2), 6, 8), data + 1; }
static uint64_t passed_over(uint64_t data) { return put(taken(7, 2), 5, 8), data; }
static uint64_t taken_too_little(uint64_t data) { return put(taken(7, 7), 1, 8), data; }
static uint64_t wall_238(uint64_t data) { return put(WALL, 238, 8), data; }
static uint64_t a_at_138(uint64_t data) { return put(record(0) + PLACE, 138, 8), data; }

static uint64_t one_over_another(uint64_t data) {
    put(capacity(2), 0, 8), put(capacity(6), 200, 8);
    put_record(0, 'a', 0, 100), put_record(1, 'b', 50, 100);
    return data + 217;
}

static uint64_t format_gate(uint64_t data) { return file[GATE] = 0, data; }
static uint64_t no_gate(uint64_t data) { return file[GATE_0] = 0xa4, data; }
static uint64_t same_sequence(uint64_t data) { return file[GATE_1] = OPEN, put(SLOT_1 + 8, 1, 8), data; }
static uint64_t older_slot(uint64_t data) { return file[GATE_1] = OPEN, data; }
static uint64_t newer_slot(uint64_t data) { return file[GATE_1] = OPEN, put(SLOT_1 + 8, 2, 8), data; }

static uint64_t mark(uint64_t data) { return file[7] = '2', data; }
static uint64_t k_1(uint64_t data) { return put(8, 1, 8), data; }
static uint64_t names_15(uint64_t data) { return put(16, 15, 8), data; }
static uint64_t not_zero(uint64_t data) { return file[63] = 1, data; }
static uint64_t version_3(uint64_t data) { return put(VERSION, 3, 1), data; }
static uint64_t kind_2(uint64_t data) { return put(KIND, 2, 1), data; }
static uint64_t header_zeros(uint64_t data) { return file[71] = 1, data; }
static uint64_t sequence(uint64_t data) { return put(SEQUENCE, (uint64_t)1 << 62, 8), data; }
static uint64_t many_records(uint64_t data) { return put(NUMBER, NAMES + 1, 8), data; }
static uint64_t far_wall(uint64_t data) { return put(WALL, (uint64_t)1 << 48, 8), data; }
static uint64_t far_capacity(uint64_t data) { return put(capacity(31), (uint64_t)1 << 48, 8), data; }
static uint64_t far_taken(uint64_t data) { return put(taken(31, 31), (uint64_t)1 << 48, 8), data; }
static uint64_t no_name(uint64_t data) { return file[record(0)] = 0, data; }
static uint64_t long_name(uint64_t data) { return file[record(0)] = 64, data; }
static uint64_t name_byte(uint64_t data) { return file[record(0) + NAME] = 0x20, data; }
static uint64_t after_name(uint64_t data) { return file[record(0) + 63] = 1, data; }
static uint64_t far_place(uint64_t data) { return put(record(0) + PLACE, (uint64_t)1 << 48, 8), data; }
static uint64_t far_size(uint64_t data) { return put(record(0) + SIZE, (uint64_t)1 << 48, 8), data; }
static uint64_t same_name(uint64_t data) { return put_record(1, 'a', 0, 0), data; }
static uint64_t smaller_name(uint64_t data) { return file[record(1) + NAME] = 'A', data; }

/* Lengths from the file's start, in place of that of the table. */
enum { AS_IT_IS = -1 };

static const struct {
    const char *name;
    uint64_t (*table)(void);
    uint64_t (*breaks)(uint64_t data);
    int64_t length;
    uint64_t kind, number, at;
} ROWS[] = {
    {"hello", hello, whole, AS_IT_IS, 0, 0, 0},
    {"hundreds", hundreds, whole, AS_IT_IS, 0, 0, 0},
    {"moving", moving, whole, AS_IT_IS, 0, 0, 0},
    {"a slot that is older", hello, older_slot, AS_IT_IS, 0, 0, 0},
    {"63 bytes", hello, whole, 63, 1, 1, 0},
    {"all but a byte of the head", hello, whole, HEAD - 1, 1, 1, 0},
    {"the format gate", hello, format_gate, AS_IT_IS, 1, 2, 0},
    {"no gate", hello, no_gate, AS_IT_IS, 1, 3, 0},
    {"one sequence", hello, same_sequence, AS_IT_IS, 1, 4, 0},
    {"the mark", hello, mark, AS_IT_IS, 2, 1, 0},
    {"the mark, 64 bytes", hello, mark, 64, 2, 1, 0},
    {"K", hello, k_1, AS_IT_IS, 2, 2, 0},
    {"NAMES", hello, names_15, AS_IT_IS, 2, 2, 0},
    {"zeros of the superblock", hello, not_zero, AS_IT_IS, 2, 5, 0},
    {"the version", hello, version_3, AS_IT_IS, 2, 3, 64},
    {"the version in slot 1", hello, newer_slot, AS_IT_IS, 2, 3, SLOT_1},
    {"the kind", hello, kind_2, AS_IT_IS, 2, 4, 64},
    {"zeros of a header", hello, header_zeros, AS_IT_IS, 2, 5, 64},
    {"the sequence", hello, sequence, AS_IT_IS, 2, 9, 64},
    {"how many records", hello, many_records, AS_IT_IS, 2, 6, 64},
    {"the wall", hello, far_wall, AS_IT_IS, 2, 10, 64},
    {"a capacity", hello, far_capacity, AS_IT_IS, 2, 10, 64},
    {"what is taken", hello, far_taken, AS_IT_IS, 2, 10, 64},
    {"a name of no bytes", hello, no_name, AS_IT_IS, 2, 7, RECORDS},
    {"a name of 64", hello, long_name, AS_IT_IS, 2, 7, RECORDS},
    {"a space in a name", hello, name_byte, AS_IT_IS, 2, 7, RECORDS},
    {"what is after a name", hello, after_name, AS_IT_IS, 2, 5, RECORDS},
    {"a place", hello, far_place, AS_IT_IS, 2, 10, RECORDS},
    {"a size", hello, far_size, AS_IT_IS, 2, 10, RECORDS},
    {"one name twice", hello, same_name, AS_IT_IS, 2, 8, RECORDS + RECORD},
    {"a smaller name", hundreds, smaller_name, AS_IT_IS, 2, 8, RECORDS + RECORD},
    {"rule 1", hello, longer_object, AS_IT_IS, 3, 1, 0},
    {"rule 2", hello, empty_at_1, AS_IT_IS, 3, 2, 0},
    {"rule 3", hello, ends_after, AS_IT_IS, 3, 3, 0},
    {"rule 3, cut", hello, whole, HEAD + 4, 3, 3, 0},
    {"rule 4, settled", hello, boundary_1, AS_IT_IS, 3, 4, 0},
    {"rule 4, moving", moving, boundary_27, AS_IT_IS, 3, 4, 0},
    {"rule 5", hello, class_27, AS_IT_IS, 3, 5, 27},
    {"rule 6", hello, taken_of_none, AS_IT_IS, 3, 6, 2},
    {"rule 7", hello, other_class, AS_IT_IS, 3, 7, 0},
    {"rule 8", hello, one_over_another, AS_IT_IS, 3, 8, 1},
    {"rule 9", hello, a_hole, AS_IT_IS, 3, 9, 2},
    {"rule 10, a buffer", hundreds, passed_over, AS_IT_IS, 3, 10, 2},
    {"rule 10, its own", hundreds, taken_too_little, AS_IT_IS, 3, 10, 7},
    {"rule 11", moving, wall_238, AS_IT_IS, 3, 11, 0},
    {"rule 12", moving, a_at_138, AS_IT_IS, 3, 12, 0},
};

/* Writes the file of a row, and beside it the line of its fault. */
static void write_row(const char *folder, size_t i, uint64_t length) {
    static const char *const LINES[] = {"", "slot %d\n", "codec %d at %d\n", "rule %d at %d\n"};
    char path[4096];
    snprintf(path, sizeof path, "%s/%d", folder, (int)i);
    FILE *out = fopen(path, "w");
    is("write", ROWS[i].name, out && fwrite(file, 1, length, out) == length && fclose(out) == 0, 1);
    snprintf(path, sizeof path, "%s/%d.line", folder, (int)i);
    out = fopen(path, "w");
    is("write its line", ROWS[i].name, out != NULL, 1);
    if (!out)
        return;
    fprintf(out, "fault store ");
    fprintf(out, LINES[ROWS[i].kind], (int)ROWS[i].number, (int)ROWS[i].at);
    fclose(out);
}

static void row(size_t i, const char *folder) {
    const char *name = ROWS[i].name;
    int32_t wanted = ROWS[i].kind == 0 ? COSTORE_DONE : COSTORE_NO_STORE;
    costore store = {0};
    costore_fault fault = {0, 0, 0};
    costore_region region = {file, ROOM}, log = {noted, LOG};
    uint64_t length = HEAD + ROWS[i].breaks(ROWS[i].table());
    if (ROWS[i].length != AS_IT_IS)
        length = (uint64_t)ROWS[i].length;
    if (folder && ROWS[i].kind > 0)
        write_row(folder, i, length);
    is("new", name, costore_new(region, length, log, &store), COSTORE_DONE);
    is("check", name, costore_check(&store, &fault), wanted);
    is("kind", name, (int64_t)fault.kind, (int64_t)ROWS[i].kind);
    is("number", name, (int64_t)fault.number, (int64_t)ROWS[i].number);
    is("at", name, (int64_t)fault.at, (int64_t)ROWS[i].at);
    is("open", name, costore_open(&store), wanted);
    fault = (costore_fault){7, 8, 9};
    is("check again", name, costore_check(&store, &fault), wanted == COSTORE_DONE ? COSTORE_DONE : COSTORE_CLOSED);
    is("nothing is written", name, fault.kind == 7 && fault.number == 8 && fault.at == 9, 1);
    costore_free(&store);
}

/* A store keeps the rules while it is made and changed, and between the steps of a flush. */
static void kept(void) {
    static const uint8_t object[1000];
    uint8_t name[2] = "n";
    costore store = {0};
    costore_fault fault = {7, 8, 9};
    costore_region region = {file, ROOM}, log = {noted, LOG};
    int steps = 0;
    memset(file, 0xff, sizeof file);
    is("new", "an empty file", costore_new(region, 0, log, &store), COSTORE_DONE);
    is("check", "an empty file", costore_check(&store, &fault), COSTORE_NO_STORE);
    is("kind", "an empty file", fault.kind == 1 && fault.number == 1, 1);
    is("format", "kept", costore_format(&store, K, NAMES), COSTORE_DONE);
    is("check", "a new store", costore_check(&store, &fault), COSTORE_DONE);
    for (int i = 0; i < NAMES; i++) {
        name[1] = (uint8_t)('a' + i);
        int32_t code = costore_begin_put(&store, name, 2, object, (size_t)(i + 1) * 60);
        for (; code == COSTORE_IN_HAND || code == COSTORE_MOVED; code = costore_step(&store), steps++)
            is("check", "a flush in hand", costore_check(&store, &fault), COSTORE_DONE);
        is("check", "a change", costore_check(&store, &fault), COSTORE_DONE);
    }
    is("steps", "kept", steps > 10, 1);
    is("upgrade", "kept, too many", costore_upgrade(&store), COSTORE_TOO_MANY);
    is("close", "kept", costore_close(&store), COSTORE_DONE);
    is("check", "closed", costore_check(&store, &fault), COSTORE_CLOSED);
    costore_free(&store);
}

int main(int argc, char **argv) {
    for (size_t i = 0; i < COUNT(ROWS); i++)
        row(i, argc > 1 ? argv[1] : NULL);
    kept();
    return counted();
}
