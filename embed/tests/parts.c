/* Reads parts of objects, looks at them where they are in memory, and walks over names: parts FILE. It does so over
   settled stores, within a flush, and with digests. */
#include "costore_file.h"
#include "counted.h"

enum { NAMES = 64, ROOM = 1 << 22, LOG = 1 << 20, MOST = 12, LONG = 3000 };

static const char NINE[] = "ninebytes";

/* Whether a read of a part gives what it should, and leaves the rest of `out` as it was. */
static bool reads(const costore_file_t *f, const char *name, const uint8_t *object, size_t n, uint64_t from, size_t m) {
    uint8_t out[MOST + 2];
    uint64_t size = 77, left = from < n ? n - from : 0, wanted = left < m ? left : m;
    memset(out, '.', sizeof out);
    int32_t code = costore_file_read(f, TEXT(name), from, out, m, &size);
    for (size_t i = 0; i < sizeof out; i++)
        if (out[i] != (i < wanted ? object[from + i] : '.'))
            return false;
    return code == COSTORE_DONE && size == wanted;
}

/* All pairs of an offset and a length about an object's end. */
static void pairs(const costore_file_t *f, const char *name, const uint8_t *object, size_t n) {
    static const uint64_t FAR[] = {1000000, (uint64_t)1 << 32, INT64_MAX, UINT64_MAX - 3, UINT64_MAX};
    uint64_t begin = n < MOST ? 0 : n - MOST;
    for (uint64_t from = begin; from <= n + 3; from++)
        for (size_t m = 0; m <= MOST; m++)
            is("read", name, reads(f, name, object, n, from, m), 1);
    for (size_t i = 0; i < COUNT(FAR); i++)
        is("read, far past its end", name, reads(f, name, object, n, FAR[i], MOST), 1);
}

/* The object of a name is where the call says, in memory and in the file. */
static void look(const costore_file_t *f, const char *name, const uint8_t *object, size_t n) {
    const uint8_t *bytes = NULL;
    uint64_t at = 0, size = 0, again = 0;
    is("look", name, costore_file_look(f, TEXT(name), &bytes, &size), COSTORE_DONE);
    is("its size", name, (int64_t)size, (int64_t)n);
    is("its bytes", name, bytes && memcmp(bytes, object, n) == 0, 1);
    is("position", name, costore_file_position(f, TEXT(name), &at, &again), COSTORE_DONE);
    is("the same place", name, bytes == f->file.at + at && size == again, 1);
}

/* Refusals write nothing. */
static void refused(const costore_file_t *f) {
    static const struct {
        const char *name;
        int32_t code;
    } NO[] = {{"none", COSTORE_MISSING}, {"", COSTORE_BAD_NAME}, {"a b", COSTORE_BAD_NAME}};
    uint8_t out[4] = "...";
    const uint8_t *bytes = NULL;
    uint64_t size = 77;
    for (size_t i = 0; i < COUNT(NO); i++) {
        is("read", NO[i].name, costore_file_read(f, TEXT(NO[i].name), 0, out, sizeof out, &size), NO[i].code);
        is("look", NO[i].name, costore_file_look(f, TEXT(NO[i].name), &bytes, &size), NO[i].code);
        is("nothing is written", NO[i].name, size == 77 && !bytes && memcmp(out, "...", 4) == 0, 1);
    }
}

/* ---- names ---- */

/* The names of a store in the order of their bytes, and the sizes of their objects. */
static const struct {
    const char *name;
    size_t size;
} SORTED[] = {{"!", 0}, {"0", 1}, {"A", 2}, {"a", 9}, {"a!", 3}, {"aa", 4}, {"aaa", 5}, {"ab", 6}, {"b", 7}, {"~", 8}};

/* The number of the first name that is greater than some bytes. */
static size_t first_above(const uint8_t *bytes, size_t n) {
    size_t i = 0;
    for (; i < COUNT(SORTED); i++) {
        size_t k = strlen(SORTED[i].name);
        int order = memcmp(SORTED[i].name, bytes, k < n ? k : n);
        if (order > 0 || (order == 0 && k > n))
            break;
    }
    return i;
}

/* Asks for the name above some bytes: with room for a whole name, for just this one, and for one byte less. */
static void next(const costore_file_t *f, const char *which, const uint8_t *above, size_t n) {
    uint8_t out[COSTORE_NAME_MOST];
    uint64_t length = 77, size = 77;
    size_t i = first_above(above, n);
    int32_t code = costore_file_next(f, above, n, out, sizeof out, &length, &size);
    is("next", which, code, i < COUNT(SORTED) ? COSTORE_DONE : COSTORE_MISSING);
    if (i == COUNT(SORTED)) {
        is("next: nothing is written", which, length == 77 && size == 77, 1);
        return;
    }
    is("next: length", which, (int64_t)length, (int64_t)strlen(SORTED[i].name));
    is("next: name", which, memcmp(out, SORTED[i].name, length), 0);
    is("next: size", which, (int64_t)size, (int64_t)SORTED[i].size);
    size_t just = (size_t)length;
    is("next, just fits", which, costore_file_next(f, above, n, out, just, &length, &size), COSTORE_DONE);
    length = size = 77;
    is("next, short", which, costore_file_next(f, above, n, out, just - 1, &length, &size), COSTORE_SHORT);
    is("next, short: nothing is written", which, length == 77 && size == 77, 1);
}

static void walk(const costore_file_t *f) {
    static const char *const BETWEEN[] = {"",   " ",    "\1", "!!",  "/", "AA",   "Z",
                                          "a ", "a\"", "a~", "aab", "c", "\x7f", "\xff"};
    uint8_t name[COSTORE_NAME_MOST], before[COSTORE_NAME_MOST] = "", all[100], long_one[200];
    uint64_t n = 0, size = 0;
    size_t names = 0;
    while (costore_file_next(f, before, n, name, sizeof name, &n, &size) == COSTORE_DONE && names < COUNT(SORTED)) {
        is("walk", SORTED[names].name, (int64_t)first_above(name, n), (int64_t)names + 1);
        memcpy(before, name, n);
        names++;
    }
    is("walk", "all", (int64_t)names, COUNT(SORTED));
    for (size_t i = 0; i < COUNT(SORTED); i++)
        next(f, SORTED[i].name, TEXT(SORTED[i].name));
    for (size_t i = 0; i < COUNT(BETWEEN); i++)
        next(f, "between", TEXT(BETWEEN[i]));
    next(f, "a zero", (const uint8_t *)"", 1);
    next(f, "a zero after a", (const uint8_t *)"a", 2);
    memset(long_one, 'a', sizeof long_one);
    next(f, "200 bytes", long_one, sizeof long_one);
    is("list", "all", costore_file_list(f, all, sizeof all, &size), COSTORE_DONE);
    is("list", "its lines", (int64_t)size, 45);
}

/* ---- within a flush, with digests, and closed ---- */

static void all(const costore_file_t *f) {
    pairs(f, "a", (const uint8_t *)NINE, 9);
    pairs(f, "!", (const uint8_t *)"", 0);
    look(f, "a", (const uint8_t *)NINE, 9);
    refused(f);
}

/* Writes where each object stands, the long one behind the others; and answers how many bytes those have that stood
   elsewhere. */
static uint64_t moved_since(const costore_file_t *f, uint64_t places[COUNT(SORTED) + 1]) {
    uint64_t moved = 0, at = 0, size = 0;
    for (size_t i = 0; i <= COUNT(SORTED); i++) {
        const char *name = i < COUNT(SORTED) ? SORTED[i].name : "long";
        if (costore_file_position(f, TEXT(name), &at, &size) != COSTORE_DONE)
            return UINT64_MAX;
        moved += at == places[i] ? 0 : size;
        places[i] = at;
    }
    return moved;
}

/* Begins a flush, and reads the object that asked for it, and another one, between all its steps. Each step leaves as
   many bytes fewer as it moved. */
static void in_hand(costore_file_t *f) {
    uint8_t object[LONG], name[COSTORE_NAME_MOST];
    uint64_t n = 0, size = 0, steps = 0, left = 0, places[COUNT(SORTED) + 1] = {0};
    costore_facts facts = {0};
    for (size_t i = 0; i < sizeof object; i++)
        object[i] = (uint8_t)(i * 7);
    is("begin", "a long object", costore_file_begin_put(f, TEXT("long"), object, sizeof object), COSTORE_IN_HAND);
    moved_since(f, places);
    do {
        uint64_t moved = moved_since(f, places);
        pairs(f, "long", object, sizeof object);
        look(f, "long", object, sizeof object);
        look(f, "a", (const uint8_t *)NINE, 9);
        is("next, in hand", "b", costore_file_next(f, TEXT("b"), name, sizeof name, &n, &size), COSTORE_DONE);
        is("next, in hand", "long", n == 4 && memcmp(name, "long", 4) == 0 && size == sizeof object, 1);
        is("info, in hand", "long", costore_file_info(f, &facts), COSTORE_DONE);
        is("info, in hand: names", "long", (int64_t)facts.live, COUNT(SORTED) + 1);
        is("info, in hand: steps", "long", facts.moves_left > 0 && facts.moves_left + steps <= 2 * facts.live + 1, 1);
        is("info, in hand: bytes", "long", (int64_t)facts.bytes_left,
           (int64_t)(steps == 0 ? 2 * facts.bytes : left - moved));
        is("info, in hand: moved", "long", (moved > 0) == (steps > 0), 1);
        left = facts.bytes_left;
        steps++;
    } while (costore_file_step(f) == COSTORE_MOVED);
    is("steps", "long", !costore_file_in_hand(f) && steps > 1, 1);
    is("info, settled", "long", costore_file_info(f, &facts), COSTORE_DONE);
    is("info, settled: steps", "long", (int64_t)facts.moves_left, 0);
    is("info, settled: bytes left", "long", (int64_t)facts.bytes_left, 0);
    all(f);
    is("del", "long", costore_file_del(f, TEXT("long")) >= COSTORE_DONE, 1);
}

/* What is counted, against the other calls. */
static void info(const costore_file_t *f, uint64_t version) {
    costore_facts facts = {0};
    costore_counts counts = {0};
    uint64_t log = 0, length = 0;
    is("info", "settled", costore_file_info(f, &facts), COSTORE_DONE);
    is("stat", "settled", costore_file_stat(f, &counts), COSTORE_DONE);
    is("lengths", "settled", costore_lengths(&f->store, &log, &length), COSTORE_DONE);
    is("info", "version", (int64_t)facts.version, (int64_t)version);
    is("info", "K and NAMES", facts.k == 9 && facts.names == NAMES, 1);
    is("info", "the most names", (int64_t)facts.names_most, version == 1 ? NAMES : 5 * NAMES / 7);
    is("info", "names and bytes", facts.live == counts.names && facts.bytes == counts.bytes, 1);
    is("info", "kept", facts.kept == counts.kept_names && facts.kept_bytes == counts.kept_bytes, 1);
    is("info", "the file", (int64_t)facts.file, (int64_t)length);
    is("info", "the room", (int64_t)facts.room, ROOM);
    is("info", "the sequence", facts.sequence > 0, 1);
}

static void closed(costore_file_t *f) {
    uint8_t out[4];
    const uint8_t *bytes = NULL;
    uint64_t a = 77, b = 77;
    costore_facts facts;
    costore_fault fault;
    is("closed", "read", costore_file_read(f, TEXT("a"), 0, out, sizeof out, &a), COSTORE_BROKEN);
    is("closed", "look", costore_file_look(f, TEXT("a"), &bytes, &a), COSTORE_BROKEN);
    is("closed", "next", costore_file_next(f, TEXT("a"), out, sizeof out, &a, &b), COSTORE_BROKEN);
    is("closed", "info", costore_file_info(f, &facts), COSTORE_BROKEN);
    is("closed", "check", costore_file_check(f, &fault), COSTORE_BROKEN);
    is("closed", "upgrade", costore_file_upgrade(f), COSTORE_BROKEN);
    is("closed", "nothing is written", a == 77 && b == 77 && !bytes, 1);
}

int main(int argc, char **argv) {
    costore_file_t f;
    static const uint8_t object[16] = {0};
    if (argc != 2)
        return 2;
    is("format", "parts", costore_file_format(&f, argv[1], 9, NAMES, ROOM, LOG), COSTORE_DONE);
    for (size_t i = COUNT(SORTED); i-- > 0;) {
        const uint8_t *bytes = SORTED[i].size == 9 ? (const uint8_t *)NINE : object;
        is("put", SORTED[i].name, costore_file_put(&f, TEXT(SORTED[i].name), bytes, SORTED[i].size) >= 0, 1);
    }
    for (uint64_t version = 1; version <= 2; version++) {
        all(&f), walk(&f), info(&f, version);
        in_hand(&f);
        is("upgrade", "parts", costore_file_upgrade(&f), version == 1 ? COSTORE_KEPT : COSTORE_DONE);
    }
    costore_file_close(&f);
    closed(&f);
    return counted();
}
