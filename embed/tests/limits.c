/* Compares the numbers of costore.h with what the calls answer: words, version, limits, and what the first bytes of a
   file say. */
#define _GNU_SOURCE
#include "costore_file.h"
#include "counted.h"

#include <stdbool.h>
#include <stdlib.h>
#include <sys/mman.h>

/* ---- words ---- */

static const struct {
    int32_t code;
    const char *word;
} WORDS[] = {
    {COSTORE_DONE, "done"},
    {COSTORE_KEPT, "kept"},
    {COSTORE_IN_HAND, "in-hand"},
    {COSTORE_MOVED, "moved"},
    {COSTORE_CLOSED, "closed"},
    {COSTORE_BROKEN, "broken"},
    {COSTORE_BAD_NAME, "bad-name"},
    {COSTORE_TOO_LONG, "too-long"},
    {COSTORE_MISSING, "missing"},
    {COSTORE_FULL, "full"},
    {COSTORE_WORN, "worn"},
    {COSTORE_DISK, "disk"},
    {COSTORE_SHORT, "short"},
    {COSTORE_NO_MEMORY, "memory"},
    {COSTORE_TOO_MANY, "too-many-names"},
    {COSTORE_DAMAGED, "damaged"},
    {COSTORE_BUSY, "busy"},
    {COSTORE_IDLE, "idle"},
    {COSTORE_NO_STORE, "not-a-store"},
    {COSTORE_BAD_NUMBER, "bad-number"},
    {COSTORE_NOT_NEW, "not-new"},
    {COSTORE_LINE, "request"},
    {COSTORE_UNFIT, "unfit"},
    {COSTORE_NO_BATCH, "no-batch"},
    {COSTORE_PENDING, "pending"},
    {COSTORE_MORE_NAMES, "more-names"},
    {COSTORE_NO_ROOM, "no-room"},
    {COSTORE_SYSTEM, "system"},
    {COSTORE_LOCKED, "locked"},
    {COSTORE_NOT_A_FILE, "not-a-file"},
    {COSTORE_GONE, "gone"},
};

/* Whether a number is an answer of either header. */
static bool is_answer(int32_t code) {
    return (COSTORE_NO_ROOM <= code && code <= COSTORE_MOVED) || (COSTORE_GONE <= code && code <= COSTORE_SYSTEM);
}

static void words(void) {
    static const int32_t FAR[] = {INT32_MIN, -1000000, 1000000, INT32_MAX};
    int answers = 0, others = 0;
    for (size_t i = 0; i < COUNT(WORDS); i++) {
        is("word", WORDS[i].word, strcmp(costore_word(WORDS[i].code), WORDS[i].word), 0);
        for (size_t j = 0; j < i; j++)
            is("another word", WORDS[i].word, strcmp(WORDS[j].word, WORDS[i].word) != 0, 1);
    }
    for (int32_t code = -1000; code <= 1000; code++) {
        bool other = strcmp(costore_word(code), "other") == 0;
        answers += !other && is_answer(code), others += other && !is_answer(code);
    }
    is("words", "answers", answers, COUNT(WORDS));
    is("words", "others", others, 2001 - (int)COUNT(WORDS));
    for (size_t i = 0; i < COUNT(FAR); i++)
        is("word", "far away", strcmp(costore_word(FAR[i]), "other"), 0);
}

static void version(void) {
    int first = 0, second = 0, third = 0;
    is("version", "three numbers", sscanf(COSTORE_VERSION, "%d.%d.%d", &first, &second, &third), 3);
    is("version", "of the header", COSTORE_VERSION_NUMBER, first * 10000 + second * 100 + third);
    is("version", "of the library", costore_version(), COSTORE_VERSION_NUMBER);
}

/* ---- names, objects, and how many ---- */

enum { ROOM = 1 << 20, LOG = 1 << 20 };

static uint8_t room[ROOM], noted[LOG];

/* A store without names, for 16 of them. */
static costore made(void) {
    costore store = {0};
    costore_region file = {room, ROOM}, log = {noted, LOG};
    is("new", "for limits", costore_new(file, 0, log, &store), COSTORE_DONE);
    is("format", "for limits", costore_format(&store, 9, COSTORE_NAMES_LEAST), COSTORE_DONE);
    return store;
}

static void names(void) {
    uint8_t name[COSTORE_NAME_MOST + 2], found[COSTORE_NAME_MOST];
    uint64_t n = 0, size = 0;
    costore store = made();
    memset(name, 'n', sizeof name);
    for (size_t length = 0; length < sizeof name; length++) {
        bool fits = 1 <= length && length <= COSTORE_NAME_MOST;
        int32_t code = costore_put(&store, name, length, TEXT(""));
        is("a name's length", "put", fits ? code >= COSTORE_DONE : code == COSTORE_BAD_NAME, 1);
        is("a name's length", "size", costore_size(&store, name, length, &size),
           fits ? COSTORE_DONE : COSTORE_BAD_NAME);
        if (length == COSTORE_NAME_MOST) {
            is("the longest name", "next", costore_next(&store, TEXT(""), found, sizeof found, &n, &size), COSTORE_DONE);
            is("the longest name", "its length", (int64_t)n, COSTORE_NAME_MOST);
        }
        if (fits)
            is("a name's length", "del", costore_del(&store, name, length) >= COSTORE_DONE, 1);
    }
    for (int byte = 0; byte < 256; byte++) {
        bool fits = 0x21 <= byte && byte <= 0x7e;
        name[1] = (uint8_t)byte;
        int32_t code = costore_put(&store, name, 3, TEXT(""));
        is("a name's byte", "put", fits ? code >= COSTORE_DONE : code == COSTORE_BAD_NAME, 1);
        if (fits)
            costore_del(&store, name, 3);
    }
    costore_free(&store);
    is("free", "twice", store.at == NULL, 1);
    costore_free(&store);
}

/* How many names there can be, before and after an upgrade. */
static void many(void) {
    uint8_t name[2] = "n";
    uint64_t most = 5 * COSTORE_NAMES_LEAST / 7;
    costore store = made();
    costore_facts facts = {0};
    for (uint64_t i = 0; i < COSTORE_NAMES_LEAST; i++) {
        name[1] = (uint8_t)('a' + i);
        is("put", "of so many", costore_put(&store, name, 2, TEXT("")) >= COSTORE_DONE, 1);
    }
    is("put", "full", costore_put(&store, TEXT("more"), TEXT("")), COSTORE_FULL);
    is("put", "full, but there", costore_put(&store, name, 2, TEXT("xyz")) >= COSTORE_DONE, 1);
    for (uint64_t i = COSTORE_NAMES_LEAST; i > most; i--) {
        is("upgrade", "too many", costore_upgrade(&store), COSTORE_TOO_MANY);
        name[1] = (uint8_t)('a' + i - 1);
        is("del", "of so many", costore_del(&store, name, 2) >= COSTORE_DONE, 1);
    }
    is("upgrade", "so many", costore_upgrade(&store), COSTORE_KEPT);
    is("info", "digests", costore_info(&store, &facts), COSTORE_DONE);
    is("info", "the most names", (int64_t)facts.names_most, (int64_t)most);
    is("info", "names", (int64_t)facts.live, (int64_t)most);
    is("put", "full, with digests", costore_put(&store, TEXT("more"), TEXT("")), COSTORE_FULL);
    costore_free(&store);
}

/* Addresses for n bytes, which can be used as `how` says. */
static uint8_t *addresses(size_t n, int how) {
    void *at = mmap(NULL, n, how, MAP_PRIVATE | MAP_ANONYMOUS | MAP_NORESERVE, -1, 0);
    return at == MAP_FAILED ? NULL : at;
}

/* An object that is too long isn't touched: nobody can read its bytes. The longest one can be put. */
static void objects(void) {
    size_t most = COSTORE_OBJECT_MOST;
    uint64_t volume = 0, longest = 0, size = 0;
    uint8_t *none = addresses(most + 1, PROT_NONE), *zeros = addresses(most, PROT_READ), byte = 1;
    costore store = {0};
    is("need", "the longest", costore_need(9, 16, most, most, &volume, &longest), COSTORE_DONE);
    costore_region file = {addresses(volume, PROT_READ | PROT_WRITE), volume};
    costore_region log = {addresses(longest, PROT_READ | PROT_WRITE), longest};
    is("addresses", "all", none && zeros && file.at && log.at, 1);
    is("new", "the longest", costore_new(file, 0, log, &store), COSTORE_DONE);
    is("format", "the longest", costore_format(&store, 9, 16), COSTORE_DONE);
    is("put", "too long", costore_put(&store, TEXT("a"), none, most + 1), COSTORE_TOO_LONG);
    is("begin", "too long", costore_begin_put(&store, TEXT("a"), none, most + 1), COSTORE_TOO_LONG);
    is("put", "far too long", costore_put(&store, TEXT("a"), none, SIZE_MAX / 4), COSTORE_TOO_LONG);
    int32_t code = costore_begin_put(&store, TEXT("a"), zeros, most);
    while (code == COSTORE_IN_HAND || code == COSTORE_MOVED)
        code = costore_step(&store);
    is("put", "the longest", code >= COSTORE_DONE, 1);
    is("size", "the longest", costore_size(&store, TEXT("a"), &size), COSTORE_DONE);
    is("its size", "the longest", (int64_t)size, (int64_t)most);
    is("read", "its last byte", costore_read(&store, TEXT("a"), most - 1, &byte, 1, &size), COSTORE_DONE);
    is("its last byte", "the longest", size == 1 && byte == 0, 1);
    costore_free(&store);
    munmap(none, most + 1), munmap(zeros, most), munmap(file.at, volume), munmap(log.at, longest);
}

/* ---- rooms ---- */

enum { HELD = 12, VOLUME = 40000, LARGEST = 5000, CHANGES = 400 };

static size_t held[HELD];

static unsigned drawn(void) {
    static unsigned state = 3;
    state = state * 1664525u + 1013904223u;
    return state >> 8;
}

/* Puts an object by steps, and remembers its size. */
static int32_t put_held(costore *store, size_t i, size_t size) {
    static const uint8_t object[LARGEST];
    uint8_t name[2] = {'h', (uint8_t)('a' + i)};
    int32_t code = costore_begin_put(store, name, 2, object, size);
    while (code == COSTORE_IN_HAND || code == COSTORE_MOVED)
        code = costore_step(store);
    if (code >= COSTORE_DONE)
        held[i] = size;
    return code;
}

static size_t sum_held(void) {
    size_t sum = 0;
    for (size_t i = 0; i < HELD; i++)
        sum += held[i];
    return sum;
}

/* With as much room and log as costore_need says, each change within its bounds is made, by steps. */
static void within(costore *store) {
    int refused = 0;
    for (int i = 0; i < CHANGES; i++) {
        size_t which = drawn() % HELD, size = drawn() % (LARGEST + 1), left = VOLUME - (sum_held() - held[which]);
        refused += put_held(store, which, i % 3 == 0 || size > left ? (left < LARGEST ? left : LARGEST) : size) < 0;
    }
    is("need", "no change is refused", refused, 0);
}

/* Beyond them a change is refused for its room, sooner or later. Then nothing was changed; once there is less it is
   made. */
static void beyond(costore *store) {
    costore_counts counts = {0}, again = {0};
    int32_t code = COSTORE_DONE;
    size_t i = 0;
    for (; i < HELD && code >= COSTORE_DONE; i++)
        code = put_held(store, i, LARGEST);
    is("beyond", "no room", code, COSTORE_NO_ROOM);
    is("beyond", "more than was asked for", sum_held() + LARGEST > VOLUME, 1);
    is("beyond", "none in hand", costore_in_hand(store), 0);
    is("beyond", "stat", costore_stat(store, &counts), COSTORE_DONE);
    is("beyond", "bytes", (int64_t)counts.bytes, (int64_t)sum_held());
    is("beyond", "no room, in one call", costore_put(store, TEXT("other"), room, LARGEST), COSTORE_NO_ROOM);
    is("beyond", "stat again", costore_stat(store, &again), COSTORE_DONE);
    is("beyond", "as it was", memcmp(&counts, &again, sizeof counts), 0);
    for (i = 0; i < HELD / 2; i++)
        is("beyond", "less", put_held(store, i, 0) >= COSTORE_DONE, 1);
    is("beyond", "made now", put_held(store, 0, LARGEST) >= COSTORE_DONE, 1);
}

static void rooms(void) {
    static const uint64_t KS[] = {COSTORE_K_LEAST, 3, 9, COSTORE_K_MOST};
    for (size_t i = 0; i < COUNT(KS); i++) {
        costore store = {0};
        uint64_t most = 0, longest = 0;
        is("need", "rooms", costore_need(KS[i], HELD + 4, VOLUME, LARGEST, &most, &longest), COSTORE_DONE);
        costore_region file = {malloc(most), most}, log = {malloc(longest), longest};
        is("new", "rooms", costore_new(file, 0, log, &store), COSTORE_DONE);
        is("format", "rooms", costore_format(&store, KS[i], HELD + 4), COSTORE_DONE);
        memset(held, 0, sizeof held);
        within(&store);
        beyond(&store);
        costore_free(&store);
        free(file.at), free(log.at);
    }
}

/* ---- the numbers of a file ---- */

static const struct {
    uint64_t k, names;
    bool fits;
} FILES[] = {
    {0, 1024, false},        {COSTORE_K_LEAST - 1, 1024, false}, {COSTORE_K_LEAST, 1024, true},
    {COSTORE_K_MOST, 1024, true}, {COSTORE_K_MOST + 1, 1024, false}, {UINT64_MAX, 1024, false},
    {9, 0, false},           {9, COSTORE_NAMES_LEAST - 1, false}, {9, COSTORE_NAMES_LEAST, true},
    {9, COSTORE_NAMES_MOST, true}, {9, COSTORE_NAMES_MOST + 1, false}, {9, UINT64_MAX, false},
};

#define ZEROS " 0 0 0 0 0 0 0 0 0 0 0 0 0 0 0 0 0 0 0 0 0 0 0 0 0 0 0\n"

/* K and NAMES in range, and not: each call that takes them, and the shape of what it makes. */
static void numbers(void) {
    uint64_t most = 0, longest = 0, number = 77;
    is("need", "the most names", costore_need(2, COSTORE_NAMES_MOST, 0, 0, &most, &longest), COSTORE_DONE);
    costore_region file = {malloc(most), most}, log = {malloc(longest), longest};
    for (size_t i = 0; i < COUNT(FILES); i++) {
        uint64_t k = FILES[i].k, names = FILES[i].names, a = 7, b = 7;
        int32_t wanted = FILES[i].fits ? COSTORE_DONE : COSTORE_BAD_NUMBER;
        is("need", "numbers", costore_need(k, names, 1, 1, &a, &b), wanted);
        is("need", "writes", a != 7 && b != 7, FILES[i].fits);
        for (int dump = 0; dump < 2; dump++) {
            costore store = {0};
            costore_shape shape = {0};
            is("new", "numbers", costore_new(file, 0, log, &store), COSTORE_DONE);
            is("make", dump ? "load" : "format",
               dump ? costore_load(&store, TEXT("dump 0" ZEROS), k, names, &number) : costore_format(&store, k, names),
               wanted);
            is("open", "numbers", costore_open(&store), FILES[i].fits ? COSTORE_NOT_NEW : COSTORE_NO_STORE);
            costore_free(&store);
            if (FILES[i].fits)
                is("shape", "numbers", costore_shape_of(file.at, COSTORE_FRONT, &shape), COSTORE_DONE);
            is("shape", "K", (int64_t)shape.k, FILES[i].fits ? (int64_t)k : 0);
            is("shape", "NAMES", (int64_t)shape.names, FILES[i].fits ? (int64_t)names : 0);
        }
    }
    is("number", "as it was", (int64_t)number, 77);
    free(file.at), free(log.at);
}

static const struct {
    const char *name;
    uint64_t volume, largest;
    int32_t code;
} NEEDS[] = {
    {"nothing", 0, 0, COSTORE_DONE},
    {"the most bytes", ((uint64_t)1 << 48) - 1, 1, COSTORE_DONE},
    {"too many bytes", (uint64_t)1 << 48, 1, COSTORE_BAD_NUMBER},
    {"the longest object", 1, COSTORE_OBJECT_MOST, COSTORE_DONE},
    {"too long an object", 1, (uint64_t)COSTORE_OBJECT_MOST + 1, COSTORE_BAD_NUMBER},
};

static void needs(void) {
    for (size_t i = 0; i < COUNT(NEEDS); i++) {
        uint64_t a = 7, b = 7;
        is("need", NEEDS[i].name, costore_need(9, 64, NEEDS[i].volume, NEEDS[i].largest, &a, &b), NEEDS[i].code);
        is("need writes", NEEDS[i].name, a != 7 && b != 7, NEEDS[i].code == COSTORE_DONE);
    }
}

/* ---- the first bytes ---- */

static uint64_t number_at(const uint8_t *bytes) {
    uint64_t n = 0;
    for (int i = 7; i >= 0; i--)
        n = n << 8 | bytes[i];
    return n;
}

/* Whether bytes are a superblock, as docs/FORMAT.md has it. */
static bool is_front(const uint8_t *front) {
    uint64_t k = number_at(front + 8), names = number_at(front + 16);
    for (int i = 24; i < COSTORE_FRONT; i++)
        if (front[i] != 0)
            return false;
    return memcmp(front, "COSTORE1", 8) == 0 && 2 <= k && k <= 64 && 16 <= names && names <= 65536;
}

/* Whether the call says of 64 bytes what they are. */
static bool says(const uint8_t *front) {
    costore_shape shape = {7, 8, 9};
    uint64_t k = number_at(front + 8), names = number_at(front + 16);
    int32_t code = costore_shape_of(front, COSTORE_FRONT, &shape);
    if (!is_front(front))
        return code == COSTORE_NO_STORE && shape.k == 7 && shape.names == 8 && shape.head == 9;
    return code == COSTORE_DONE && shape.k == k && shape.names == names
           && shape.head == 64 + 2 * (8488 + 80 * names + 1) + 1;
}

static void shapes(void) {
    uint8_t front[COSTORE_FRONT + 8] = "COSTORE1\11\0\0\0\0\0\0\0\0\4\0\0\0\0\0";
    costore_shape shape = {7, 8, 9};
    is("shape", "of a store", says(front) && is_front(front), 1);
    for (size_t n = 0; n < COSTORE_FRONT; n++)
        is("shape", "short", costore_shape_of(front, n, &shape), COSTORE_SHORT);
    is("shape", "nothing is written", shape.k == 7 && shape.names == 8 && shape.head == 9, 1);
    memset(front + COSTORE_FRONT, 0xff, 8);
    is("shape", "more bytes", costore_shape_of(front, sizeof front, &shape), COSTORE_DONE);
    is("shape", "the head of 1,024 names", (int64_t)shape.head, 180883);
    for (int i = 0; i < COSTORE_FRONT; i++) {
        int right = 0, stores = 0;
        uint8_t was = front[i];
        for (int byte = 0; byte < 256; byte++) {
            front[i] = (uint8_t)byte;
            right += says(front), stores += is_front(front);
        }
        front[i] = was;
        is("shape", "each other byte", right, 256);
        /* K can be 2 to 64. Of NAMES, 1,024, the first byte can be any, and the second any but 0. */
        is("shape", "how many are stores", stores, i == 8 ? 63 : i == 16 ? 256 : i == 17 ? 255 : 1);
    }
}

int main(void) {
    words();
    version();
    names();
    many();
    objects();
    rooms();
    numbers();
    needs();
    shapes();
    return counted();
}
