/* Makes each call that takes a handle as const while nothing of the handle can be written: unwritten FILE.

   What is taken of malloc between these calls comes from one block: the open file, its handle, and all that this leads
   to. The block and the regions are made unwritable, so that a write ends the program by a signal. The calls are made
   at rest, between the steps of a flush, with digests, and on a store that is broken or closed; by one thread, and by
   four at a time. What they take for themselves comes from elsewhere, and they give it back. The test is linked with
   --wrap for malloc, calloc, realloc, free and strdup. */
#define _GNU_SOURCE
#include "costore_file.h"
#include "counted.h"
#include "unwritable.h"

#include <pthread.h>

enum { OBJECTS = 24, MOST = 4000, ROUNDS = 6, K = 9, NAMES = 64, THREADS = 4 };
enum { ROOM = 1 << 25, LOG = 1 << 20, TEXTS = 1 << 18 };

static costore_file_t *f;

/* Makes all memory of the handle unwritable, or writable again. A region can be within the block, too. */
static void shut_all(const char *when, bool shuts) {
    const costore_region parts[] = {{block, BLOCK}, f->file, f->log, f->marks};
    int how = shuts ? PROT_READ : PROT_READ | PROT_WRITE, wrong = 0;
    for (size_t i = 0; i < COUNT(parts); i++)
        if (i == 0 || (parts[i].at && !is_within(parts[i].at)))
            wrong += mprotect(parts[i].at, parts[i].n, how) != 0;
    shut = shuts;
    is("mprotect", when, wrong, 0);
}

/* Tries to write the first and the last byte of each part, each in a process of its own. */
static void try_writes(int wanted) {
    const struct {
        const char *what;
        void *at;
        size_t n;
    } PARTS[] = {
        {"the open file", f, sizeof *f}, {"the handle", f->store.at, 1},      {"path", f->path, 1},
        {"touched", f->touched, 1},      {"all that was taken", block, used}, {"file", f->file.at, f->file.n},
        {"log", f->log.at, f->log.n},    {"marks", f->marks.at, f->marks.n},
    };
    for (size_t i = 0; i < COUNT(PARTS); i++)
        if (PARTS[i].at) {
            is("a write at the start", PARTS[i].what, written(PARTS[i].at), wanted);
            is("a write at the end", PARTS[i].what, written((uint8_t *)PARTS[i].at + PARTS[i].n - 1), wanted);
        }
}

/* ---- what there is ---- */

/* When calls are made, and what they answer: most of them; old, stat and dump; check; and lengths, log and file. The
   first time it is tried whether a write ends the process. */
typedef struct answers_t {
    const char *when;
    int32_t most, resting, check, notes;
    bool tried;
} answers_t;

static answers_t rest = {"at rest", COSTORE_DONE, COSTORE_DONE, COSTORE_DONE, COSTORE_DONE, false},
                 in_hand = {"in hand", COSTORE_DONE, COSTORE_BUSY, COSTORE_DONE, COSTORE_DONE, false},
                 broken = {"broken", COSTORE_BROKEN, COSTORE_BROKEN, COSTORE_DONE, COSTORE_DONE, false},
                 closed = {"closed", COSTORE_CLOSED, COSTORE_CLOSED, COSTORE_CLOSED, COSTORE_CLOSED, false};

/* The round of each object, which gives its size and its bytes: now, and at the last checkpoint. */
static int now[OBJECTS], kept[OBJECTS];

typedef struct text_t {
    char at[TEXTS];
    uint64_t n;
} text_t;

/* The list, the dump of the last checkpoint, and the file, as much of it as there is memory for. */
static text_t list, dump, file;

/* How many bytes the objects have, the log, what is compared of it, and the file. */
static uint64_t bytes, kept_bytes, log_n, log_part, length;
static uint64_t version;

static size_t name_of(int i, uint8_t name[16]) { return (size_t)sprintf((char *)name, "n%02d", i); }

static size_t fill(int i, int round, uint8_t *out) {
    size_t n = (size_t)(i * 397 + round * 131) % MOST;
    for (size_t at = 0; at < n; at++)
        out[at] = (uint8_t)(at * 7 + (size_t)(i + round) * 31);
    return n;
}

/* A line for the whole, and then each object as it is put: docs/FORMAT.md. */
static void note_dump(void) {
    static uint8_t object[MOST];
    uint64_t classes[27] = {0};
    kept_bytes = 0;
    for (int i = 0; i < OBJECTS; i++) {
        size_t n = fill(i, kept[i], object), class = 0;
        while (n >> class > 1)
            class++;
        classes[class] += n, kept_bytes += n;
    }
    dump.n = (uint64_t)sprintf(dump.at, "dump %d", OBJECTS);
    for (size_t class = 0; class < COUNT(classes); class++)
        dump.n += (uint64_t)sprintf(dump.at + dump.n, " %d", (int)classes[class]);
    for (int i = 0; i < OBJECTS; i++) {
        size_t n = fill(i, kept[i], object);
        dump.n += (uint64_t)sprintf(dump.at + dump.n, "\nput n%02d %d\n", i, (int)n);
        memcpy(dump.at + dump.n, object, n);
        dump.n += n;
    }
    dump.at[dump.n++] = '\n';
}

/* What is to be read. A broken store has changes that the device hasn't. */
static void note(const answers_t *a) {
    static uint8_t object[MOST];
    static char device[TEXTS];
    list.n = bytes = 0;
    for (int i = 0; i < OBJECTS; i++) {
        size_t n = fill(i, now[i], object);
        list.n += (uint64_t)sprintf(list.at + list.n, "n%02d %d\n", i, (int)n), bytes += n;
    }
    note_dump();
    is("lengths", a->when, costore_lengths(&f->store, &log_n, &length), a->notes);
    log_part = log_n < TEXTS ? log_n : TEXTS;
    file.n = length < TEXTS ? length : TEXTS;
    is("file", a->when, costore_file(&f->store, 0, (uint8_t *)file.at, file.n), a->notes);
    if (a->most == COSTORE_DONE) {
        is("pread", a->when, pread(f->fd, device, TEXTS, 0), (int64_t)length);
        is("the device's bytes", a->when, memcmp(device, file.at, file.n), 0);
    }
}

/* ---- reads ---- */

/* A call of costore_file.h, or the one of costore.h. */
#define CALL(name, ...) (by_file ? costore_file_##name(f, __VA_ARGS__) : costore_##name(&f->store, __VA_ARGS__))

/* Ends with the call's name if its answer is another one, or what it has written is wrong. */
#define TRY(what, wanted, call, holds) \
    if ((call) != (wanted) || ((wanted) == COSTORE_DONE && !(holds))) \
        return what

static const char *read_object(const answers_t *a, bool by_file, int i) {
    uint8_t name[16], above[16] = "", out[MOST], is_now[MOST], is_kept[MOST];
    const uint8_t *place = NULL;
    uint64_t at = 0, size = 0, named = 0;
    size_t n = name_of(i, name), before = i > 0 ? name_of(i - 1, above) : 0;
    size_t m = fill(i, now[i], is_now), k = fill(i, kept[i], is_kept);
    TRY("size", a->most, CALL(size, name, n, &size), size == m);
    TRY("position", a->most, CALL(position, name, n, &at, &size),
        size == m && memcmp(f->file.at + at, is_now, m) == 0);
    TRY("get", a->most, CALL(get, name, n, out, MOST, &size), size == m && memcmp(out, is_now, m) == 0);
    TRY("old", a->resting, CALL(old, name, n, out, MOST, &size), size == k && memcmp(out, is_kept, k) == 0);
    TRY("read", a->most, CALL(read, name, n, m / 3, out, MOST, &size),
        size == m - m / 3 && memcmp(out, is_now + m / 3, size) == 0);
    TRY("next", a->most, CALL(next, above, before, out, MOST, &named, &size),
        named == n && memcmp(out, name, n) == 0 && size == m);
    if (by_file)
        TRY("look", a->most, costore_file_look(f, name, n, &place, &size), size == m && place == f->file.at + at);
    return NULL;
}

static const char *read_whole(const answers_t *a, bool by_file, uint8_t *out) {
    bool held = a == &in_hand;
    uint64_t size = 0, log = 0;
    costore_counts c;
    costore_facts d;
    costore_fault fault;
    if ((by_file ? costore_file_in_hand(f) : costore_in_hand(&f->store)) != held)
        return "in hand";
    TRY("list", a->most, CALL(list, out, TEXTS, &size), size == list.n && memcmp(out, list.at, size) == 0);
    TRY("stat", a->resting, CALL(stat, &c),
        c.names == OBJECTS && c.bytes == bytes && c.kept_names == OBJECTS && c.kept_bytes == kept_bytes);
    TRY("info", a->most, CALL(info, &d),
        d.version == version && d.k == K && d.names == NAMES && d.live == OBJECTS && d.bytes == bytes
            && d.kept == OBJECTS && d.file == length && d.room == ROOM && (d.moves_left > 0) == held);
    TRY("check", a->check, CALL(check, &fault), true);
    TRY("dump", a->resting, CALL(dump, out, TEXTS, &size), size == dump.n && memcmp(out, dump.at, size) == 0);
    TRY("file", a->notes, by_file ? costore_file_bytes(f, 0, out, file.n) : costore_file(&f->store, 0, out, file.n),
        memcmp(out, file.at, file.n) == 0);
    TRY("lengths", a->notes, costore_lengths(&f->store, &log, &size), log == log_n && size == length);
    TRY("log", a->notes, costore_log(&f->store, 0, out, log_part), memcmp(out, f->log.at, log_part) == 0);
    return NULL;
}

/* A thread: where it begins, the first call that was wrong, and memory to read into. */
static struct reader_t {
    const answers_t *answers;
    int first;
    const char *wrong;
    uint8_t out[TEXTS];
} readers[THREADS];

/* All objects, from another one on, and the rest, each by both headers. */
static void *read_all(void *with) {
    struct reader_t *r = with;
    r->wrong = NULL;
    for (int n = 0; n < 2 * OBJECTS && !r->wrong; n++)
        r->wrong = read_object(r->answers, n % 2, (r->first + n / 2) % OBJECTS);
    for (int n = 0; n < 2 && !r->wrong; n++)
        r->wrong = read_whole(r->answers, n % 2, r->out);
    return NULL;
}

/* All calls by one thread, and by four at a time, while nothing can be written. */
static void read_unwritten(answers_t *a) {
    pthread_t threads[THREADS];
    note(a);
    if (!a->tried)
        try_writes(0);
    shut_all(a->when, true);
    if (!a->tried)
        try_writes(SIGSEGV);
    a->tried = true;
    for (int i = 0; i < THREADS; i++)
        readers[i].answers = a, readers[i].first = i * OBJECTS / THREADS;
    read_all(&readers[0]);
    is(readers[0].wrong ? readers[0].wrong : "alone", a->when, readers[0].wrong == NULL, 1);
    for (int i = 0; i < THREADS; i++)
        is("thread", a->when, pthread_create(&threads[i], NULL, read_all, &readers[i]), 0);
    for (int i = 0; i < THREADS; i++) {
        pthread_join(threads[i], NULL);
        is(readers[i].wrong ? readers[i].wrong : "at once", a->when, readers[i].wrong == NULL, 1);
    }
    shut_all(a->when, false);
}

/* ---- changes ---- */

static int32_t noted(int32_t code) {
    if (code == COSTORE_KEPT)
        memcpy(kept, now, sizeof kept);
    return code;
}

/* Puts an object by steps, with reads between them, and answers how many steps that took. */
static int change(int i, int round, bool reads) {
    static uint8_t object[MOST];
    uint8_t name[16];
    size_t n = name_of(i, name), m = fill(i, round, object);
    int step = 0;
    now[i] = round;
    int32_t code = noted(costore_file_begin_put(f, name, n, object, m));
    for (; code == COSTORE_IN_HAND || code == COSTORE_MOVED; step++) {
        if (reads && step % 4 == 0)
            read_unwritten(&in_hand);
        code = noted(costore_file_step(f));
    }
    is("change", "unwritten", code >= COSTORE_DONE, 1);
    return step;
}

int main(int argc, char **argv) {
    static const int SMALL[] = {397, 1313}; /* rounds in which the first object has 7 bytes and 3 */
    static uint8_t huge[1 << 23];
    int steps = 0;
    if (argc != 2 || !take_block())
        return 2;
    f = malloc(sizeof *f);
    is("format", "unwritten", costore_file_format(f, argv[1], K, NAMES, ROOM, LOG), COSTORE_DONE);
    for (int i = 0; i < OBJECTS; i++)
        change(i, 0, false);
    is("keep", "unwritten", noted(costore_file_keep(f)), COSTORE_KEPT);
    costore_file_close(f);
    is("open", "unwritten", costore_file_open(f, argv[1], ROOM, LOG), COSTORE_DONE);
    is("the handle is in the block", "unwritten", is_within(f->store.at), 1);
    for (version = 1; version <= 2; version++) {
        for (int round = 1; round <= ROUNDS; round++) {
            read_unwritten(&rest);
            steps += change(round * 7 % OBJECTS, round, true);
        }
        is("steps of a quiet put", "unwritten", change(0, SMALL[version - 1], true), 0);
        read_unwritten(&rest);
        is("upgrade", "unwritten", noted(costore_file_upgrade(f)), version == 1 ? COSTORE_KEPT : COSTORE_DONE);
    }
    is("many steps", "unwritten", steps > ROUNDS, 1);
    is("a log that is too small", "unwritten", costore_file_put(f, TEXT("huge"), huge, f->log.n), COSTORE_DISK);
    read_unwritten(&broken);
    is("close", "unwritten", costore_close(&f->store), COSTORE_DONE);
    read_unwritten(&closed);
    costore_file_close(f);
    is("what reads took is given back", "unwritten", given, taken);
    is("check and dump took memory", "unwritten", taken > 0, 1);
    return counted();
}
