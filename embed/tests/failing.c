/* Makes a session of each kind of change in which one call of the system fails, for each of its calls, and then opens
   the file: failing FOLDER. The same for each time that memory is asked for, also by the library: it is linked with
   --wrap for malloc, calloc, realloc and strdup. */
#define _GNU_SOURCE
#include "calls.h"
#include "counted.h"

#include <stdlib.h>
#include <sys/stat.h>

enum { NAMES = 32, ROOM = 1 << 20, LOG = 1 << 20, HELD = 8, MOST = 4000 };

/* ---- memory ---- */

/* How often memory was asked for, and which time it is refused (none at 0). */
static uint64_t asked, refuses;

void *__real_malloc(size_t n);
void *__real_calloc(size_t n, size_t size);
void *__real_realloc(void *at, size_t n);
char *__real_strdup(const char *text);
void *__wrap_malloc(size_t n);
void *__wrap_calloc(size_t n, size_t size);
void *__wrap_realloc(void *at, size_t n);
char *__wrap_strdup(const char *text);

static bool lacks(void) {
    if (++asked != refuses)
        return false;
    errno = ENOMEM;
    return true;
}

void *__wrap_malloc(size_t n) { return lacks() ? NULL : __real_malloc(n); }
void *__wrap_calloc(size_t n, size_t size) { return lacks() ? NULL : __real_calloc(n, size); }
void *__wrap_realloc(void *at, size_t n) { return lacks() ? NULL : __real_realloc(at, n); }
char *__wrap_strdup(const char *text) { return lacks() ? NULL : __real_strdup(text); }

/* ---- the session ---- */

/* What a request does: it puts an object of so many bytes, by steps or at once, or one of the others. */
typedef enum { PUT, STEPS, DEL, KEEP, UPGRADE, BATCH, BACK } kind_t;

static const struct {
    kind_t kind;
    int which;
    size_t size;
} REQUESTS[] = {
    {PUT, 0, 100},    {STEPS, 1, 1000}, {STEPS, 2, 3000}, {KEEP, 0, 0},    {STEPS, 3, 10},   {DEL, 0, 0},
    {STEPS, 4, 2000}, {PUT, 5, 700},    {KEEP, 0, 0},     {PUT, 6, 1},     {UPGRADE, 0, 0},  {STEPS, 7, 4000},
    {DEL, 1, 0},      {BATCH, 1, 500},  {PUT, 2, 20},     {BACK, 0, 0},    {STEPS, 3, 3500}, {UPGRADE, 0, 0},
    {DEL, 7, 0},      {STEPS, 0, 900},  {KEEP, 0, 0},     {PUT, 4, 2},     {BATCH, 6, 60},   {DEL, 3, 0},
};

/* A map: the size of each object, or -1 where there is none, and a number that its bytes come from. */
typedef struct map_t {
    int size[HELD], seed[HELD];
} map_t;

/* The state now, and the last one that was acknowledged as kept. */
static map_t now, kept;

static size_t name_of(int i, uint8_t name[16]) { return (size_t)sprintf((char *)name, "n%d", i); }

static void bytes_of(int seed, size_t size, uint8_t *out) {
    for (size_t at = 0; at < size; at++)
        out[at] = (uint8_t)(at * 5 + (size_t)seed * 17);
}

/* The map after a request; a batch puts two objects. */
static map_t after(const map_t *m, size_t i) {
    map_t then = *m;
    int which = REQUESTS[i].which, size = (int)REQUESTS[i].size;
    if (REQUESTS[i].kind == BACK)
        return kept;
    if (REQUESTS[i].kind == DEL)
        then.size[which] = -1;
    if (REQUESTS[i].kind == PUT || REQUESTS[i].kind == STEPS || REQUESTS[i].kind == BATCH)
        then.size[which] = size, then.seed[which] = (int)i;
    if (REQUESTS[i].kind == BATCH)
        then.size[which + 1] = size, then.seed[which + 1] = (int)i + 1;
    return then;
}

/* A batch of two puts. */
static int32_t batch(costore_file_t *f, size_t i) {
    static uint8_t text[2 * MOST];
    uint64_t number;
    size_t n = 0, size = REQUESTS[i].size;
    for (int more = 0; more < 2; more++) {
        n += (size_t)sprintf((char *)text + n, "put n%d %zu\n", REQUESTS[i].which + more, size);
        bytes_of((int)i + more, size, text + n);
        n += size, text[n++] = '\n';
    }
    return costore_file_batch(f, text, n, &number);
}

static int32_t serve(costore_file_t *f, size_t i) {
    static uint8_t object[MOST];
    uint8_t name[16];
    size_t n = name_of(REQUESTS[i].which, name), size = REQUESTS[i].size;
    int32_t code;
    bytes_of((int)i, size, object);
    switch (REQUESTS[i].kind) {
    case PUT: return costore_file_put(f, name, n, object, size);
    case DEL: return costore_file_del(f, name, n);
    case KEEP: return costore_file_keep(f);
    case UPGRADE: return costore_file_upgrade(f);
    case BATCH: return batch(f, i);
    case BACK: return costore_file_back(f);
    default: break;
    }
    code = costore_file_begin_put(f, name, n, object, size);
    while (code == COSTORE_IN_HAND || code == COSTORE_MOVED)
        code = costore_file_step(f);
    return code;
}

/* Serves the requests until one is refused, and answers which that is. */
static size_t serve_all(costore_file_t *f, int32_t *code) {
    size_t i = 0;
    for (*code = COSTORE_DONE; i < COUNT(REQUESTS); i++) {
        *code = serve(f, i);
        if (*code < COSTORE_DONE)
            return i;
        now = after(&now, i);
        if (*code == COSTORE_KEPT)
            kept = now;
    }
    return i;
}

/* ---- what a file has ---- */

static bool has(const costore_file_t *f, const map_t *m) {
    static uint8_t object[MOST], out[MOST];
    uint8_t name[16];
    uint64_t size = 0;
    for (int i = 0; i < HELD; i++) {
        int32_t code = costore_file_get(f, name, name_of(i, name), out, sizeof out, &size);
        if (m->size[i] < 0 && code != COSTORE_MISSING)
            return false;
        if (m->size[i] < 0)
            continue;
        bytes_of(m->seed[i], (size_t)m->size[i], object);
        if (code != COSTORE_DONE || size != (uint64_t)m->size[i] || memcmp(out, object, size))
            return false;
    }
    return true;
}

static void forget(void) {
    for (int i = 0; i < HELD; i++)
        now.size[i] = -1;
    kept = now;
}

/* Makes a store and opens it; none of these calls fails. */
static bool begin_session(costore_file_t *f) {
    unlink("failing"), forget();
    fails = refuses = 0;
    if (costore_file_format(f, "failing", 9, NAMES, ROOM, LOG) != COSTORE_DONE)
        return false;
    costore_file_close(f);
    return costore_file_open(f, "failing", ROOM, LOG) == COSTORE_DONE;
}

/* Opens the file once more. It has the last kept state, or that of the request which failed, if there was one. A batch
   that was left is finished. */
static bool opens(size_t i) {
    costore_file_t f;
    uint64_t number;
    map_t next = i < COUNT(REQUESTS) ? after(&now, i) : now;
    fails = refuses = 0;
    if (costore_file_open(&f, "failing", ROOM, LOG) != COSTORE_DONE)
        return false;
    bool right = costore_file_finish(&f, &number) >= COSTORE_DONE && (has(&f, &kept) || has(&f, &next))
                 && costore_file_keep(&f) == COSTORE_KEPT;
    costore_file_close(&f);
    return right;
}

/* ---- calls that fail ---- */

/* How many calls the last session made. */
static uint64_t made;

/* The whole session, in which the n-th call fails. */
static bool fails_at(uint64_t n) {
    costore_file_t f;
    int32_t code;
    uint64_t size;
    if (!begin_session(&f))
        return false;
    may_fail = false, calls = 0, fails = n;
    size_t i = serve_all(&f, &code);
    made = calls;
    bool right = may_fail || n == 0 ? i == COUNT(REQUESTS) && has(&f, &now)
                                    : code == COSTORE_SYSTEM && errno == cause
                                          && costore_file_size(&f, TEXT("n0"), &size) == COSTORE_BROKEN;
    costore_file_close(&f);
    return right && opens(i);
}

static void failures(void) {
    static const int CAUSES[] = {EIO, ENOSPC};
    uint64_t all, wrong = 0, states = 0;
    is("session", "no failure", fails_at(0), 1);
    all = made;
    is("calls", "of a session", all > 100, 1);
    for (size_t c = 0; c < COUNT(CAUSES); c++) {
        cause = CAUSES[c];
        for (uint64_t n = 1; n <= all; n++, states++)
            wrong += !fails_at(n);
    }
    is("failures", "of a session", (int64_t)wrong, 0);
    is("failures", "how many", (int64_t)states, (int64_t)(2 * all));
    passed += (int)(states - wrong);
}

/* ---- memory that is refused ---- */

static uint8_t text[ROOM];
static uint64_t dumped;

static int32_t do_format(costore_file_t *f) {
    unlink("other");
    return costore_file_format(f, "other", 9, NAMES, ROOM, LOG);
}

static int32_t do_load(costore_file_t *f) {
    uint64_t number;
    unlink("other");
    return costore_file_load(f, "other", text, dumped, 9, NAMES, ROOM, LOG, &number);
}

static int32_t do_open(costore_file_t *f) { return costore_file_open(f, "failing", ROOM, LOG); }
static int32_t do_shown(costore_file_t *f) { return costore_file_open(f, "./failing", ROOM, LOG); }

static const struct {
    const char *name;
    int32_t (*does)(costore_file_t *f);
} MAKING[] = {{"format", do_format}, {"load", do_load}, {"open", do_open}, {"open by a path", do_shown}};

/* Each time that memory is asked for it is refused: that is answered, and no file is open, nor is one changed. */
static void making(void) {
    costore_file_t f;
    for (size_t i = 0; i < COUNT(MAKING); i++) {
        const char *name = MAKING[i].name;
        asked = refuses = 0;
        is("memory", name, MAKING[i].does(&f), COSTORE_DONE);
        costore_file_close(&f);
        uint64_t all = asked;
        is("memory: how often", name, all > 1, 1);
        for (uint64_t n = 1; n <= all; n++) {
            asked = 0, refuses = n;
            int32_t code = MAKING[i].does(&f);
            is("memory is refused", name, code == COSTORE_NO_MEMORY || (code == COSTORE_SYSTEM && errno == ENOMEM), 1);
            refuses = 0;
            is("memory: nothing is open", name, f.fd < 0 && costore_file_keep(&f) == COSTORE_BROKEN, 1);
            costore_file_close(&f);
            is("memory: the file opens", name, opens(COUNT(REQUESTS)), 1);
        }
    }
}

static int32_t do_check(costore_file_t *f) {
    costore_fault fault;
    return costore_file_check(f, &fault);
}

static int32_t do_dump(costore_file_t *f) { return costore_file_dump(f, text, sizeof text, &dumped); }

static int32_t do_finish(costore_file_t *f) {
    uint64_t number;
    return costore_file_finish(f, &number);
}

static const struct {
    const char *name;
    int32_t (*does)(costore_file_t *f);
    int32_t code;
} ASKING[] = {
    {"check", do_check, COSTORE_DONE}, {"dump", do_dump, COSTORE_DONE}, {"finish", do_finish, COSTORE_KEPT}};

/* The calls on an open store that take memory. A refusal changes nothing, and they can be made again. */
static void asking(void) {
    costore_file_t f;
    int32_t code;
    is("begin", "memory", begin_session(&f), 1);
    is("session", "memory", (int64_t)serve_all(&f, &code), COUNT(REQUESTS));
    is("keep", "memory", costore_file_keep(&f), COSTORE_KEPT);
    kept = now;
    is("a batch that is left", "memory", costore_file_put(&f, TEXT(COSTORE_BATCH), TEXT("put n 0\n\n")) >= 0, 1);
    for (size_t i = 0; i < COUNT(ASKING); i++) {
        uint64_t n = 0, asked_then;
        do {
            asked = 0, refuses = ++n;
            code = ASKING[i].does(&f);
            asked_then = asked, refuses = 0;
            is("memory on an open store", ASKING[i].name, code, asked_then < n ? ASKING[i].code : COSTORE_NO_MEMORY);
            is("memory: the objects", ASKING[i].name, has(&f, &now), 1);
        } while (asked_then >= n && n < 100);
        is("memory: how often", ASKING[i].name, n > 1 && n < 100, 1);
    }
    is("keep", "after all", costore_file_keep(&f), COSTORE_KEPT);
    costore_file_close(&f);
}

/* A session on an open store asks for memory in a batch alone, and there only to finish one. */
static void session(void) {
    costore_file_t f;
    int32_t code;
    is("begin", "no memory", begin_session(&f), 1);
    asked = 0;
    is("session", "no memory", (int64_t)serve_all(&f, &code), COUNT(REQUESTS));
    is("memory", "of a session", (int64_t)asked, 0);
    costore_file_close(&f);
}

/* ---- a file that ends early ---- */

/* From some read on the file has no more bytes: it is cut while it is opened. */
static void ends_early(void) {
    costore_file_t f;
    is("begin", "a file that ends early", begin_session(&f), 1);
    costore_file_close(&f);
    reads = ends = 0;
    is("open", "reads", do_open(&f), COSTORE_DONE);
    costore_file_close(&f);
    uint64_t all = reads;
    for (uint64_t n = 1; n <= all; n++) {
        reads = 0, ends = n;
        int32_t code = do_open(&f);
        is("open", "ends early", code, COSTORE_NO_STORE);
        costore_file_close(&f);
        ends = 0;
        is("open again", "ends early", opens(COUNT(REQUESTS)), 1);
    }
}

int main(int argc, char **argv) {
    if (argc != 2 || chdir(argv[1]))
        return 2;
    failures();
    asking();
    making();
    session();
    ends_early();
    unlink("failing"), unlink("other");
    return counted();
}
