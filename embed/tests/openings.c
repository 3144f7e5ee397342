/* Opens and makes files that aren't as they should be, that lose their name, or whose calls of the system fail:
   openings FOLDER. At the end FOLDER/openings is a store. */
#define _GNU_SOURCE
#include "calls.h"
#include "counted.h"

#include <fcntl.h>
#include <stdlib.h>
#include <sys/stat.h>

enum { NAMES = 64, OBJECTS = 40, ROOM = 1 << 20, LOG = 1 << 20, LARGE = 1 << 20 };

static char here[4096];

static int64_t size_of(const char *path) {
    struct stat now;
    return stat(path, &now) ? -1 : (int64_t)now.st_size;
}

/* Makes a file of `size` bytes that begins with n bytes; the others are x. */
static void write_file(const char *path, const void *bytes, size_t n, size_t size) {
    FILE *file = fopen(path, "w");
    for (size_t i = 0; file && i < size; i++)
        putc(i < n ? ((const uint8_t *)bytes)[i] : 'x', file);
    if (!file || fclose(file))
        is("write", path, errno, 0);
}

/* ---- what isn't a store, or isn't a file ---- */

static const struct {
    const char *name, *front;
    size_t n, size;
    int32_t opened, made;
} PLACES[] = {
    {"folder", NULL, 0, 0, COSTORE_NOT_A_FILE, COSTORE_NOT_A_FILE},
    {"pipe", NULL, 0, 0, COSTORE_NOT_A_FILE, COSTORE_NOT_A_FILE},
    {"/dev/null", NULL, 0, 0, COSTORE_NOT_A_FILE, COSTORE_NOT_A_FILE},
    {"text", "some text", 9, LARGE, COSTORE_NO_STORE, COSTORE_NOT_NEW},
    {"K 1", "COSTORE1\1\0\0\0\0\0\0\0\100\0\0\0\0\0\0\0", 24, LARGE, COSTORE_NO_STORE, COSTORE_NOT_NEW},
    {"63 bytes", "COSTORE1\11\0\0\0\0\0\0\0\100\0\0\0\0\0\0\0", 24, 63, COSTORE_NO_STORE, COSTORE_NOT_NEW},
    {"empty", "", 0, 0, COSTORE_NO_STORE, COSTORE_DONE},
};

static void places(void) {
    costore_file_t f;
    is("mkdir", "folder", mkdir("folder", 0777), 0);
    is("mkfifo", "pipe", mkfifo("pipe", 0666), 0);
    for (size_t i = 0; i < COUNT(PLACES); i++) {
        const char *name = PLACES[i].name;
        if (PLACES[i].front)
            write_file(name, PLACES[i].front, PLACES[i].n, PLACES[i].size);
        had = 0;
        is("open", name, costore_file_open(&f, name, ROOM, LOG), PLACES[i].opened);
        is("open: bytes read", name, had <= 64, 1);
        if (PLACES[i].front)
            is("open: its size", name, size_of(name), (int64_t)PLACES[i].size);
        costore_file_close(&f);
        had = 0;
        is("format", name, costore_file_format(&f, name, 9, NAMES, ROOM, LOG), PLACES[i].made);
        is("format: bytes read", name, (int64_t)had, 0);
        costore_file_close(&f);
    }
    is("open", "none", costore_file_open(&f, "none", ROOM, LOG), COSTORE_SYSTEM);
    is("errno", "none", errno, ENOENT);
    is("format", "none/none", costore_file_format(&f, "none/none", 9, NAMES, ROOM, LOG), COSTORE_SYSTEM);
    is("errno", "none/none", errno, ENOENT);
}

/* ---- what the library refuses to make ---- */

#define ZEROS " 0 0 0 0 0 0 0 0 0 0 0 0 0 0 0 0 0 0 0 0 0 0 0 0 0 0 0\n"

static const struct {
    const char *name, *text;
    uint64_t k, names, room, log;
    int32_t code;
} REFUSED[] = {
    {"K 1", NULL, 1, NAMES, ROOM, LOG, COSTORE_BAD_NUMBER},
    {"K 65", NULL, 65, NAMES, ROOM, LOG, COSTORE_BAD_NUMBER},
    {"NAMES 15", NULL, 9, 15, ROOM, LOG, COSTORE_BAD_NUMBER},
    {"NAMES 65537", NULL, 9, 65537, ROOM, LOG, COSTORE_BAD_NUMBER},
    {"a small room", NULL, 9, NAMES, 1000, LOG, COSTORE_NO_ROOM},
    {"a small log", NULL, 9, NAMES, ROOM, 100, COSTORE_DISK},
    {"a dump, a small room", "dump 0" ZEROS, 9, NAMES, 1000, LOG, COSTORE_NO_ROOM},
    {"a dump, K 1", "dump 0" ZEROS, 1, NAMES, ROOM, LOG, COSTORE_BAD_NUMBER},
    {"no dump", "put a 1\nx\n", 9, NAMES, ROOM, LOG, COSTORE_LINE},
    {"a dump of 17", "dump 17" ZEROS, 9, 16, ROOM, LOG, COSTORE_MORE_NAMES},
    {"a dump, a small log", "dump 0" ZEROS, 9, NAMES, ROOM, 100, COSTORE_DISK},
};

static int32_t make_row(costore_file_t *f, size_t i) {
    const char *text = REFUSED[i].text;
    uint64_t k = REFUSED[i].k, names = REFUSED[i].names, room = REFUSED[i].room, log = REFUSED[i].log, at;
    return text ? costore_file_load(f, "refused", TEXT(text), k, names, room, log, &at)
                : costore_file_format(f, "refused", k, names, room, log);
}

static void refusals(void) {
    costore_file_t f;
    for (size_t i = 0; i < COUNT(REFUSED); i++) {
        const char *name = REFUSED[i].name;
        is("refused", name, make_row(&f, i), REFUSED[i].code);
        is("refused: no file", name, size_of("refused"), -1);
        write_file("refused", NULL, 0, 0);
        is("refused, an empty file", name, make_row(&f, i), REFUSED[i].code);
        is("refused: its size", name, size_of("refused"), 0);
        is("unlink", name, unlink("refused"), 0);
    }
}

/* ---- files that were interrupted within a flush ---- */

static uint8_t file_now[ROOM], moving[ROOM], lent[ROOM], noted[100];
static size_t length;

/* Reads a file, and tells whether its opening needs more than 100 bytes of log: then it finishes a flush. */
static bool is_moving(const char *path) {
    costore bare = {0};
    costore_region region = {lent, sizeof lent}, notes = {noted, sizeof noted};
    FILE *file = fopen(path, "r");
    length = file ? fread(file_now, 1, sizeof file_now, file) : 0;
    if (file)
        fclose(file);
    memcpy(lent, file_now, length);
    int32_t code = costore_new(region, length, notes, &bare);
    if (code == COSTORE_DONE) {
        code = costore_open(&bare);
        costore_free(&bare);
    }
    return code == COSTORE_DISK;
}

static size_t name_of(int i, uint8_t name[16]) { return (size_t)sprintf((char *)name, "n%02d", i); }

/* Leaves in `moving` a file whose last checkpoint was saved within a flush. */
static void make_moving(void) {
    costore_file_t f;
    uint8_t name[16], object[2000];
    int32_t code = COSTORE_DONE;
    bool found = false;
    memset(object, 'o', sizeof object);
    is("format", "moving", costore_file_format(&f, "moving", 9, NAMES, ROOM, LOG), COSTORE_DONE);
    for (int i = 0; i < OBJECTS && code >= COSTORE_DONE; i++)
        code = costore_file_put(&f, name, name_of(i, name), object, 1000);
    is("puts", "moving", code >= COSTORE_DONE, 1);
    is("keep", "moving", costore_file_keep(&f), COSTORE_KEPT);
    for (int i = 0; i < OBJECTS && !found && code >= COSTORE_DONE; i++) {
        code = costore_file_begin_put(&f, name, name_of(i, name), object, sizeof object);
        while (code >= COSTORE_DONE && costore_file_in_hand(&f) && !(found = is_moving("moving")))
            code = costore_file_step(&f);
    }
    is("a flush that is interrupted", "moving", found, 1);
    costore_file_close(&f);
    memcpy(moving, file_now, length);
}

/* All objects are there, each of one of its two sizes. */
static bool has_all(costore_file_t *f) {
    uint8_t name[16], out[2000];
    uint64_t size = 0;
    int right = 0;
    for (int i = 0; i < OBJECTS; i++)
        right += costore_file_get(f, name, name_of(i, name), out, sizeof out, &size) == COSTORE_DONE
                 && (size == 1000 || size == 2000) && out[0] == 'o' && out[size - 1] == 'o';
    return right == OBJECTS;
}

static const uint64_t LOGS[] = {0, 1, 33, 100, 1000, 65535, LOG};

static void interrupted(void) {
    costore_file_t f;
    size_t n = length;
    char which[32];
    uint64_t log, now;
    for (size_t i = 0; i < COUNT(LOGS); i++) {
        sprintf(which, "log %llu", (unsigned long long)LOGS[i]);
        write_file("openings", moving, n, n);
        had = 0;
        int32_t code = costore_file_open(&f, "openings", 0, LOGS[i]);
        is("open", which, code, COSTORE_DONE);
        if (code != COSTORE_DONE)
            continue;
        is("open: bytes read", which, (int64_t)had, COSTORE_FRONT + (f.reads ? (int64_t)n : 0));
        is("objects", which, has_all(&f), 1);
        is("lengths", which, costore_lengths(&f.store, &log, &now), COSTORE_DONE);
        is("bound of the log", which, log > 100 && log <= most_log(n, NAMES), 1);
        costore_file_close(&f);
        is("settled", which, is_moving("openings"), 0);
        write_file("openings", file_now, length, length + 5000);
        code = costore_file_open(&f, "openings", 0, LOGS[i]);
        is("open, too long", which, code, COSTORE_DONE);
        is("objects", which, code == COSTORE_DONE && has_all(&f), 1);
        costore_file_close(&f);
        is("cut", which, size_of("openings"), (int64_t)now);
    }
    length = n;
}

/* ---- calls of the system that fail, one after another ---- */

static int32_t do_format(costore_file_t *f) {
    unlink("fails");
    return costore_file_format(f, "fails", 9, NAMES, ROOM, LOG);
}

static int32_t do_open(costore_file_t *f) {
    write_file("fails", moving, length, length);
    return costore_file_open(f, "fails", 0, 0);
}

static int32_t do_change(costore_file_t *f) {
    static const uint8_t object[3000];
    uint64_t fails_then = fails;
    fails = 0;
    if (do_open(f) != COSTORE_DONE)
        return COSTORE_DONE;
    costore_file_close(f);
    if (costore_file_open(f, "fails", ROOM, LOG) != COSTORE_DONE)
        return COSTORE_DONE;
    calls = 0, fails = fails_then;
    int32_t code = costore_file_put(f, TEXT("new"), object, sizeof object);
    return code < COSTORE_DONE ? code : costore_file_keep(f);
}

static const struct {
    const char *name;
    int32_t (*does)(costore_file_t *f);
    bool opens;
} FAILING[] = {{"format", do_format, false}, {"open", do_open, true}, {"put and keep", do_change, true}};

static const int CAUSES[] = {EIO, ENOSPC};

/* No call uses a file of which a call has failed. */
static bool is_broken(costore_file_t *f) {
    uint64_t size = 7;
    return costore_file_keep(f) == COSTORE_BROKEN && costore_file_size(f, TEXT("new"), &size) == COSTORE_BROKEN
           && costore_size(&f->store, TEXT("new"), &size) == COSTORE_CLOSED && size == 7;
}

/* The call that fails is answered, and the file is used no more. Closed, it opens, unless it wasn't made yet. */
static bool fails_at(size_t i, uint64_t n) {
    costore_file_t f;
    may_fail = false, calls = 0, fails = n;
    int32_t code = FAILING[i].does(&f);
    bool right = may_fail ? code >= COSTORE_DONE : code == COSTORE_SYSTEM && errno == cause;
    fails = 0;
    right = right && (may_fail || f.fd < 0 || is_broken(&f));
    costore_file_close(&f);
    costore_file_close(&f);
    right = right && costore_file_keep(&f) == COSTORE_BROKEN && !costore_file_in_hand(&f);
    if (right && FAILING[i].opens) {
        right = costore_file_open(&f, "fails", 0, LOG) == COSTORE_DONE && has_all(&f);
        costore_file_close(&f);
    }
    return right;
}

static void failures(void) {
    costore_file_t f;
    for (size_t i = 0; i < COUNT(FAILING); i++) {
        uint64_t all, wrong = 0;
        calls = fails = 0;
        is("no failure", FAILING[i].name, FAILING[i].does(&f) >= COSTORE_DONE, 1);
        costore_file_close(&f);
        all = calls;
        for (size_t c = 0; c < COUNT(CAUSES); c++) {
            cause = CAUSES[c];
            for (uint64_t n = 1; n <= all; n++)
                wrong += !fails_at(i, n);
        }
        is("calls", FAILING[i].name, all > 5, 1);
        is("failures", FAILING[i].name, (int64_t)wrong, 0);
    }
}

/* Each call reads or writes a part of what it is asked for. */
static void pieces(void) {
    costore_file_t f;
    for (size_t i = 0; i < COUNT(FAILING); i++) {
        piece = 1000;
        is("in pieces", FAILING[i].name, FAILING[i].does(&f) >= COSTORE_DONE, 1);
        costore_file_close(&f);
        piece = SIZE_MAX;
        int32_t code = costore_file_open(&f, "fails", ROOM, LOG);
        is("open", FAILING[i].name, code == COSTORE_DONE && (!FAILING[i].opens || has_all(&f)), 1);
        costore_file_close(&f);
    }
}

/* ---- memory and maps that the system refuses ---- */

#if MAPS
static const struct {
    const char *name;
    unsigned refused;
    uint64_t log;
    int unmapped;
    int32_t opened, made;
} REFUSING[] = {
    {"nothing", 0, 0, 0, COSTORE_DONE, COSTORE_DISK},
    {"the file's addresses", 1, LOG, 0, COSTORE_NO_MEMORY, COSTORE_NO_MEMORY},
    {"those of the marks", 2, LOG, 0, COSTORE_NO_MEMORY, COSTORE_NO_MEMORY},
    {"those of a larger log", 4, LOG, 0, COSTORE_DONE, COSTORE_NO_MEMORY},
    {"those of a log that is needed", 4, 0, 0, COSTORE_DISK, COSTORE_NO_MEMORY},
    {"those of any log", 12, LOG, 0, COSTORE_NO_MEMORY, COSTORE_NO_MEMORY},
    {"a map, ENODEV", 0, LOG, ENODEV, COSTORE_DONE, COSTORE_DONE},
    {"a map, EINVAL", 0, LOG, EINVAL, COSTORE_DONE, COSTORE_DONE},
    {"a map, EACCES", 0, LOG, EACCES, COSTORE_DONE, COSTORE_DONE},
    {"a map, ENOMEM", 0, LOG, ENOMEM, COSTORE_SYSTEM, COSTORE_SYSTEM},
};

static void refuse(size_t i) {
    reserves = 0, refused = REFUSING[i].refused, unmapped = REFUSING[i].unmapped;
}

/* What is refused is answered, or the file is read. */
static void refusing(void) {
    costore_file_t f;
    for (size_t i = 0; i < COUNT(REFUSING); i++) {
        const char *name = REFUSING[i].name;
        write_file("refusing", moving, length, length);
        refuse(i);
        int32_t code = costore_file_open(&f, "refusing", ROOM, REFUSING[i].log);
        is("open", name, code, REFUSING[i].opened);
        if (code == COSTORE_DONE) {
            is("objects", name, has_all(&f), 1);
            is("put", name, costore_file_put(&f, TEXT("new"), lent, 3000) >= COSTORE_DONE, 1);
            is("keep", name, costore_file_keep(&f), COSTORE_KEPT);
            is("read whole", name, f.reads, REFUSING[i].unmapped != 0);
        }
        costore_file_close(&f);
        unlink("refusing");
        refuse(i);
        is("format", name, costore_file_format(&f, "refusing", 9, NAMES, ROOM, REFUSING[i].log), REFUSING[i].made);
        costore_file_close(&f);
        refused = 0, unmapped = 0;
        code = costore_file_open(&f, "refusing", ROOM, LOG);
        is("open what was made", name, code == COSTORE_DONE, size_of("refusing") > 0);
        costore_file_close(&f);
    }
}
#else
static void refusing(void) {}
#endif

/* ---- files whose name leads elsewhere ---- */

static const struct {
    const char *name, *opened, *from, *to, *after;
    int32_t code;
} NAMED[] = {
    {"the name stays", "in/file", NULL, NULL, "in/file", COSTORE_KEPT},
    {"a link", "link", NULL, NULL, "link", COSTORE_KEPT},
    {"removed", "in/file", "in/file", NULL, NULL, COSTORE_GONE},
    {"renamed", "in/file", "in/file", "in/other", "in/other", COSTORE_GONE},
    {"replaced", "in/file", "in/new", "in/file", NULL, COSTORE_GONE},
    {"its folder renamed", "in/file", "in", "out", "out/file", COSTORE_GONE},
    {"a link to another file", "link", "other", "link", "in/file", COSTORE_GONE},
};

static void names(void) {
    costore_file_t f;
    uint64_t size = 0;
    for (size_t i = 0; i < COUNT(NAMED); i++) {
        const char *name = NAMED[i].name, *from = NAMED[i].from, *to = NAMED[i].to;
        is("folder", name, mkdir(name, 0777) || chdir(name) || mkdir("in", 0777), 0);
        is("links", name, symlink("in/file", "link") || symlink("in/new", "other"), 0);
        write_file("in/new", NULL, 0, 100);
        is("format", name, costore_file_format(&f, "in/file", 9, NAMES, ROOM, LOG), COSTORE_DONE);
        is("put", name, costore_file_put(&f, TEXT("a"), TEXT("one")), COSTORE_KEPT);
        costore_file_close(&f);
        is("open", name, costore_file_open(&f, NAMED[i].opened, ROOM, LOG), COSTORE_DONE);
        if (from)
            is("rename", name, to ? rename(from, to) : unlink(from), 0);
        is("another folder", name, chdir("/tmp"), 0);
        is("keep", name, costore_file_keep(&f), NAMED[i].code);
        is("keep again", name, costore_file_keep(&f), from ? COSTORE_BROKEN : COSTORE_KEPT);
        costore_file_close(&f);
        is("back", name, chdir(here) || chdir(name), 0);
        if (NAMED[i].after) {
            is("open after", name, costore_file_open(&f, NAMED[i].after, ROOM, LOG), COSTORE_DONE);
            is("size", name, costore_file_size(&f, TEXT("a"), &size), COSTORE_DONE);
            costore_file_close(&f);
        }
        is("folder above", name, chdir(".."), 0);
    }
}

/* The number that a file gets which is opened now. */
static int next_number(void) {
    int fd = open("/dev/null", O_RDONLY);
    close(fd);
    return fd;
}

int main(int argc, char **argv) {
    int number_before = next_number();
    if (argc != 2 || chdir(argv[1]) || mkdir("opened", 0777) || chdir("opened") || !getcwd(here, sizeof here))
        return 2;
    alarm(300);
    places();
    refusals();
    make_moving();
    interrupted();
    failures();
    pieces();
    refusing();
    names();
    is("rename", "openings", rename("openings", "../openings"), 0);
    is("files that stay open", "all", next_number(), number_before);
    return counted();
}
