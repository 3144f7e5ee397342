/* Applies batches that are killed within a replay, and opens each file again: batches FOLDER RUNS. Once the batch that
   an interruption has left is finished, all objects are of one batch: the last that was acknowledged, or the one that
   was under way. The file is then dumped and loaded into another one, whose dump is the same. */
#define _GNU_SOURCE
#include "costore_file.h"

#include <signal.h>
#include <stdio.h>
#include <stdlib.h>
#include <string.h>
#include <sys/wait.h>
#include <unistd.h>

enum { NAMES = 9, MOST = 2500, BATCHES = 60, ROOM = 1 << 22, LOG = 1 << 21 };

static uint8_t text[NAMES * (MOST + 100)], first[sizeof text + 512], second[sizeof first];

/* Each third batch removes the names that are odd, and each other one puts all. */
static int is_there(int batch, int which) {
    return batch >= 0 && !(batch % 3 == 2 && which % 2 == 1);
}

/* The object of a name after a batch: its size, and the bytes. */
static size_t object_of(int batch, int which, uint8_t *out) {
    unsigned state = (unsigned)batch * 7919u + (unsigned)which * 104729u + 1;
    size_t size = (state * 1664525u >> 7) % MOST;
    for (size_t i = 0; i < size; i++)
        out[i] = (uint8_t)((unsigned)batch + (unsigned)which * 31u + i);
    return size;
}

static size_t batch_text(int batch) {
    size_t n = 0;
    for (int i = 0; i < NAMES; i++) {
        uint8_t object[MOST];
        if (!is_there(batch, i)) {
            n += (size_t)sprintf((char *)text + n, "del n%d\n", i);
            continue;
        }
        size_t size = object_of(batch, i, object);
        n += (size_t)sprintf((char *)text + n, "put n%d %zu\n", i, size);
        memcpy(text + n, object, size);
        text[n + size] = '\n';
        n += size + 1;
    }
    return n;
}

static int moments, last_moment;

static void tick(void *with) {
    (void)with;
    if (++moments >= last_moment)
        kill(getpid(), SIGKILL);
}

static int same(costore_file_t *f, int batch) {
    uint8_t object[MOST], out[MOST], name[16];
    uint64_t size;
    for (int i = 0; i < NAMES; i++) {
        size_t n = (size_t)sprintf((char *)name, "n%d", i);
        int32_t code = costore_file_get(f, name, n, out, sizeof out, &size);
        if (!is_there(batch, i)) {
            if (code != COSTORE_MISSING)
                return 0;
            continue;
        }
        size_t wanted = object_of(batch, i, object);
        if (code != COSTORE_DONE || size != wanted || memcmp(out, object, wanted))
            return 0;
    }
    return 1;
}

/* A dump of the file, and that of a file that was loaded from it. */
static const char *dumps(costore_file_t *f, const char *path) {
    costore_file_t other;
    uint64_t n = 0, m = 0, number = 77;
    if (costore_file_dump(f, first, sizeof first, &n) != COSTORE_DONE)
        return "dump";
    unlink(path);
    if (costore_file_load(&other, path, first, n, 5, 32, ROOM, LOG, &number) != COSTORE_DONE)
        return "load";
    int32_t code = costore_file_dump(&other, second, sizeof second, &m);
    costore_file_close(&other);
    if (code != COSTORE_DONE || m != n || memcmp(first, second, n))
        return "another dump";
    if (costore_file_open(&other, path, ROOM, LOG) != COSTORE_DONE)
        return "the loaded file doesn't open";
    costore_file_close(&other);
    return NULL;
}

static int pending;

/* One run: a child applies batches, reports each, and is killed. */
static const char *try(const char *path, const char *loaded, unsigned run) {
    costore_file_t f;
    int ends[2], said, done = -1, status;
    uint64_t number = 0, size;
    unlink(path);
    if (costore_file_format(&f, path, 9, 64, ROOM, LOG) != COSTORE_DONE)
        return "format";
    costore_file_close(&f);
    last_moment = 1 + (int)((run * 2654435761u >> 9) % 4000);
    if (pipe(ends))
        return "pipe";
    pid_t child = fork();
    if (child == 0) {
        if (costore_file_open(&f, path, ROOM, LOG) != COSTORE_DONE)
            _exit(1);
        f.before = tick;
        for (said = 0; said < BATCHES; said++)
            if (costore_file_batch(&f, text, batch_text(said), &number) != COSTORE_KEPT
                || write(ends[1], &said, sizeof said) != sizeof said)
                _exit(1);
        _exit(0);
    }
    close(ends[1]);
    while (read(ends[0], &said, sizeof said) == sizeof said)
        done = said;
    close(ends[0]);
    waitpid(child, &status, 0);
    if (WIFEXITED(status) && WEXITSTATUS(status) != 0)
        return "a batch was refused";
    if (costore_file_open(&f, path, ROOM, LOG) != COSTORE_DONE)
        return "the file doesn't open";
    if (costore_file_size(&f, (const uint8_t *)COSTORE_BATCH, 6, &size) == COSTORE_DONE) {
        pending++;
        if (costore_batch(&f.store, text, 0, &number) != COSTORE_PENDING)
            return "a batch isn't reported as pending";
    }
    if (costore_file_finish(&f, &number) < COSTORE_DONE)
        return "finish";
    const char *wrong = same(&f, done) || (done + 1 < BATCHES && same(&f, done + 1)) ? NULL
                                                                                              : "another map";
    if (!wrong)
        wrong = dumps(&f, loaded);
    if (!wrong && costore_file_batch(&f, text, batch_text(0), &number) != COSTORE_KEPT)
        wrong = "it can't go on";
    costore_file_close(&f);
    return wrong;
}

int main(int argc, char **argv) {
    int passed = 0, failed = 0;
    char path[4096], loaded[4096];
    if (argc != 3)
        return 2;
    snprintf(path, sizeof path, "%s/batches", argv[1]);
    snprintf(loaded, sizeof loaded, "%s/loaded", argv[1]);
    for (int run = 0; run < atoi(argv[2]); run++) {
        const char *wrong = try(path, loaded, (unsigned)run);
        if (!wrong) {
            passed++;
        } else {
            failed++;
            printf("batches: failed: run %d: %s\n", run, wrong);
        }
    }
    /* Some of a hundred kills leave a batch that is kept. */
    if (atoi(argv[2]) >= 100 && pending == 0) {
        failed++;
        printf("batches: failed: no batch was left\n");
    }
    printf("%d passed, %d failed\n", passed, failed);
    return failed != 0;
}
