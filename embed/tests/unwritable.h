/* Memory for tests that can be made unwritable. All that is taken of malloc comes from one block, unless it is shut:
   then it comes from elsewhere. Programs are linked with --wrap for malloc, calloc, realloc, free and strdup. */
#ifndef UNWRITABLE_H
#define UNWRITABLE_H

#include <signal.h>
#include <stdatomic.h>
#include <stdbool.h>
#include <stdint.h>
#include <stdlib.h>
#include <string.h>
#include <sys/mman.h>
#include <sys/resource.h>
#include <sys/wait.h>
#include <unistd.h>

enum { BLOCK = 1 << 27 };

/* The block, how many bytes of it are taken, and whether it is shut. */
static uint8_t *block;
static size_t used;
static bool shut;

/* How often memory was taken while it was shut, and how often that was given back. */
static atomic_int taken, given;

void *__real_malloc(size_t n);
void *__real_realloc(void *at, size_t n);
void __real_free(void *at);
void *__wrap_malloc(size_t n);
void *__wrap_calloc(size_t n, size_t size);
void *__wrap_realloc(void *at, size_t n);
void __wrap_free(void *at);
char *__wrap_strdup(const char *text);

/* Comes before all that takes memory. */
static bool take_block(void) {
    block = mmap(NULL, BLOCK, PROT_READ | PROT_WRITE, MAP_PRIVATE | MAP_ANONYMOUS | MAP_NORESERVE, -1, 0);
    return block != MAP_FAILED;
}

static bool is_within(const void *at) { return (uintptr_t)at - (uintptr_t)block < BLOCK; }

/* Before each piece of the block is its length. No piece is taken twice, so all are zeros at first. */
void *__wrap_malloc(size_t n) {
    uint8_t *piece = block + used + 16;
    taken += shut;
    if (shut)
        return __real_malloc(n);
    if (n > BLOCK || n + 32 > BLOCK - used)
        return NULL;
    memcpy(piece - 16, &n, sizeof n);
    used += 16 + (n + 15) / 16 * 16;
    return piece;
}

void *__wrap_calloc(size_t n, size_t size) {
    void *at = __wrap_malloc(n * size);
    return at ? memset(at, 0, n * size) : NULL;
}

void *__wrap_realloc(void *at, size_t n) {
    size_t had;
    if (!at || !is_within(at))
        return at ? __real_realloc(at, n) : __wrap_malloc(n);
    memcpy(&had, (uint8_t *)at - 16, sizeof had);
    void *to = __wrap_malloc(n);
    if (to)
        memcpy(to, at, had < n ? had : n), __wrap_free(at);
    return to;
}

/* While the block is shut no piece of it is given back: that ends the program. */
void __wrap_free(void *at) {
    if (is_within(at) && shut)
        abort();
    if (is_within(at))
        return;
    given += shut && at;
    __real_free(at);
}

char *__wrap_strdup(const char *text) {
    char *copy = __wrap_malloc(strlen(text) + 1);
    return copy ? strcpy(copy, text) : NULL;
}

/* By which signal a process ends that writes one byte; or 0. */
static int written(volatile uint8_t *at) {
    int status = -1;
    pid_t child = fork();
    if (child == 0) {
        setrlimit(RLIMIT_CORE, &(struct rlimit){0, 0});
        signal(SIGSEGV, SIG_DFL);
        *at = (uint8_t)(*at + 1);
        _exit(0);
    }
    return waitpid(child, &status, 0) == child && WIFSIGNALED(status) ? WTERMSIG(status) : status;
}

#endif
