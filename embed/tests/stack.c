/* Measures how much of a thread's stack the library and costore_file.c use: stack FILE. The calls of functions.c and
   drawn changes run in a thread with 192 KiB of stack. It is filled before, and afterwards shows what was written. */
#define main try_functions
#include "functions.c"
#undef main

#include <pthread.h>

enum { STACK = 192 << 10, MARK = 0xa5, NAMES = 1024, CHANGES = 6000 };

static char *arguments[3];

/* Puts and removes objects of drawn names and sizes. */
static void change_drawn(costore_file_t *f) {
    static uint8_t object[2000], list[85 * NAMES];
    char name[16];
    unsigned state = 1;
    uint64_t size;
    for (int i = 0; i < CHANGES; i++) {
        state = state * 1664525u + 1013904223u;
        size_t n = (size_t)snprintf(name, sizeof name, "n%u", (state >> 8) % (NAMES + 100));
        int32_t code = i % 3 == 2 ? costore_file_del(f, (uint8_t *)name, n)
                                  : costore_file_put(f, (uint8_t *)name, n, object, (state >> 12) % sizeof object);
        if (code < COSTORE_DONE && code != COSTORE_MISSING && code != COSTORE_FULL)
            is("drawn change", code, COSTORE_DONE);
    }
    is("list of all", costore_file_list(f, list, sizeof list, &size), COSTORE_DONE);
}

static void *run(void *with) {
    costore_file_t f;
    (void)with;
    try_functions(2, arguments);
    unlink(arguments[1]);
    is("format", costore_file_format(&f, arguments[1], 9, NAMES, 1 << 24, 1 << 24), COSTORE_DONE);
    change_drawn(&f);
    costore_file_close(&f);
    is("open", costore_file_open(&f, arguments[1], 1 << 24, 1 << 24), COSTORE_DONE);
    costore_file_close(&f);
    return NULL;
}

int main(int argc, char **argv) {
    pthread_attr_t how;
    pthread_t thread;
    void *stack;
    size_t left = 0;
    if (argc != 2 || posix_memalign(&stack, 4096, STACK))
        return 2;
    arguments[0] = argv[0], arguments[1] = argv[1];
    memset(stack, MARK, STACK);
    pthread_attr_init(&how);
    is("stack", pthread_attr_setstack(&how, stack, STACK), 0);
    is("thread", pthread_create(&thread, &how, run, NULL), 0);
    pthread_join(thread, NULL);
    while (left < STACK && ((uint8_t *)stack)[left] == MARK)
        left++;
    is("stack left", left > STACK / 4, 1);
    printf("stack: %zu bytes\n", STACK - left);
    printf("%d passed, %d failed\n", passed, failed);
    return failed != 0;
}
