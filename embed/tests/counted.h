/* What the tests of the library share: each compared number is a case that passes or fails. */
#ifndef COUNTED_H
#define COUNTED_H

#include <stdint.h>
#include <stdio.h>
#include <string.h>

#define TEXT(text) (const uint8_t *)(text), strlen(text)
#define COUNT(table) (sizeof(table) / sizeof *(table))

static int passed, failed;

/* Compares two numbers: what was called, and with what. */
static void is(const char *what, const char *which, int64_t found, int64_t wanted) {
    if (found == wanted) {
        passed++;
    } else {
        failed++;
        printf("failed: %s, %s: %lld, not %lld\n", what, which, (long long)found, (long long)wanted);
    }
}

/* Prints the last line, and answers the status of the program. */
static int counted(void) {
    printf("%d passed, %d failed\n", passed, failed);
    return failed != 0;
}

#endif
