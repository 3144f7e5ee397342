/* Makes a store, puts objects, keeps one of them, and reads both again: example FILE. */
#include "costore_file.h"

#include <stdio.h>
#include <string.h>

#define TEXT(text) (const uint8_t *)(text), strlen(text)

int main(int argc, char **argv) {
    costore_file_t f;
    uint8_t out[256];
    uint64_t size = 0;
    if (argc != 2)
        return 2;
    if (costore_file_format(&f, argv[1], 9, 1024, 1 << 22, 1 << 20) < 0)
        return 1;
    printf("put %d\n", costore_file_put(&f, TEXT("hello"), TEXT("world, a first object")));
    printf("keep %d\n", costore_file_keep(&f));
    printf("put %d\n", costore_file_put(&f, TEXT("gone"), TEXT("x")));
    costore_file_close(&f);

    if (costore_file_open(&f, argv[1], 1 << 22, 1 << 20) < 0)
        return 1;
    if (costore_file_get(&f, TEXT("hello"), out, sizeof out, &size) == COSTORE_DONE)
        printf("hello %.*s\n", (int)size, (const char *)out);
    printf("gone %d\n", costore_file_get(&f, TEXT("gone"), out, sizeof out, &size));
    costore_file_close(&f);
    return 0;
}
