/* Writes blocks through the layer that docs/EMBED.md shows, and reads them again: blocks FILE. check/library cuts
   blocks.h out of that page. */
#include "blocks.h"

#include <string.h>

enum { BLOCKS = 50, SIZE = 4096, VOLUME = 1 << 20 };

static int passed, failed;

static void is(const char *what, uint64_t block, int64_t found, int64_t wanted) {
    if (found == wanted) {
        passed++;
    } else {
        failed++;
        printf("blocks: failed: %s of %llu: %lld\n", what, (unsigned long long)block, (long long)found);
    }
}

/* The bytes of a block as they are after so many rounds. */
static void fill(uint8_t *bytes, uint64_t block, int round) {
    memset(bytes, (int)(block * 7 + (uint64_t)round), SIZE);
}

static void write_all(blocks *b, int round) {
    uint8_t bytes[SIZE];
    for (uint64_t block = 0; block < BLOCKS; block++) {
        fill(bytes, block, round);
        is("write", block, blocks_write(b, block, bytes, SIZE - (size_t)round) >= COSTORE_DONE, 1);
    }
}

static void read_all(blocks *b, int round) {
    uint8_t bytes[SIZE], out[SIZE];
    uint64_t size;
    for (uint64_t block = 0; block < BLOCKS; block++) {
        fill(bytes, block, round);
        is("read", block, blocks_read(b, block, out, SIZE, &size), COSTORE_DONE);
        is("size", block, (int64_t)size, SIZE - round);
        is("bytes", block, memcmp(out, bytes, size), 0);
    }
    is("read, missing", UINT64_MAX, blocks_read(b, UINT64_MAX, out, SIZE, &size), COSTORE_MISSING);
}

int main(int argc, char **argv) {
    blocks b;
    if (argc != 2)
        return 2;
    is("format", 0, costore_file_format(&b.file, argv[1], 9, 1024, 1 << 20, 1 << 20), COSTORE_DONE);
    blocks_close(&b);
    is("open", 0, blocks_open(&b, argv[1], VOLUME, SIZE), COSTORE_DONE);
    for (int round = 0; round < 3; round++) {
        write_all(&b, round);
        read_all(&b, round);
    }
    is("commit", 0, blocks_commit(&b), COSTORE_KEPT);
    blocks_close(&b);
    is("open again", 0, blocks_open(&b, argv[1], VOLUME, SIZE), COSTORE_DONE);
    read_all(&b, 2);
    blocks_close(&b);
    printf("%d passed, %d failed\n", passed, failed);
    return failed != 0;
}
