/* The calls of the system that costore_file.c makes on its file and its memory, for tests. They go through the
   functions below, which count them and fail the one that is asked for. Pages are given back after each log. */
#ifndef CALLS_H
#define CALLS_H

#include <errno.h>
#include <stdbool.h>
#include <stdint.h>
#include <sys/mman.h>
#include <unistd.h>

/* How many calls were made, which of them fails (none at 0) and with what, and whether that one may fail: if what pages
   have isn't given back, nothing is wrong. */
static uint64_t calls, fails;
static int cause = EIO;
static bool may_fail;

/* How many bytes were read, and how many one call reads or writes at most. From the call `ends` on (none at 0) nothing
   is read any more, as if the file ended there. */
static uint64_t had, reads, ends;
static size_t piece = SIZE_MAX;

static bool falls(void) {
    if (++calls != fails)
        return false;
    errno = cause;
    return true;
}

static ssize_t try_pread(int fd, void *out, size_t n, off_t at) {
    if (++reads >= ends && ends > 0)
        return 0;
    ssize_t done = falls() ? -1 : pread(fd, out, n < piece ? n : piece, at);
    had += done > 0 ? (uint64_t)done : 0;
    return done;
}

static ssize_t try_pwrite(int fd, const void *bytes, size_t n, off_t at) {
    return falls() ? -1 : pwrite(fd, bytes, n < piece ? n : piece, at);
}

static int try_ftruncate(int fd, off_t n) { return falls() ? -1 : ftruncate(fd, n); }
static int try_fsync(int fd) { return falls() ? -1 : fsync(fd); }
static int try_fdatasync(int fd) { return falls() ? -1 : fdatasync(fd); }

#ifndef COSTORE_FILE_READS
/* How often addresses were reserved, which of the first times that is refused (a bit for each), and with what the
   system doesn't map the file (0 if it does). */
static unsigned reserves, refused;
static int unmapped;

static void *try_mmap(void *at, size_t n, int prot, int how, int fd, off_t from) {
    if (how & MAP_FIXED && falls())
        return MAP_FAILED;
    errno = fd >= 0 ? unmapped : 0;
    if (!(how & MAP_FIXED) && reserves < 8 && refused >> reserves++ & 1)
        errno = ENOMEM;
    return errno ? MAP_FAILED : mmap(at, n, prot, how, fd, from);
}

static int try_madvise(void *at, size_t n, int how) {
    if (!falls())
        return madvise(at, n, how);
    may_fail = true;
    return -1;
}
#endif

#define pread try_pread
#define pwrite try_pwrite
#define ftruncate try_ftruncate
#define fsync try_fsync
#define fdatasync try_fdatasync
#define mmap try_mmap
#define madvise try_madvise
#define COSTORE_PENDING_PAGES 1
#include "costore_file.c"

#endif
