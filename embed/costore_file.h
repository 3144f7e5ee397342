/* An engine's side of costore on a POSIX system. It opens, locks and maps a file, and replays on it the log of each
   call of the library. Use it as it is, or as a pattern for an engine that keeps its files elsewhere. costore.h has the
   answers, what each call does, and the words checkpoint, flush, region, room and log.

   On Linux the file is mapped privately at the start of its region. So its pages are read as they are needed, and the
   system drops them as it likes. What the library writes there takes memory of the process, until that is given back
   after a replay. Where the system maps no files, or not this one, or where COSTORE_FILE_READS is defined, the file is
   read into memory as a whole and stays there; all else is the same. */
#ifndef COSTORE_FILE_H
#define COSTORE_FILE_H

#include "costore.h"

/* What the library wrote is given back once it takes so many bytes. With fewer a large file is changed more slowly. */
#ifndef COSTORE_PENDING_PAGES
#define COSTORE_PENDING_PAGES ((uint64_t)64 << 20)
#endif

#ifdef __cplusplus
extern "C" {
#endif

/* A call of the system failed: errno has the cause. Close the file and open it again. */
#define COSTORE_SYSTEM (-100)
/* Another process, or another open of this one, has the file. */
#define COSTORE_LOCKED (-101)
/* The name is that of a folder, a pipe, a socket or a device. Nothing was opened. */
#define COSTORE_NOT_A_FILE (-102)
/* After a sync the name no longer led to the file: it was removed or renamed, or another file has its name. The file
   itself has all that was replayed. Close it; where it was renamed, it opens by its new name. */
#define COSTORE_GONE (-103)

/* An open file. The fields are its own, except for `before`, which a test can set: it is called before each call of the
   system in a replay, and in what makes the region show the file again. `store` can be passed to the calls of costore.h
   that take a const handle.

   Calls that take an open file as const may run at the same time as each other, also on one file. Any other call needs
   the file for itself, as costore.h says of a handle. */
typedef struct costore_file_t {
    costore store;
    int fd;
    bool failed, reads;              /* it's used no more; it's in memory, not mapped */
    char *path;
    costore_region file;             /* pages of the file, and memory */
    costore_region log;
    uint64_t length, mapped;         /* how many bytes the file has, and how many of them are mapped */
    costore_region marks;            /* a bit for each page of `file` that may have bytes of its own */
    struct costore_touched *touched; /* what else is known of these */
    void (*before)(void *with);
    void *with;
} costore_file_t;

/* Opens the store in a file.

   path: a regular file. A relative path is taken from the folder that is current now, also for later looks at the name.
   room: the most bytes that the file may have; at least its present length is taken.
   log:  the most bytes that one call may log. The opening of a file that was interrupted within a flush finishes the
         flush, and may log far more. So as many are taken as that can need, but no more than half of the machine's
         memory, if that is more than was asked for and the system doesn't refuse it.

   Room and log are addresses, which take memory as they are written.

   COSTORE_DONE, or else the file is closed and *f can be dropped: COSTORE_SYSTEM; COSTORE_LOCKED; COSTORE_NOT_A_FILE;
   COSTORE_NO_STORE (at once where the first 64 bytes aren't those of a store); COSTORE_NO_MEMORY; COSTORE_GONE;
   COSTORE_DISK (the log is too small to finish the flush: nothing was changed; ask for a larger one). */
int32_t costore_file_open(costore_file_t *f, const char *path, uint64_t room, uint64_t log);

/* Makes a store without names in a file that isn't there, or is there and empty, and opens it.

   k, names: as of costore_format.
   room, log: the most bytes of the file, and of a log; costore_need computes them.

   COSTORE_DONE, or else the file is closed: COSTORE_BAD_NUMBER; COSTORE_NOT_NEW (the file has bytes); COSTORE_NO_ROOM
   (for the head); COSTORE_DISK (the log is too small, or the room for the objects of a dump); COSTORE_NO_MEMORY;
   COSTORE_SYSTEM; COSTORE_LOCKED; COSTORE_NOT_A_FILE; COSTORE_GONE.

   Where the library refuses, no file is made. After COSTORE_SYSTEM and COSTORE_GONE a new file can be left, empty or
   partly written: cut it to length 0, or remove it, before the next try. */
int32_t costore_file_format(costore_file_t *f, const char *path, uint64_t k, uint64_t names, uint64_t room,
                            uint64_t log);

/* The same for a store that has the objects of a dump. Its log has the text once more, 17 bytes for each object and for
   each 65,536 bytes of one, and a save. Beside the answers above: COSTORE_LINE and COSTORE_MORE_NAMES, and then *number
   is written, as costore_load does. */
int32_t costore_file_load(costore_file_t *f, const char *path, const uint8_t *text, size_t n, uint64_t k,
                          uint64_t names, uint64_t room, uint64_t log, uint64_t *number);

/* Closes the file. It saves nothing: what was changed since the last saved checkpoint is lost. After it, and after an
   opening that failed, all calls below answer COSTORE_BROKEN. */
void costore_file_close(costore_file_t *f);

/* ---- changes ----

   Each makes the call of the library and replays its log. At COSTORE_DONE and above the log was replayed, and at
   COSTORE_KEPT the present state is durable. Beside the library's answers: COSTORE_SYSTEM and COSTORE_GONE. After one
   of these two the store is closed, and all calls below answer COSTORE_BROKEN. */

/* As costore_put and costore_del. These can flush, and a flush saves checkpoints. COSTORE_NO_ROOM says that `room` of
   the opening is too small: nothing was changed. */
int32_t costore_file_put(costore_file_t *f, const uint8_t *name, size_t n, const uint8_t *object, size_t m);
int32_t costore_file_del(costore_file_t *f, const uint8_t *name, size_t n);

/* The same by steps, as costore_begin_put, costore_begin_del and costore_step. COSTORE_NO_ROOM comes of a begin, and
   of no step. */
int32_t costore_file_begin_put(costore_file_t *f, const uint8_t *name, size_t n, const uint8_t *object, size_t m);
int32_t costore_file_begin_del(costore_file_t *f, const uint8_t *name, size_t n);
int32_t costore_file_step(costore_file_t *f);

/* As costore_keep and costore_upgrade. */
int32_t costore_file_keep(costore_file_t *f);
int32_t costore_file_upgrade(costore_file_t *f);

/* Does the puts and removals of a text as one, as costore_batch does. A batch that an interruption has left in the file
   is finished first. The log must hold the text, each object, and a flush for each request that needs one: more than
   costore_need says (EMBED.md, "Caveats"). */
int32_t costore_file_batch(costore_file_t *f, const uint8_t *text, size_t n, uint64_t *number);

/* Finishes a batch that an interruption has left, as costore_finish does: COSTORE_DONE where there is none. It takes
   memory for the text of the batch meanwhile: COSTORE_NO_MEMORY, and nothing was changed. */
int32_t costore_file_finish(costore_file_t *f, uint64_t *number);

/* Goes back to the last checkpoint, as costore_back. */
int32_t costore_file_back(costore_file_t *f);

/* ---- reads ----

   Each answers as the call of the library does that has its name without `_file`. */
bool costore_file_in_hand(const costore_file_t *f);
int32_t costore_file_size(const costore_file_t *f, const uint8_t *name, size_t n, uint64_t *size);
int32_t costore_file_position(const costore_file_t *f, const uint8_t *name, size_t n, uint64_t *at, uint64_t *size);
int32_t costore_file_get(const costore_file_t *f, const uint8_t *name, size_t n, uint8_t *out, size_t m,
                         uint64_t *size);
int32_t costore_file_old(const costore_file_t *f, const uint8_t *name, size_t n, uint8_t *out, size_t m,
                         uint64_t *size);
int32_t costore_file_read(const costore_file_t *f, const uint8_t *name, size_t n, uint64_t from, uint8_t *out,
                          size_t m, uint64_t *size);
int32_t costore_file_next(const costore_file_t *f, const uint8_t *above, size_t n, uint8_t *out, size_t m,
                          uint64_t *length, uint64_t *size);
int32_t costore_file_list(const costore_file_t *f, uint8_t *out, size_t m, uint64_t *size);
int32_t costore_file_stat(const costore_file_t *f, costore_counts *counts);
int32_t costore_file_info(const costore_file_t *f, costore_facts *facts);
int32_t costore_file_check(const costore_file_t *f, costore_fault *fault);
int32_t costore_file_dump(const costore_file_t *f, uint8_t *out, size_t m, uint64_t *size);

/* Writes where in memory the bytes of an object begin, and how many they are. They are there until the next call on
   this file that isn't a read. Nobody may write there, and their digest isn't compared: costore_file_get does that.

   COSTORE_DONE; COSTORE_BROKEN; COSTORE_BAD_NAME; COSTORE_MISSING. */
int32_t costore_file_look(const costore_file_t *f, const uint8_t *name, size_t n, const uint8_t **bytes,
                          uint64_t *size);

/* Copies m bytes of the file, from a position on, as costore_file does. */
int32_t costore_file_bytes(const costore_file_t *f, uint64_t at, uint8_t *out, size_t m);

#ifdef __cplusplus
}
#endif

#endif
