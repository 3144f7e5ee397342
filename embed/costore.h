/* costore: a store of named objects in one file, as a library.

   It makes no call of the system; it asks for malloc, realloc and free, memcpy, memmove and memset. A handle works over
   memory that the program lends: one region has the file's bytes, as a private mapping of the file has them; the other
   is for the log. After a call, the log lists what the program must change in the file before its next call on the
   handle. costore_file.h and costore_file.c do that on a POSIX system. The order of the calls:

       costore_new(file, length, log, &store);           lends the two regions
       costore_open(&store);                             the store in the file (or costore_format: a new one)
       costore_put(&store, name, n, object, m);          a change: also costore_del, costore_keep, ..
       costore_lengths(&store, &used, &length);          replay the first `used` bytes of log.at on the file; then the
                                                         next change
       costore_free(&store);                             the regions are the program's again

   Words used here:

   checkpoint   the state of all objects to which a crash returns. costore_keep saves one, and so does each flush.
   flush        moving objects so that the file keeps its bound; not a flush of memory to the device.
   in hand      a flush that costore_step makes one move at a time, begun and not yet settled.
   region       memory that the program lends to a handle: a pointer and a count of bytes.
   room         the most bytes that the file can have while the handle is in use: as many as its region has.
   log          the changes to the file that one call asks for, in order. To replay it is to make them.
   K, NAMES     numbers fixed when the file is made: a segment of v bytes has a buffer of v / K bytes, and at most
                NAMES objects can be live.

   EMBED.md (installed in share/doc/costore) has the rest: what is proved, what the program owes, what a crash leaves,
   and the caveats. */
#ifndef COSTORE_H
#define COSTORE_H

#include <stdbool.h>
#include <stddef.h>
#include <stdint.h>

#ifdef __cplusplus
extern "C" {
#endif

/* ---- version and limits ---- */

/* The version of this header: 10,000 times its first number, 100 times its second, and its third. */
#define COSTORE_VERSION "0.1.0"
#define COSTORE_VERSION_NUMBER 100

#define COSTORE_NAME_MOST 63         /* bytes of a name, which has at least one */
#define COSTORE_OBJECT_MOST 67108864 /* bytes of an object */
#define COSTORE_K_LEAST 2
#define COSTORE_K_MOST 64
#define COSTORE_NAMES_LEAST 16
#define COSTORE_NAMES_MOST 65536
#define COSTORE_LINE_MOST 85         /* bytes of a line of costore_list */
#define COSTORE_FRONT 64             /* bytes at the start of a file that costore_shape_of reads */

/* The number of the library that is linked, as COSTORE_VERSION_NUMBER. */
uint32_t costore_version(void);

/* ---- handles and answers ---- */

/* A handle: one that has a file and no store yet, or one open store, or closed. Only costore_new and costore_free write
   `at`. No pointer that is passed to a call is null, also where it stands for 0 bytes.

   Calls that take a handle as const write nothing to it, and may run at the same time as each other, also on one
   handle. Any other call needs the handle for itself, until its log is replayed. So threads take a lock for readers and
   a writer: calls that take the handle as const under its shared side, all else alone. What a call writes to through
   its other parameters must be distinct from all that the calls beside it are passed. */
typedef struct costore {
    void *at;
} costore;

/* Answers. At and above 0 the call was done. Below 0 nothing must be replayed, and an open store is as it was, except
   after COSTORE_DISK. Every call on a handle can answer COSTORE_CLOSED, except costore_open, costore_format,
   costore_load and costore_in_hand; below it is listed for costore_close and costore_check alone. */
enum {
    COSTORE_DONE = 0,        /* done; no checkpoint was saved */
    COSTORE_KEPT = 1,        /* done, and a checkpoint of the present state was saved */
    COSTORE_IN_HAND = 2,     /* begun: the flush is in hand; call costore_step */
    COSTORE_MOVED = 3,       /* one object was moved; the flush is still in hand */
    COSTORE_CLOSED = -1,     /* the handle has no open store */
    COSTORE_BROKEN = -2,     /* a changing call answered COSTORE_DISK before: close, and open the file again */
    COSTORE_BAD_NAME = -3,   /* the name isn't 1 to 63 bytes from 0x21 to 0x7e */
    COSTORE_TOO_LONG = -4,   /* the object has more than 67,108,864 bytes */
    COSTORE_MISSING = -5,    /* no object has this name */
    COSTORE_FULL = -6,       /* as many names are live as there can be: NAMES, or 5 of 7 in a file with digests */
    COSTORE_WORN = -7,       /* the file was saved too often, 2^61 times */
    COSTORE_DISK = -8,       /* the log was too small, or the room of a batch: the store is broken, for reads too */
    COSTORE_SHORT = -9,      /* the bytes don't fit where they are to go, or there are fewer than asked for */
    COSTORE_NO_MEMORY = -10, /* malloc gave no memory */
    COSTORE_TOO_MANY = -11,  /* more names are live than a file with digests can have */
    COSTORE_DAMAGED = -12,   /* the object's bytes have another digest than those that were put */
    COSTORE_BUSY = -13,      /* a flush is in hand, and this call must wait for its end */
    COSTORE_IDLE = -14,      /* no flush is in hand */
    COSTORE_NO_STORE = -15,  /* the file is no store, or a damaged one */
    COSTORE_BAD_NUMBER = -16,/* a number is out of its range */
    COSTORE_NOT_NEW = -17,   /* the handle has a store already or is closed, or its file isn't empty */
    COSTORE_LINE = -18,      /* the text is not a batch, or not a dump */
    COSTORE_UNFIT = -19,     /* the batch removes a name that isn't there, or leaves no room for the name !batch */
    COSTORE_NO_BATCH = -20,  /* the object COSTORE_BATCH is not a batch */
    COSTORE_PENDING = -21,   /* the file keeps an unfinished batch: costore_finish comes first */
    COSTORE_MORE_NAMES = -22,/* the dump has more objects than the store is to have names */
    COSTORE_NO_ROOM = -23    /* the room is too small for so many bytes of objects, or for the head of a new file */
    /* -100 to -103 are answers of costore_file.h */
};

/* A word for an answer, which stays the same: COSTORE_MISSING is "missing", COSTORE_NO_ROOM "no-room". It has letters
   and hyphens, and each answer has a word of its own, those of costore_file.h too. For any other number it is "other".
   It is never null. */
const char *costore_word(int32_t code);

/* ---- opening and closing ---- */

/* What the first bytes of a file say: K and NAMES as of costore_format, and how many bytes stand before the objects.
   The file has at least so many. */
typedef struct costore_shape {
    uint64_t k, names, head;
} costore_shape;

/* Reads the first n bytes of a file, of which COSTORE_FRONT are enough. It needs no handle and no memory: so a program
   knows before it takes any whether the file is a store, and what costore_need wants to know.

   COSTORE_DONE; COSTORE_SHORT (n is less than COSTORE_FRONT) and COSTORE_NO_STORE, and nothing is written. The rest of
   the file can still be damaged: costore_open and costore_check read it. */
int32_t costore_shape_of(const uint8_t *front, size_t n, costore_shape *shape);

/* Computes how large the two regions of costore_new must be.

   k, names: as of costore_format; costore_shape_of reads them in an existing file.
   volume:   the most bytes that all objects have together, below 2^48.
   largest:  the most bytes that one object has, at most COSTORE_OBJECT_MOST.
   room:     written: the bytes for the file. With so many no change answers COSTORE_NO_ROOM, as long as the objects of
             the store always were within these bounds.
   log:      written: the bytes for the log of a put or a removal that moves nothing, a begin, a step or a keep. A whole
             flush can need more, and so can a batch, a load, and the opening of a file that was interrupted within a
             flush.

   COSTORE_DONE; COSTORE_BAD_NUMBER, and nothing is written. */
int32_t costore_need(uint64_t k, uint64_t names, uint64_t volume, uint64_t largest, uint64_t *room, uint64_t *log);

/* A region: n bytes from `at` on, that can be read and written. `at` is not null, also where n is 0. */
typedef struct costore_region {
    uint8_t *at;
    size_t n;
} costore_region;

/* Makes a handle over two regions, and writes it to *store. It touches neither region. Until the handle is closed or
   freed nothing but the library writes there.

   file:   its first `length` bytes are those of the file on the device, all of which was synced. Its other bytes can be
           anything. The file can have file.n bytes. Between two calls, once the log is replayed, the program can put
           other pages in the place of these, as long as each byte of the file stays the same: a private mapping of the
           file has them.
   length: how many bytes the file has; 0 where a store is to be made.
   log:    the log of each call is written at its start. costore_lengths tells how many bytes it has; the program reads
           them there until the next call.

   COSTORE_DONE; COSTORE_BAD_NUMBER (length exceeds file.n) and COSTORE_NO_MEMORY, and nothing is written. */
int32_t costore_new(costore_region file, uint64_t length, costore_region log, costore *store);

/* Opens the store in the file. It reads the head of the file: the table of the names, and no object. A file that is
   longer than its layout is cut. If the file was interrupted within a flush, this finishes the flush. The log has all
   that.

   COSTORE_DONE; COSTORE_NOT_NEW, and the handle stays as it is. Else the handle is closed: COSTORE_NO_STORE;
   COSTORE_NO_MEMORY; COSTORE_DISK (the log is too small for that flush, or has fewer than the 34 bytes of a cut:
   replay nothing, and lend the file's bytes anew with a larger log). */
int32_t costore_open(costore *store);

/* Makes a store without names in a file of length 0, and opens it.

   k:     K, 2 to 64. A larger k makes a smaller file and more moves.
   names: NAMES, 16 to 65,536: how many names can be live. Each takes 160 bytes of the file.

   COSTORE_DONE; COSTORE_BAD_NUMBER, COSTORE_NOT_NEW or COSTORE_NO_ROOM (for the head), and the handle stays as it is.
   Else the handle is closed: COSTORE_NO_MEMORY; COSTORE_DISK (the log has fewer than 260 bytes). If you crash while
   replaying the log, the file is no store, or an empty store. */
int32_t costore_format(costore *store, uint64_t k, uint64_t names);

/* Makes a store in a file of length 0 that has the objects of a dump, and opens it.

   text, n: the dump, as costore_dump or `costore dump` writes it.
   k, names: as of costore_format.
   number: written at two answers, see below.

   Answers as costore_format, and, with the handle closed: COSTORE_LINE (the text isn't a dump; *number is the object at
   which it stops being one, from 1, or 0 for the first line); COSTORE_MORE_NAMES (*number is how many objects it has).
   COSTORE_DISK says here that the log or the room is too small. Enough for the objects that the first line tells is a
   log of 8,876 bytes, plus those of the objects, plus 97 for each, plus 17 for each whole 65,536 bytes of all and for
   each 512 objects begun; and a room for the head and their layout.
   If you crash while replaying the log, the file is no store, an empty store, or complete. */
int32_t costore_load(costore *store, const uint8_t *text, size_t n, uint64_t k, uint64_t names, uint64_t *number);

/* Closes the store: gives back its memory, and no longer uses the two regions. It saves nothing: what was changed since
   the last saved checkpoint is lost.

   COSTORE_DONE; COSTORE_CLOSED. */
int32_t costore_close(costore *store);

/* Gives the handle back, with what it still holds: a store that is open is closed first. It sets store->at to null, and
   does nothing if that is null already. *store can then be passed to costore_new again; a copy of it can't be used. */
void costore_free(costore *store);

/* What shows that a file is no store: the numbers of the program's fault lines.

   kind 1: `slot NUMBER`, a fault of the two slots of the table; AT is 0.
   kind 2: `codec NUMBER at AT`, a fault of the bytes at a position of the file.
   kind 3: `rule NUMBER at AT`, a rule of the format that the table breaks, and where.

   USE.md and FORMAT.md have them. */
typedef struct costore_fault {
    uint64_t kind, number, at;
} costore_fault;

/* Checks that the file of a handle keeps all rules of the format, also before costore_open and while a flush is in
   hand. It reads the table of the names and no object, and takes memory for it meanwhile.

   COSTORE_DONE; COSTORE_CLOSED; COSTORE_NO_STORE (*fault is written: what shows it first); COSTORE_NO_MEMORY. */
int32_t costore_check(const costore *store, costore_fault *fault);

/* ---- changes ----

   After an answer at or above 0 replay the log. COSTORE_KEPT says that a checkpoint was saved: once the log is
   replayed, the present state is durable. After an answer below 0 replay nothing: the log is then empty, or a part, or
   still that of an earlier call. */

/* Puts an object of m bytes under a name of n bytes, in the place of the one that has the name.

   A put that finds space in a buffer moves nothing and answers COSTORE_DONE. Any other makes a whole flush in this
   call: it moves objects, at most twice the bytes of the store, saves checkpoints meanwhile, and answers COSTORE_KEPT.
   No call says beforehand which it will be. These checkpoints have all changes so far, and so those of a transaction
   that is half done: changes that must be seen together are a batch (costore_batch).

   COSTORE_DONE; COSTORE_KEPT; COSTORE_BUSY; COSTORE_BROKEN; COSTORE_BAD_NAME; COSTORE_TOO_LONG; COSTORE_FULL;
   COSTORE_WORN; COSTORE_NO_ROOM (nothing was changed: lend a larger region, or remove objects); COSTORE_DISK. */
int32_t costore_put(costore *store, const uint8_t *name, size_t n, const uint8_t *object, size_t m);

/* Removes a name of n bytes. It too can flush and save checkpoints, since the gap that the object leaves is charged to
   buffers; it then answers COSTORE_KEPT.

   COSTORE_DONE; COSTORE_KEPT; COSTORE_BUSY; COSTORE_BROKEN; COSTORE_BAD_NAME; COSTORE_MISSING; COSTORE_WORN;
   COSTORE_NO_ROOM (only where the room is less than the store needs as it is: after an opening, a load or a batch);
   COSTORE_DISK. */
int32_t costore_del(costore *store, const uint8_t *name, size_t n);

/* Saves a checkpoint of the present state. It writes 80 bytes for each live name (112 with digests) and syncs three
   times.

   COSTORE_KEPT; COSTORE_BUSY; COSTORE_BROKEN; COSTORE_WORN; COSTORE_DISK. */
int32_t costore_keep(costore *store);

/* Gives each object a digest, the SHA-256 of its bytes, which reads compare from then on: it reads all objects, and
   saves a checkpoint of version 2 of the present state. In such a file 5 of 7 of the NAMES can be live.

   COSTORE_KEPT; COSTORE_DONE (the file has digests already); COSTORE_BUSY; COSTORE_BROKEN; COSTORE_TOO_MANY;
   COSTORE_WORN; COSTORE_DISK. If you crash while replaying the log, the file opens to the last checkpoint, or to the
   present state with digests. */
int32_t costore_upgrade(costore *store);

/* Goes back to the last checkpoint. It undoes only the changes since the last *saved* checkpoint, which can be one that
   a flush saved after costore_keep. It logs nothing: the log is still that of the call before; don't replay it again.

   COSTORE_DONE; COSTORE_BUSY; COSTORE_BROKEN. */
int32_t costore_back(costore *store);

/* The name under which the file keeps a batch while it is done. */
#define COSTORE_BATCH "!batch"

/* Does the puts and removals of a text as one, and saves a checkpoint of them.

   text, n: for each change `put NAME SIZE`, a newline, the object and a newline, or `del NAME` and a newline; sorted by
            name in byte order, each name once, none of them COSTORE_BATCH.
   number:  written at two answers: the request that is at fault, from 1.

   The log has the text, each object, and a flush for each change that needs one: it can need far more than costore_need
   says. If you crash while replaying it, the file has none of the changes, or it keeps the text as the object
   COSTORE_BATCH: then this call answers COSTORE_PENDING until costore_finish has done the rest.

   COSTORE_KEPT; COSTORE_DONE (the text is empty); COSTORE_BUSY; COSTORE_BROKEN; COSTORE_PENDING; COSTORE_LINE and
   COSTORE_UNFIT (*number is written; nothing was changed); COSTORE_WORN; COSTORE_DISK. */
int32_t costore_batch(costore *store, const uint8_t *text, size_t n, uint64_t *number);

/* Finishes the batch that an interruption has left in the file.

   room, m: memory of m bytes, into which the text of the batch is read: as many as costore_size writes for
            COSTORE_BATCH.
   number:  as of costore_batch, written at COSTORE_UNFIT.

   COSTORE_KEPT; COSTORE_DONE (no batch is kept); COSTORE_SHORT (m is too small); COSTORE_BUSY; COSTORE_BROKEN;
   COSTORE_NO_BATCH; COSTORE_UNFIT; COSTORE_DAMAGED; COSTORE_WORN; COSTORE_DISK. */
int32_t costore_finish(costore *store, uint8_t *room, size_t m, uint64_t *number);

/* ---- changes whose flush is made by steps ---- */

/* Begin to put an object, or to remove a name, as costore_put and costore_del do. A change that moves nothing is done
   at once (COSTORE_DONE). For any other the flush is in hand (COSTORE_IN_HAND): call costore_step until it answers
   COSTORE_KEPT. The steps save checkpoints as a whole flush does, not only the last one.

   While a flush is in hand costore_get, costore_read, costore_size, costore_position, costore_next, costore_list and
   costore_info answer the state after the change. costore_old, costore_stat, costore_dump and every change but
   costore_step answer COSTORE_BUSY.

   COSTORE_DONE; COSTORE_IN_HAND; else as of costore_put and costore_del. */
int32_t costore_begin_put(costore *store, const uint8_t *name, size_t n, const uint8_t *object, size_t m);
int32_t costore_begin_del(costore *store, const uint8_t *name, size_t n);

/* Makes the next move of the flush in hand, after saving a checkpoint where that is needed; or, where no move is left,
   saves the checkpoint that ends the flush. A flush takes at most 2n + 1 steps, n being how many names are live after
   the change.

   COSTORE_MOVED; COSTORE_KEPT (the flush is settled); COSTORE_IDLE; COSTORE_DISK. */
int32_t costore_step(costore *store);

/* Whether a flush is in hand; false also where the handle has no open store. */
bool costore_in_hand(const costore *store);

/* ---- reads ----

   These change nothing and log nothing. Where they refuse they write nothing, except as said. */

/* Writes how many bytes the object of a name has.

   COSTORE_DONE; COSTORE_BROKEN; COSTORE_BAD_NAME; COSTORE_MISSING. */
int32_t costore_size(const costore *store, const uint8_t *name, size_t n, uint64_t *size);

/* Writes where in the file the object of a name begins, in bytes from the file's start, and how many bytes it has. It
   is there until the next changing call (a put, a removal, a keep, an upgrade, a back, a batch, a begin or a step); on
   the device it is there once the log is replayed. The file's region has its bytes too: so it can be read without a
   copy, from file.at + *at on. Its digest isn't compared then.

   COSTORE_DONE; COSTORE_BROKEN; COSTORE_BAD_NAME; COSTORE_MISSING. */
int32_t costore_position(const costore *store, const uint8_t *name, size_t n, uint64_t *at, uint64_t *size);

/* Copies the object of a name to the start of `out`, which has m bytes, and writes its size. costore_old does so for
   the object that the name had at the last checkpoint.

   COSTORE_DONE; COSTORE_BROKEN; COSTORE_BAD_NAME; COSTORE_MISSING; COSTORE_SHORT (exactly where m is less than its
   size); COSTORE_DAMAGED (`out` can then have bytes of it). costore_old also: COSTORE_BUSY. */
int32_t costore_get(const costore *store, const uint8_t *name, size_t n, uint8_t *out, size_t m, uint64_t *size);
int32_t costore_old(const costore *store, const uint8_t *name, size_t n, uint8_t *out, size_t m, uint64_t *size);

/* Copies bytes of the object of a name to the start of `out`, from an offset on, and writes how many: as many as there
   are from there on, but at most m. Past the object's end they are none. Its digest isn't compared: costore_get does
   that.

   COSTORE_DONE; COSTORE_BROKEN; COSTORE_BAD_NAME; COSTORE_MISSING. */
int32_t costore_read(const costore *store, const uint8_t *name, size_t n, uint64_t from, uint8_t *out, size_t m,
                     uint64_t *size);

/* Copies the first name that is greater than n bytes, in byte order, to the start of `out`, and writes how many bytes
   it has, and how many its object. With n = 0 that is the first name, with a name it is the one after it. The n bytes
   need not be a name. COSTORE_NAME_MOST bytes at `out` are enough.

   COSTORE_DONE; COSTORE_BROKEN; COSTORE_MISSING (no name is greater); COSTORE_SHORT (m is less than its length). */
int32_t costore_next(const costore *store, const uint8_t *above, size_t n, uint8_t *out, size_t m, uint64_t *length,
                     uint64_t *size);

/* Copies a line for each name, sorted by name, to the start of `out`, and writes how many bytes they have. A line is
   the name, a space, the size of its object in decimal, and a newline; 85 bytes for each name suffice.

   COSTORE_DONE; COSTORE_BROKEN; COSTORE_SHORT (exactly where the lines don't fit; `out` then has other bytes). */
int32_t costore_list(const costore *store, uint8_t *out, size_t m, uint64_t *size);

/* How many names there are and how many bytes their objects have together, now and at the last checkpoint. */
typedef struct costore_counts {
    uint64_t names, bytes, kept_names, kept_bytes;
} costore_counts;

/* COSTORE_DONE; COSTORE_BUSY; COSTORE_BROKEN. */
int32_t costore_stat(const costore *store, costore_counts *counts);

/* What a store is, what it has, and what it can have. */
typedef struct costore_facts {
    uint64_t version;          /* of the file: 1, or 2, which has digests */
    uint64_t k, names;         /* as of costore_format */
    uint64_t names_most;       /* how many names can be live: NAMES, or 5 of 7 with digests */
    uint64_t live, bytes;      /* how many names are, and how many bytes their objects have together */
    uint64_t kept, kept_bytes; /* the same at the last checkpoint */
    uint64_t sequence;         /* of the last checkpoint */
    uint64_t file, room;       /* how many bytes the file has, and how many it can have */
    uint64_t moves_left;       /* how many steps of the flush in hand are left at most; 0 if none is in hand */
    uint64_t bytes_left;       /* how many bytes of objects they move at most; 0 if none is in hand */
} costore_facts;

/* Writes them, also while a flush is in hand.

   COSTORE_DONE; COSTORE_BROKEN. */
int32_t costore_info(const costore *store, costore_facts *facts);

/* Copies the dump of the last checkpoint to the start of `out`, and writes how many bytes it has. 512 bytes, those of
   all its objects (kept_bytes of costore_stat) and 78 for each of its names suffice. During the call it takes memory
   for the table of the file, and as much as `out` has.

   COSTORE_DONE; COSTORE_BUSY; COSTORE_BROKEN; COSTORE_SHORT; COSTORE_DAMAGED (an object is); COSTORE_NO_MEMORY. */
int32_t costore_dump(const costore *store, uint8_t *out, size_t m, uint64_t *size);

/* ---- the log ----

   The log is a list of entries, one after another. An entry is a byte that is 1, 2 or 3; a number and a count, of 8
   bytes each, the least byte first; and as many bytes as the count says. 1 writes these bytes at the position that is
   the number, within the file; 2 sets the length of the file to the number, and growth reads as zeros; 3 syncs the
   file, data and length. For 2 and 3 the count is 0. */
#define COSTORE_ENTRY_HEAD 17

/* Writes how many bytes the log of the last changing call has, and how many the file.

   COSTORE_DONE. */
int32_t costore_lengths(const costore *store, uint64_t *log, uint64_t *file);

/* Copy m bytes, from position `at` on, of the log, or of the file as it is once the log is replayed.

   The program reads the log without a copy at the start of its region. Where the file has zeros that nobody wrote, its
   region can have other bytes; costore_file copies the zeros.

   COSTORE_DONE; COSTORE_SHORT (there are fewer; nothing is written). */
int32_t costore_log(const costore *store, uint64_t at, uint8_t *out, size_t m);
int32_t costore_file(const costore *store, uint64_t at, uint8_t *out, size_t m);

#ifdef __cplusplus
}
#endif

#endif
