/* Times the same requests to the library, to LMDB and to SQLite: speeds WAY PATH NAMES SIZE PUTS EVERY GETS.

   WAY is library, lmdb or sqlite. PATH is a file that isn't there. It puts PUTS objects of SIZE bytes under names drawn
   from NAMES, with a checkpoint, or a synced commit, after every EVERY of them. Then it copies out GETS objects of
   drawn names. It prints two lines, `put SECONDS` and `get SECONDS`. measure/embed_speeds runs it. */
#include "costore_file.h"

#include <stdio.h>
#include <stdlib.h>
#include <string.h>
#include <time.h>

#ifdef WITH_LMDB
#include <lmdb.h>
#endif
#ifdef WITH_SQLITE
#include <sqlite3.h>
#endif

static uint64_t state = 0x9E3779B97F4A7C15u;
static int names, size, puts_, every, gets_;
static uint8_t *object, *out;
static char name[32];

static void wrong(const char *what) {
    fprintf(stderr, "speeds: %s\n", what);
    exit(1);
}

static double now(void) {
    struct timespec t;
    clock_gettime(CLOCK_MONOTONIC, &t);
    return (double)t.tv_sec + (double)t.tv_nsec / 1e9;
}

/* Draws the next name, and answers its length. */
static size_t draw(void) {
    state ^= state << 13, state ^= state >> 7, state ^= state << 17;
    return (size_t)snprintf(name, sizeof name, "n%d", (int)(state % (uint64_t)names));
}

/* Another object of the same size. */
static void change(int n) {
    for (int at = 0; at + 8 <= size; at += 64)
        memcpy(object + at, &n, sizeof n);
}

static void by_library(const char *path) {
    costore_file_t f;
    uint64_t found, room = (uint64_t)names * (uint64_t)size * 3 + (64u << 20);
    if (costore_file_format(&f, path, 9, (uint64_t)names + 16, room, room) < 0)
        wrong("format");
    double began = now();
    for (int i = 1; i <= puts_; i++) {
        size_t n = draw();
        change(i);
        if (costore_file_put(&f, (uint8_t *)name, n, object, (size_t)size) < 0)
            wrong("put");
        if (i % every == 0 && costore_file_keep(&f) < 0)
            wrong("keep");
    }
    printf("put %.6f\n", now() - began);
    began = now();
    for (int i = 0; i < gets_; i++) {
        size_t n = draw();
        int32_t code = costore_file_get(&f, (uint8_t *)name, n, out, (size_t)size, &found);
        if (code < 0 && code != COSTORE_MISSING)
            wrong("get");
    }
    printf("get %.6f\n", now() - began);
    costore_file_close(&f);
}

#ifdef WITH_LMDB
static void by_lmdb(const char *path) {
    MDB_env *env;
    MDB_txn *txn;
    MDB_dbi base;
    if (mdb_env_create(&env) || mdb_env_set_mapsize(env, 8ul << 30) || mdb_env_open(env, path, MDB_NOSUBDIR, 0644))
        wrong("lmdb");
    if (mdb_txn_begin(env, 0, 0, &txn) || mdb_dbi_open(txn, 0, 0, &base) || mdb_txn_commit(txn))
        wrong("lmdb");
    double began = now();
    if (mdb_txn_begin(env, 0, 0, &txn))
        wrong("begin");
    for (int i = 1; i <= puts_; i++) {
        MDB_val key = {draw(), name}, value = {(size_t)size, object};
        change(i);
        if (mdb_put(txn, base, &key, &value, 0))
            wrong("put");
        if (i % every == 0 && (mdb_txn_commit(txn) || mdb_txn_begin(env, 0, 0, &txn)))
            wrong("commit");
    }
    if (mdb_txn_commit(txn))
        wrong("commit");
    printf("put %.6f\n", now() - began);
    began = now();
    for (int i = 0; i < gets_; i++) {
        MDB_val key = {draw(), name}, value;
        if (mdb_txn_begin(env, 0, MDB_RDONLY, &txn))
            wrong("begin");
        if (!mdb_get(txn, base, &key, &value))
            memcpy(out, value.mv_data, value.mv_size);
        mdb_txn_abort(txn);
    }
    printf("get %.6f\n", now() - began);
    mdb_env_close(env);
}
#endif

#ifdef WITH_SQLITE
static void ask(sqlite3 *base, const char *text) {
    if (sqlite3_exec(base, text, 0, 0, 0))
        wrong(text);
}

static void by_sqlite(const char *path) {
    sqlite3 *base;
    sqlite3_stmt *put, *get;
    if (sqlite3_open(path, &base))
        wrong("sqlite");
    ask(base, "pragma journal_mode = wal");
    ask(base, "pragma synchronous = full");
    ask(base, "create table blocks (name text primary key, bytes blob) without rowid");
    if (sqlite3_prepare_v2(base, "replace into blocks values (?, ?)", -1, &put, 0)
        || sqlite3_prepare_v2(base, "select bytes from blocks where name = ?", -1, &get, 0))
        wrong("prepare");
    double began = now();
    ask(base, "begin");
    for (int i = 1; i <= puts_; i++) {
        int n = (int)draw();
        change(i);
        sqlite3_bind_text(put, 1, name, n, SQLITE_STATIC);
        sqlite3_bind_blob(put, 2, object, size, SQLITE_STATIC);
        if (sqlite3_step(put) != SQLITE_DONE || sqlite3_reset(put))
            wrong("put");
        if (i % every == 0) {
            ask(base, "commit");
            ask(base, "begin");
        }
    }
    ask(base, "commit");
    printf("put %.6f\n", now() - began);
    began = now();
    for (int i = 0; i < gets_; i++) {
        int n = (int)draw();
        sqlite3_bind_text(get, 1, name, n, SQLITE_STATIC);
        if (sqlite3_step(get) == SQLITE_ROW)
            memcpy(out, sqlite3_column_blob(get, 0), (size_t)sqlite3_column_bytes(get, 0));
        sqlite3_reset(get);
    }
    printf("get %.6f\n", now() - began);
    sqlite3_finalize(put);
    sqlite3_finalize(get);
    sqlite3_close(base);
}
#endif

int main(int argc, char **argv) {
    if (argc != 8)
        wrong("words");
    names = atoi(argv[3]), size = atoi(argv[4]);
    puts_ = atoi(argv[5]), every = atoi(argv[6]), gets_ = atoi(argv[7]);
    object = calloc((size_t)size + 64, 1), out = calloc((size_t)size + 64, 1);
    if (!object || !out)
        wrong("memory");
    if (!strcmp(argv[1], "library"))
        by_library(argv[2]);
#ifdef WITH_LMDB
    else if (!strcmp(argv[1], "lmdb"))
        by_lmdb(argv[2]);
#endif
#ifdef WITH_SQLITE
    else if (!strcmp(argv[1], "sqlite"))
        by_sqlite(argv[2]);
#endif
    else
        wrong("no such way");
    return 0;
}
