/* Puts objects into an empty LMDB database by one transaction, with its syncs, and prints the seconds that it takes. The
   arguments are the file, the number of objects, and the bytes of each.

       gcc -O2 -o one_transaction measure/one_transaction.c -llmdb && ./one_transaction f 1000 4096
*/
#include <lmdb.h>
#include <stdio.h>
#include <stdlib.h>
#include <string.h>
#include <time.h>

static double now(void) {
  struct timespec t;
  clock_gettime(CLOCK_MONOTONIC, &t);
  return t.tv_sec + t.tv_nsec / 1e9;
}

static void check(int error) {
  if (error) {
    fprintf(stderr, "one_transaction: %s\n", mdb_strerror(error));
    exit(2);
  }
}

int main(int argc, char **argv) {
  if (argc < 4) return 1;
  long count = atol(argv[2]), size = atol(argv[3]);
  char *bytes = malloc(size), name[24];
  MDB_env *env;
  MDB_txn *txn;
  MDB_dbi base;
  memset(bytes, 7, size);
  check(mdb_env_create(&env));
  check(mdb_env_set_mapsize(env, 4 * count * size + (1 << 24)));
  check(mdb_env_open(env, argv[1], MDB_NOSUBDIR, 0666));
  double began = now();
  check(mdb_txn_begin(env, NULL, 0, &txn));
  check(mdb_dbi_open(txn, NULL, 0, &base));
  for (long n = 0; n < count; n++) {
    MDB_val key = {snprintf(name, sizeof name, "o%ld", n), name}, data = {size, bytes};
    check(mdb_put(txn, base, &key, &data, 0));
  }
  check(mdb_txn_commit(txn));
  printf("%.6f\n", now() - began);
  mdb_env_close(env);
  return 0;
}
