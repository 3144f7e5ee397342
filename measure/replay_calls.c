/* Makes the same calls on a file as another program did, from the list of strace, and reads its input as that program
   did: before each write it waits until as many bytes have come as will have been written. The first argument is the list,
   the second the file.

       strace -e trace=pwrite64,ftruncate,fsync,fdatasync -o calls PROGRAM load f 9 64 <dump
       gcc -O2 -o replay_calls measure/replay_calls.c && ./replay_calls calls g <dump
*/
#define _GNU_SOURCE
#include <fcntl.h>
#include <stdio.h>
#include <stdlib.h>
#include <string.h>
#include <unistd.h>

struct call { char kind; long long size, place; };

static char piece[65536], *spare;
static long long came, due;

/* Reads until so many bytes have come, or no more come. */
static void take(long long wanted) {
  while (came < wanted) {
    ssize_t n = read(0, piece, sizeof piece);
    if (n < 0) exit(2);
    if (!n) return;
    came += n;
  }
}

/* Reads a line of strace as a call: how much is written and where, or to what length the file changes. */
static int parse(const char *line, struct call *call) {
  const char *end = strrchr(line, ')');
  if (!end) return 0;
  while (end > line && *end != ',') end--;
  if (!strncmp(line, "pwrite64(", 9)) {
    const char *size = end - 1;
    while (size > line && *size != ',') size--;
    call->kind = 'w', call->size = atoll(size + 1), call->place = atoll(end + 1);
  } else if (!strncmp(line, "ftruncate(", 10)) {
    call->kind = 't', call->size = atoll(end + 1);
  } else if (!strncmp(line, "fsync(", 6) || !strncmp(line, "fdatasync(", 10)) {
    call->kind = line[1] == 's' ? 'f' : 'd';
  } else {
    return 0;
  }
  return 1;
}

int main(int argc, char **argv) {
  if (argc < 3) return 1;
  FILE *list = fopen(argv[1], "r");
  int file = open(argv[2], O_RDWR | O_CREAT, 0666);
  char *line = NULL;
  size_t room = 0, count = 0, made = 0;
  struct call *calls = NULL;
  if (!list || file < 0) return 1;
  while (getline(&line, &room, list) >= 0) {
    if (count == made) calls = realloc(calls, (made = 2 * made + 64) * sizeof *calls);
    count += parse(line, calls + count);
  }
  spare = calloc(1, 1 << 24);
  for (size_t i = 0; i < count; i++) {
    struct call *c = calls + i;
    if (c->kind == 'w') {
      take(due += c->size);
      if (c->size > 1 << 24 || pwrite(file, spare, c->size, c->place) != c->size) return 2;
    } else if (c->kind == 't' ? ftruncate(file, c->size) : c->kind == 'f' ? fsync(file) : fdatasync(file)) {
      return 2;
    }
  }
  take(1LL << 62);
  return 0;
}
