/* Changes a store many times, by steps: changes make FILE OBJECTS SIZE, changes run FILE OBJECTS SIZE CHANGES EVERY.

   `make` makes a store of OBJECTS objects of SIZE bytes, with K 9 and room for an eighth more names. `run` replaces
   CHANGES of them, drawn at random, with a checkpoint after every EVERY, reads each tenth object that it replaced, and
   compares its bytes. It prints the seconds, the steps, the longest call in milliseconds and the most memory of its own
   in megabytes. measure/embed_memory runs it with little memory. */
#define _GNU_SOURCE
#include "costore_file.h"

#include <stdio.h>
#include <stdlib.h>
#include <string.h>
#include <time.h>

enum { K = 9 };

static uint64_t state = 0x9E3779B97F4A7C15u, steps;
static uint8_t *object, *out;
static uint64_t objects, size;
static double longest;
static costore_file_t f;

static void wrong(const char *what, int32_t code) {
    fprintf(stderr, "changes: %s: %s\n", what, costore_word(code));
    exit(1);
}

static double now(void) {
    struct timespec t;
    clock_gettime(CLOCK_MONOTONIC, &t);
    return (double)t.tv_sec + (double)t.tv_nsec / 1e9;
}

/* A line of /proc/self/status, in kilobytes. */
static uint64_t kilobytes(const char *what) {
    char line[256];
    uint64_t n = 0;
    FILE *status = fopen("/proc/self/status", "r");
    while (status && fgets(line, sizeof line, status))
        if (!strncmp(line, what, strlen(what)))
            n = strtoull(line + strlen(what), NULL, 10);
    if (status)
        fclose(status);
    return n;
}

static size_t name_of(uint64_t i, uint8_t name[24]) {
    return (size_t)sprintf((char *)name, "n%08llu", (unsigned long long)i);
}

/* The time of a call counts for the longest one. */
static int32_t timed(int32_t code, double since) {
    double took = now() - since;
    longest = took > longest ? took : longest;
    return code;
}

static void put(uint64_t i, uint64_t round) {
    uint8_t name[24];
    memset(object, (int)(i * 31 + round * 7 + 1), size);
    double since = now();
    int32_t code = timed(costore_file_begin_put(&f, name, name_of(i, name), object, size), since);
    while (code == COSTORE_IN_HAND || code == COSTORE_MOVED) {
        since = now();
        code = timed(costore_file_step(&f), since);
        steps++;
    }
    if (code < COSTORE_DONE)
        wrong("put", code);
}

static void keep(void) {
    double since = now();
    int32_t code = timed(costore_file_keep(&f), since);
    if (code != COSTORE_KEPT)
        wrong("keep", code);
}

static void look(uint64_t i, uint64_t round) {
    uint8_t name[24];
    uint64_t found = 0;
    int32_t code = costore_file_get(&f, name, name_of(i, name), out, size, &found);
    memset(object, (int)(i * 31 + round * 7 + 1), size);
    if (code != COSTORE_DONE || found != size || memcmp(out, object, size))
        wrong("get", code);
}

static void change(uint64_t changes, uint64_t every) {
    uint64_t most = 0;
    for (uint64_t done = 1; done <= changes; done++) {
        state ^= state << 13, state ^= state >> 7, state ^= state << 17;
        uint64_t i = state % objects;
        put(i, done);
        if (done % 10 == 0)
            look(i, done);
        if (done % every == 0) {
            uint64_t own = kilobytes("RssAnon:");
            keep();
            most = own > most ? own : most;
        }
    }
    printf("%llu steps, longest call %.1f ms, own memory %.1f MB\n", (unsigned long long)steps, longest * 1000,
           (double)most / 1024);
}

int main(int argc, char **argv) {
    uint64_t room, log;
    if (argc < 5)
        return 2;
    objects = strtoull(argv[3], NULL, 10), size = strtoull(argv[4], NULL, 10);
    object = malloc(size + 1), out = malloc(size + 1);
    uint64_t names = objects + objects / 8 + COSTORE_NAMES_LEAST;
    int32_t code = costore_need(K, names, objects * size, size, &room, &log);
    bool makes = !strcmp(argv[1], "make");
    double began = now();
    if (code == COSTORE_DONE && object && out)
        code = makes ? costore_file_format(&f, argv[2], K, names, room, log)
                     : costore_file_open(&f, argv[2], room, log);
    if (code != COSTORE_DONE)
        wrong("open", code);
    printf("opened in %.3f s\n", now() - began);
    began = now();
    for (uint64_t i = 0; makes && i < objects; i++)
        put(i, 0);
    if (makes)
        keep();
    else if (argc == 7)
        change(strtoull(argv[5], NULL, 10), strtoull(argv[6], NULL, 10));
    printf("%.1f s\n", now() - began);
    costore_file_close(&f);
    return 0;
}
