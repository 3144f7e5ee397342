// Draws crash images of a file at each moment of a recorded run, and opens each by the definition of the format
// (docs/FORMAT.md), without the program. A crash image is what a crash could leave of the file.
//
//   crash_images RECORD IMAGES SEED FOLDER SAMPLES
//
// RECORD has, with numbers of 8 bytes, the least significant byte first:
//
//   B LENGTH BYTES         the file as it was synced at first
//   W PLACE LENGTH BYTES   a write
//   L LENGTH               a change of length
//   S                      a sync
//   M A B                  from here on an image may open to the map with the hash A or to the one with the hash B
//
// The calls are in their order. At each moment IMAGES images are drawn. A position that was written since the last sync,
// or was outside the file at some time since, can have any byte. The length is one of those since that sync. The call that
// is under way counts as made. Every SAMPLES-th image is written to FOLDER, and its name is its number and the hash of its
// map, so that the program itself can be run on it. The last line is `images N moments N first N second N`. If an image
// opens to neither map, the status is 1, and the image is left in FOLDER as `wrong`.
#include <stdint.h>
#include <stdio.h>
#include <stdlib.h>
#include <string.h>

typedef uint64_t u64;
typedef unsigned char byte;

enum { CLASSES = 27, COLUMNS = 32, MOST_OBJECTS = 64, MOST_CALLS = 4096 };
static const u64 SIZE_MAX_ = 67108864, NUMBER_END = (u64)1 << 48;

struct span { u64 place, size; };
struct call { char kind; u64 place, length; const byte *bytes; };

static u64 number(const byte *at) {
    u64 n = 0;
    for (int i = 7; i >= 0; i--) n = n << 8 | at[i];
    return n;
}

// ---- drawing: xorshift64*

static u64 state;

static u64 draw(u64 below) {
    state ^= state >> 12, state ^= state << 25, state ^= state >> 27;
    return (state * 2685821657736338717u >> 11) % below;
}

// ---- opening

static u64 hashed(u64 hash, const byte *bytes, u64 length) {
    for (u64 i = 0; i < length; i++) hash = (hash ^ bytes[i]) * 1099511628211u;
    return hash;
}

static int class_of(u64 size) { return 63 - __builtin_clzll(size); }

static int any(const byte *from, const byte *to) {
    for (; from < to; from++) if (*from) return 1;
    return 0;
}

struct table { int moving, count; u64 boundary, wall, slack, caps[COLUMNS], used[COLUMNS][COLUMNS]; struct span at[MOST_OBJECTS]; };

// Where the segment of a class begins.
static u64 begins(const struct table *t, u64 k, int c) {
    u64 place = 0;
    for (int i = 0; i < c; i++) place += t->caps[i] + t->caps[i] / k;
    return place;
}

// The buffer in whose taken prefix an object is, -1 for its payload segment, or -2 if it is in neither.
static int stands_in(const struct table *t, u64 k, int below, const u64 *taken, struct span at) {
    int c = class_of(at.size);
    u64 begin = begins(t, k, c);
    if (begin <= at.place && at.place + at.size <= begin + t->caps[c]) return -1;
    for (int j = c; j < below; j++) {
        u64 front = begins(t, k, j) + t->caps[j];
        if (front <= at.place && at.place + at.size <= front + taken[j]) return j;
    }
    return -2;
}

// The first of the rules 1 to 6 that a table breaks, or 0.
static int breaks_shape(const struct table *t, u64 k, u64 data, int below, u64 *taken) {
    for (int i = 0; i < t->count; i++) if (t->at[i].size > SIZE_MAX_) return 1;
    for (int i = 0; i < t->count; i++) if (!t->at[i].size && t->at[i].place) return 2;
    for (int i = 0; i < t->count; i++) if (t->at[i].place + t->at[i].size > data) return 3;
    if ((t->moving ? t->wall : begins(t, k, CLASSES)) > data) return 3;
    if (t->moving ? t->boundary >= CLASSES : t->boundary || t->wall || t->slack) return 4;
    for (int c = below; c < COLUMNS; c++) if (t->caps[c]) return 5;
    for (int j = 0; j < COLUMNS; j++)
        for (int c = 0; c < COLUMNS; c++) {
            if (t->used[j][c] && (j >= below || c > j)) return 5;
            taken[j] += t->used[j][c];
        }
    for (int j = 0; j < below; j++) if (taken[j] > t->caps[j] / k) return 6;
    return 0;
}

// The first of the rules 7 to 10 that a table breaks, or 0.
static int breaks_books(const struct table *t, u64 k, int below, const u64 *taken) {
    static u64 live[COLUMNS][COLUMNS];
    u64 paid[COLUMNS] = {0};
    memset(live, 0, sizeof live);
    for (int i = 0; i < t->count; i++) {
        struct span at = t->at[i];
        if (!at.size || class_of(at.size) >= below) continue;
        int j = stands_in(t, k, below, taken, at);
        if (j == -2) return 7;
        if (j == -1) paid[class_of(at.size)] += at.size;
        else live[j][class_of(at.size)] += at.size;
    }
    for (int i = 0; i < t->count; i++)
        for (int j = 0; j < i; j++) {
            struct span a = t->at[i], b = t->at[j];
            if (a.place < b.place + b.size && b.place < a.place + a.size && a.size && b.size) return 8;
        }
    for (int c = 0; c < below; c++) {
        u64 dead = 0;
        for (int j = 0; j < COLUMNS; j++) {
            if (live[j][c] > t->used[j][c]) return 9;
            dead += t->used[j][c] - live[j][c];
        }
        if (t->caps[c] > dead + paid[c]) return 9;
    }
    for (int c = 0; c < below; c++)
        for (int j = 0; j < COLUMNS; j++) {
            if (!t->used[j][c]) continue;
            if (t->used[j][c] < (u64)1 << c) return 10;
            for (int i = c; i < j; i++) if (taken[i] + ((u64)2 << c) <= t->caps[i] / k) return 10;
        }
    return 0;
}

// The first of the rules 11 and 12 that a moving table breaks, or 0.
static int breaks_flush(const struct table *t, u64 k) {
    u64 live[COLUMNS] = {0}, start = begins(t, k, t->boundary), end = start;
    for (int i = 0; i < t->count; i++)
        if (t->at[i].size && class_of(t->at[i].size) >= (int)t->boundary) live[class_of(t->at[i].size)] += t->at[i].size;
    for (int c = 0; c < COLUMNS; c++) end += live[c] + live[c] / k;
    if (end + t->slack > t->wall) return 11;
    for (int i = 0; i < t->count; i++) {
        struct span at = t->at[i];
        if (!at.size || class_of(at.size) < (int)t->boundary) continue;
        if (at.size > t->slack) return 11;
        if (at.place >= t->wall) continue;
        if (at.place < start || at.place + at.size > t->wall) return 12;
        u64 left = t->wall - at.place - at.size;
        for (int j = 0; j < t->count; j++) {
            struct span other = t->at[j];
            if (!other.size || class_of(other.size) < (int)t->boundary || other.place >= t->wall) continue;
            if (other.place < at.place && class_of(other.size) > class_of(at.size)) return 12;
            if (other.place > at.place) left -= other.size;
        }
        if (left && left < t->slack) return 12;
    }
    return 0;
}

// Reads a slot into a table, and computes the hash of its map: returns 0, or why it isn't a table.
static const char *read_slot(const byte *file, u64 length, u64 head, u64 k, u64 names, const byte *slot, u64 *hash) {
    static struct table t;
    u64 record = slot[0] == 1 ? 80 : 112, count = number(slot + 16), taken[COLUMNS] = {0};
    if (slot[0] < 1 || slot[0] > 2) return "version";
    if (slot[1] > 1) return "kind";
    if (any(slot + 3, slot + 8)) return "zeros";
    if (number(slot + 8) >= ((u64)1 << 62) - ((u64)slot[1] << 18)) return "sequence";
    if (count > 80 * names / record || count > MOST_OBJECTS) return "count";
    t.moving = slot[1], t.boundary = slot[2], t.count = count, t.wall = number(slot + 24), t.slack = number(slot + 32);
    for (int c = 0; c < COLUMNS; c++) t.caps[c] = number(slot + 40 + 8 * c);
    for (int j = 0; j < COLUMNS; j++) for (int c = 0; c < COLUMNS; c++) t.used[j][c] = number(slot + 296 + 8 * (32 * j + c));
    for (int i = 24; i < 8488; i += 8) if (number(slot + i) >= NUMBER_END) return "range";
    *hash = 0;
    for (u64 i = 0; i < count; i++) {
        const byte *r = slot + 8488 + record * i, *before = r - record;
        if (!r[0] || r[0] > 63) return "name";
        for (int n = 1; n <= r[0]; n++) if (r[n] < 0x21 || r[n] > 0x7e) return "name";
        if (any(r + 1 + r[0], r + 64)) return "padding";
        if (number(r + 64) >= NUMBER_END || number(r + 72) >= NUMBER_END) return "range";
        if (i && memcmp(before + 1, r + 1, 63) >= 0) return "order";
        t.at[i] = (struct span){number(r + 64), number(r + 72)};
        if (t.at[i].place + t.at[i].size > length - head) return "rule 3";
        *hash += hashed(hashed(hashed(14695981039346656037u, r, 64), r + 72, 8), file + head + t.at[i].place, t.at[i].size);
    }
    int below = t.moving ? (int)t.boundary : CLASSES;
    if (breaks_shape(&t, k, length - head, below, taken)) return "shape";
    if (breaks_books(&t, k, below, taken)) return "books";
    return t.moving && breaks_flush(&t, k) ? "flush" : 0;
}

// Opens a file, and computes the hash of its map: returns 0, or why it isn't a store.
static const char *open_file(const byte *file, u64 length, u64 *hash) {
    if (length < 64 || memcmp(file, "COSTORE1", 8)) return "mark";
    u64 k = number(file + 8), names = number(file + 16);
    if (k < 2 || k > 64 || names < 16 || names > 65536 || any(file + 24, file + 64)) return "superblock";
    u64 slot = 8488 + 80 * names + 1, head = 64 + 2 * slot + 1;
    if (length < head) return "short";
    if (file[head - 1] != 0xA5) return "format gate";
    const byte *slots[2] = {file + 64, file + 64 + slot};
    int open[2] = {slots[0][slot - 1] == 0xA5, slots[1][slot - 1] == 0xA5};
    if (!open[0] && !open[1]) return "no gate";
    u64 first = number(slots[0] + 8), second = number(slots[1] + 8);
    if (open[0] && open[1] && first == second) return "one sequence";
    int used = open[0] && open[1] ? second > first : open[1];
    return read_slot(file, length, head, k, names, slots[used], hash);
}

// ---- images

static byte *synced, *image;
static u64 synced_length, room;

// What became of the bytes of a write: none, all, a prefix, a suffix, all one other byte, or each 64 bytes by themselves.
static void smear(const struct call *c) {
    u64 way = draw(7), cut = draw(c->length + 1);
    byte other = (byte[]){0, 0xA5, 0xFF, (byte)draw(256)}[draw(4)];
    if (c->place + c->length > room) return;
    byte *to = image + c->place;
    if (way == 0) return;
    if (way == 1 || way == 6) memcpy(to, c->bytes, c->length);
    if (way == 2) memcpy(to, c->bytes, cut);
    if (way == 3) memcpy(to + cut, c->bytes + cut, c->length - cut);
    if (way == 4) memset(to, other, c->length);
    if (way == 5)
        for (u64 at = 0; at < c->length; at += 64)
            if (draw(2)) memcpy(to + at, c->bytes + at, c->length - at < 64 ? c->length - at : 64);
}

// Draws an image of a moment, from what was synced and the calls since, the last of which may be under way.
static u64 draw_image(struct call *since, int count, u64 most) {
    u64 length = synced_length;
    byte grown = draw(2) ? 0 : (byte)draw(256);
    memcpy(image, synced, synced_length);
    if (most > synced_length) memset(image + synced_length, grown, most - synced_length);
    int all = draw(8) == 0, done = all ? (int)draw(count + 1) : count;
    for (int i = 0; i < done; i++) {
        if (since[i].kind == 'L' && (all || draw(2))) length = since[i].length;
        if (since[i].kind != 'W') continue;
        if (!all) smear(&since[i]);
        else if (since[i].place + since[i].length <= room) memcpy(image + since[i].place, since[i].bytes, since[i].length);
    }
    return length;
}

static void leave(const char *folder, const char *name, u64 length) {
    char path[4096];
    snprintf(path, sizeof path, "%s/%s", folder, name);
    FILE *out = fopen(path, "wb");
    if (!out || fwrite(image, 1, length, out) != length || fclose(out)) exit(2);
}

static u64 images, moments, opened[2];

static int try_moment(struct call *since, int count, u64 each, const u64 *maps, const char *folder, u64 samples) {
    u64 most = synced_length, hash = 0;
    char name[64];
    for (int i = 0; i < count; i++) if (since[i].kind == 'L' && since[i].length > most) most = since[i].length;
    moments++;
    for (u64 n = 0; n < each; n++, images++) {
        u64 length = draw_image(since, count, most);
        const char *why = open_file(image, length, &hash);
        if (why || (hash != maps[0] && hash != maps[1])) {
            leave(folder, "wrong", length);
            printf("wrong: moment %llu, image %llu: %s\n", (unsigned long long)moments, (unsigned long long)images, why ? why : "another map");
            return 1;
        }
        opened[hash != maps[0]]++;
        if (samples && images % samples == 0) {
            snprintf(name, sizeof name, "%llu-%016llx", (unsigned long long)images, (unsigned long long)hash);
            leave(folder, name, length);
        }
    }
    return 0;
}

int main(int count, char **words) {
    if (count != 6) return 2;
    FILE *in = fopen(words[1], "rb");
    if (!in || fseek(in, 0, SEEK_END)) return 2;
    u64 size = ftell(in), each = strtoull(words[2], 0, 10), samples = strtoull(words[5], 0, 10), maps[2] = {0, 0};
    byte *record = malloc(size);
    rewind(in);
    if (!record || fread(record, 1, size, in) != size) return 2;
    room = (u64)1 << 24;
    synced = calloc(room, 1), image = calloc(room, 1);
    byte *now = calloc(room, 1);
    static struct call since[MOST_CALLS];
    u64 length = 0;
    int calls = 0;
    state = strtoull(words[3], 0, 10) * 2 + 1;
    for (const byte *at = record; at < record + size;) {
        char kind = *at++;
        struct call c = {kind, 0, 0, 0};
        if (kind == 'M') { maps[0] = number(at), maps[1] = number(at + 8), at += 16; continue; }
        if (kind == 'W') c.place = number(at), at += 8;
        if (kind != 'S') c.length = number(at), at += 8;
        if (kind == 'W' || kind == 'B') c.bytes = at, at += c.length;
        if (c.place + c.length > room || calls == MOST_CALLS) return 2;
        if (kind == 'B') { memcpy(now, c.bytes, length = c.length); memcpy(synced, now, synced_length = length); continue; }
        since[calls++] = c;
        if (try_moment(since, calls, each, maps, words[4], samples)) return 1;
        if (kind == 'W') memcpy(now + c.place, c.bytes, c.length);
        if (kind == 'L') { if (c.length > length) memset(now + length, 0, c.length - length); length = c.length; }
        if (kind == 'S') { memcpy(synced, now, synced_length = length); calls = 0; }
    }
    printf("images %llu moments %llu first %llu second %llu\n", (unsigned long long)images, (unsigned long long)moments, (unsigned long long)opened[0], (unsigned long long)opened[1]);
    return 0;
}
