/* Hashing, mul_add and reading in chunks of 4 KiB against one call on the whole; and a push of one byte late in a file against one early in it,
   which must be the same work. Both sides must give the same. */
#include "clock.h"
#include "../include/par1.h"
#include <string.h>

enum { MIB = 1 << 20, LENGTH = 16 * MIB, CHUNK = 4096, TURNS = 15, PUSHES = 64 };

static struct par1_hash hash;
static uint8_t reading[PAR1_READ_BYTES], fold[PAR1_MUL_ADD_BYTES], digest[16], whole_digest[16];
static uint8_t parts[PAR1_PARTS_BYTES], whole_parts[PAR1_PARTS_BYTES];
static par1_answer answer, whole_answer;

/* What must be alike on both sides. */
static int alike(const char *what, int holds) {
    if (!holds) printf("jobs: %s differs\n", what);
    return holds;
}

static void hash_chunks(const uint8_t *bytes, size_t n) {
    par1_hash_start(&hash);
    for (size_t at = 0; at < n; at += CHUNK) par1_hash_push(&hash, bytes + at, n - at < CHUNK ? n - at : CHUNK);
    par1_hash_end(&hash, digest, 16);
}

static void fold_chunks(const uint8_t *bytes, uint8_t *buffer, size_t n) {
    par1_mul_add_start(142, fold, sizeof fold);
    for (size_t at = 0; at < n; at += CHUNK) par1_mul_add_push(fold, sizeof fold, bytes + at, n - at < CHUNK ? n - at : CHUNK, buffer, n);
    par1_mul_add_end(fold, sizeof fold);
}

static void push_chunks(const uint8_t *file, size_t n) {
    par1_read_start(reading, sizeof reading);
    for (size_t at = 0; at < n; at += CHUNK) par1_read_push(reading, sizeof reading, file + at, n - at < CHUNK ? n - at : CHUNK);
}

static void read_chunks(const uint8_t *file, size_t n) {
    push_chunks(file, n);
    answer = par1_read_end(reading, sizeof reading, parts, sizeof parts);
}

static int hashing(const uint8_t *bytes) {
    double a = 0, b = 0;
    COMPARE(TURNS, 1, hash_chunks(bytes, LENGTH), par1_md5(bytes, LENGTH, whole_digest, 16), a, b)
    int right = row("MD5 of 16 MiB in 4 KiB chunks", "the whole in one call", LENGTH, a, b, 0.95);
    return right & alike("a digest", !memcmp(digest, whole_digest, 16));
}

static int folding(const uint8_t *bytes) {
    uint8_t *ours = random_bytes(LENGTH), *whole = random_bytes(LENGTH);
    double a = 0, b = 0;
    COMPARE(TURNS, 1, fold_chunks(bytes, ours, LENGTH), par1_mul_add(142, bytes, LENGTH, whole, LENGTH), a, b)
    int right = row("mul_add of 16 MiB in 4 KiB chunks", "the whole in one call", LENGTH, a, b, 0);
    right &= alike("a buffer", !memcmp(ours, whole, LENGTH));
    free(ours);
    free(whole);
    return right;
}

/* A file that is accepted: an index with these entries, and a comment. */
static int read_file(const char *what, const uint8_t *list, size_t list_size, const uint8_t *data, size_t data_size, double wanted) {
    size_t n = PAR1_AT_LIST + list_size + data_size;
    uint8_t *file = malloc(n);
    double a = 0, b = 0;
    par1_write_volume(PAR1_POWERS, 7, 0, list, list_size, data, data_size, file, n);
    COMPARE(TURNS, 1, read_chunks(file, n), whole_answer = par1_read(file, n, whole_parts, sizeof whole_parts), a, b)
    int right = row(what, "the whole in one call", n, a, b, wanted);
    right &= alike("a reading", answer == 0 && whole_answer == 0 && !memcmp(parts, whole_parts, sizeof parts));
    free(file);
    return right;
}

/* Entries with names of this many bytes, one after another, in about 16 MiB. */
static uint8_t *entries(size_t name_size, size_t *list_size) {
    size_t entry_size = PAR1_AT_ENTRY_NAME + name_size, n = LENGTH / entry_size;
    uint8_t *name = malloc(name_size), *list = malloc(n * entry_size);
    for (size_t i = 0; i < name_size; i++) name[i] = i % 2 == 0 ? (uint8_t)('A' + i / 2 % 26) : 0;
    for (size_t i = 0; i < n; i++) par1_write_entry(name, i % 5, 0, name, name_size, list + i * entry_size, entry_size);
    free(name);
    *list_size = n * entry_size;
    return list;
}

static int read_list(const char *what, size_t name_size) {
    size_t list_size;
    uint8_t *list = entries(name_size, &list_size);
    int right = read_file(what, list, list_size, list, 0, 0.75);
    free(list);
    return right;
}

/* Pushes of one byte each to a copy of this job, as many as fill a block of the hash. */
static void push_bytes(const uint8_t *job, const uint8_t *bytes) {
    memcpy(reading, job, sizeof reading);
    for (int i = 0; i < PUSHES; i++) par1_read_push(reading, sizeof reading, bytes + i, 1);
}

/* A push of one byte, 1 KiB before the end of a file and 1 KiB after the start of the part that reaches to it. */
static int push_one(const char *what, const uint8_t *file, size_t n, size_t start) {
    uint8_t early[PAR1_READ_BYTES], late[PAR1_READ_BYTES];
    double a = 0, b = 0;
    push_chunks(file, start + 1024);
    memcpy(early, reading, sizeof early);
    push_chunks(file, n - 1024);
    memcpy(late, reading, sizeof late);
    COMPARE(1000, 20, push_bytes(late, file + n - 1024), push_bytes(early, file + start + 1024), a, b)
    return row(what, "the same, 1 KiB into it", 0, a / PUSHES, b / PUSHES, 0.80);
}

static int pushes(const uint8_t *data) {
    size_t list_size, short_size = PAR1_AT_ENTRY_NAME + 10;
    uint8_t *list = entries(LENGTH - PAR1_AT_ENTRY_NAME, &list_size), *file = malloc(PAR1_AT_LIST + LENGTH);
    par1_write_volume(PAR1_POWERS, 7, 0, list, list_size, list, 0, file, PAR1_AT_LIST + LENGTH);
    int right = push_one("push of 1 byte, 16 MiB into a name", file, PAR1_AT_LIST + list_size, PAR1_AT_LIST);
    par1_write_entry(data, 5, 1, list + PAR1_AT_ENTRY_NAME, 10, list, short_size);
    par1_write_volume(PAR1_POWERS, 7, 0, list, short_size, data, LENGTH - short_size, file, PAR1_AT_LIST + LENGTH);
    right &= push_one("push of 1 byte, 16 MiB into data", file, PAR1_AT_LIST + LENGTH, PAR1_AT_LIST + short_size);
    free(list);
    free(file);
    return right;
}

int main(void) {
    uint8_t *bytes = random_bytes(LENGTH), entry[PAR1_AT_ENTRY_NAME + 2];
    int right = hashing(bytes) & folding(bytes);
    par1_write_entry(bytes, 5, 1, (const uint8_t *)"A\0", 2, entry, sizeof entry);
    right &= read_file("read 16 MiB of data in 4 KiB chunks", entry, sizeof entry, bytes, LENGTH, 0.90);
    right &= read_list("read 16 MiB of short entries in 4 KiB chunks", 10);
    right &= read_list("read 16 MiB of one name in 4 KiB chunks", LENGTH - PAR1_AT_ENTRY_NAME);
    right &= pushes(bytes);
    return !right;
}
