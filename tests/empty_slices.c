/* A pointer with the length 0 is not used: every call of include/par1.h that is lent slices is made with each choice of them empty. The pointer of an
 * empty one is that of a byte, then NULL, then that of a page that cannot be touched, and answer and lent bytes must be the same each time. The others
 * are as an accepted call has them, in memory of their own, so that valgrind and the sanitizers see what goes past it. The last line is 'N passed, M
 * failed'. */
#define _DEFAULT_SOURCE
#include "../include/par1.h"
#include <stdio.h>
#include <stdlib.h>
#include <string.h>
#include <sys/mman.h>

enum { FILES = 2, SIZE = 40, NAME = 2, ENTRY = PAR1_AT_ENTRY_NAME + NAME, LIST = FILES * ENTRY, VOLUME = PAR1_AT_LIST + LIST + SIZE };
enum { MOST = 4, PAGE = 4096, PAINT = 0xa5 };
enum { CATALOG = PAR1_CATALOG_HEAD + PAR1_CATALOG_ROW * (FILES + 1), LINES = FILES * (32 + 2 + NAME / 2 + 1), TEXT = 200 };

/* Bytes, or records, that a call is lent: where, and how many of which width. */
struct slice {
    uint8_t *at;
    size_t count, width;
};

/* Two files, their entries, and volume 1 in room for a byte more; the first file, a byte longer, and its entry. */
static uint8_t contents[FILES][SIZE], list[LIST], data[SIZE], volume[VOLUME + 1], grown[SIZE + 1], grown_entry[ENTRY];

/* An inventory with nothing present, with file 1 and volume 1, and with the volume set aside; a catalog without the volume and with it; jobs, of which
 * a reading before and after its push; texts; and what rooms hold before a call. */
static uint8_t sizes[8 * FILES], inventory[PAR1_INVENTORY_BYTES], present[PAR1_INVENTORY_BYTES], aside[PAR1_INVENTORY_BYTES];
static uint8_t opened[CATALOG], filled[CATALOG], fold[PAR1_MUL_ADD_BYTES], reading[PAR1_READ_BYTES], pushed[PAR1_READ_BYTES], lines[LINES];
static uint8_t arrivals[] = {'2', ' ', '9', ' ', '9', 10, 'V', ' ', '1', 10, 'F', ' ', '1', 10}, name[NAME] = {'A', 0}, paint[512];

/* The hash of the calls that take one: as it is before each of them, and after it. */
static struct par1_hash hash, running;

/* Each call on its slices, as the header has them in turn. */
#define AT(i) s[i].at, s[i].count
static par1_answer md5(const struct slice *s) { return par1_md5(AT(0), AT(1)); }
static par1_answer inverse(const struct slice *s) { return par1_inverse(3, AT(0)); }
static par1_answer coefficient(const struct slice *s) { return par1_coefficient(PAR1_POWERS, 2, 3, AT(0)); }
static par1_answer mul_add(const struct slice *s) { return par1_mul_add(7, AT(0), AT(1)), 0; }
static par1_answer read_(const struct slice *s) { return par1_read(AT(0), AT(1)); }
static par1_answer entry(const struct slice *s) { return par1_entry(AT(0), AT(1)); }
static par1_answer check(const struct slice *s) { return par1_check(AT(0), AT(1)); }
static par1_answer write_entry(const struct slice *s) { return par1_write_entry(AT(0), 1, AT(1), AT(2)); }
static par1_answer write_volume(const struct slice *s) { return par1_write_volume(PAR1_POWERS, 1, 1, AT(0), AT(1), AT(2)); }
static par1_answer write_index(const struct slice *s) { return par1_write_volume(PAR1_CAUCHY, 1, 0, AT(0), AT(1), AT(2)); }
static par1_answer amend(const struct slice *s) { return par1_amend(AT(0), VOLUME, 1, 8, AT(1), AT(2), AT(3)); }
static par1_answer amend_on_the_end(const struct slice *s) { return par1_amend(AT(0), VOLUME, 1, SIZE, AT(1), AT(2), AT(3)); }
static par1_answer hash_push(const struct slice *s) { return par1_hash_push(&running, AT(0)); }
static par1_answer hash_end(const struct slice *s) { return par1_hash_end(&running, AT(0)); }
static par1_answer mul_add_start(const struct slice *s) { return par1_mul_add_start(7, AT(0)); }
static par1_answer mul_add_push(const struct slice *s) { return par1_mul_add_push(AT(0), AT(1), AT(2)); }
static par1_answer mul_add_end(const struct slice *s) { return par1_mul_add_end(AT(0)); }
static par1_answer read_start(const struct slice *s) { return par1_read_start(AT(0)); }
static par1_answer read_push(const struct slice *s) { return par1_read_push(AT(0), AT(1)); }
static par1_answer read_end(const struct slice *s) { return par1_read_end(AT(0), AT(1)); }
static par1_answer open_(const struct slice *s) { return par1_open(PAR1_POWERS, FILES, AT(0), AT(1)); }
static par1_answer add_file(const struct slice *s) { return par1_add_file(AT(0), 1); }
static par1_answer remove_file(const struct slice *s) { return par1_remove_file(AT(0), 1); }
static par1_answer add_volume(const struct slice *s) { return par1_add_volume(AT(0), PAR1_POWERS, 1); }
static par1_answer remove_volume(const struct slice *s) { return par1_remove_volume(AT(0), 1); }
static par1_answer quarantine(const struct slice *s) { return par1_quarantine(AT(0), 1); }
static par1_answer release(const struct slice *s) { return par1_release(AT(0), 1); }
static par1_answer count(const struct slice *s) { return par1_count(AT(0), AT(1)); }
static par1_answer query(const struct slice *s) { return par1_query(AT(0), 2, AT(1)); }
static par1_answer compare(const struct slice *s) { return par1_compare(AT(0), AT(1), AT(2)); }
static par1_answer export_(const struct slice *s) { return par1_export(AT(0), AT(1)); }
static par1_answer import(const struct slice *s) { return par1_import(AT(0), AT(1), AT(2)); }
static par1_answer replay(const struct slice *s) { return par1_replay(AT(0), AT(1)); }
static par1_answer catalog_open(const struct slice *s) { return par1_catalog_open(AT(0), AT(1)); }
static par1_answer catalog_add(const struct slice *s) { return par1_catalog_add(AT(0), AT(1)); }
static par1_answer catalog_drop(const struct slice *s) { return par1_catalog_drop(AT(0), 1); }
static par1_answer catalog_load(const struct slice *s) { return par1_catalog_load(AT(0), (struct par1_row *)(void *)s[1].at, s[1].count); }

#define BYTES(a) {a, sizeof a, 1}
#define ROOM(n) {paint, n, 1}
static const struct {
    const char *name;
    par1_answer (*make)(const struct slice *);
    struct slice lent[MOST];
} calls[] = {
    {"par1_md5", md5, {BYTES(data), ROOM(PAR1_MD5_BYTES)}},
    {"par1_inverse", inverse, {ROOM(1)}},
    {"par1_coefficient", coefficient, {ROOM(1)}},
    {"par1_mul_add", mul_add, {BYTES(contents[0]), BYTES(data)}},
    {"par1_read", read_, {{volume, VOLUME, 1}, ROOM(PAR1_PARTS_BYTES)}},
    {"par1_entry", entry, {BYTES(list), ROOM(PAR1_ENTRY_BYTES)}},
    {"par1_check", check, {{list, ENTRY, 1}, BYTES(contents[0])}},
    {"par1_write_entry", write_entry, {BYTES(contents[0]), BYTES(name), ROOM(ENTRY)}},
    {"par1_write_volume", write_volume, {BYTES(list), BYTES(data), ROOM(VOLUME)}},
    {"par1_write_volume", write_index, {BYTES(list), BYTES(data), ROOM(VOLUME)}},
    {"par1_amend", amend, {BYTES(volume), {contents[0] + 8, 4, 1}, {contents[0] + 8, 4, 1}, {list, ENTRY, 1}}},
    {"par1_amend", amend_on_the_end, {BYTES(volume), {grown, 0, 1}, {grown + SIZE, 1, 1}, BYTES(grown_entry)}},
    {"par1_hash_push", hash_push, {BYTES(data)}},
    {"par1_hash_end", hash_end, {ROOM(PAR1_MD5_BYTES)}},
    {"par1_mul_add_start", mul_add_start, {ROOM(PAR1_MUL_ADD_BYTES)}},
    {"par1_mul_add_push", mul_add_push, {BYTES(fold), BYTES(contents[0]), BYTES(data)}},
    {"par1_mul_add_end", mul_add_end, {BYTES(fold)}},
    {"par1_read_start", read_start, {ROOM(PAR1_READ_BYTES)}},
    {"par1_read_push", read_push, {BYTES(reading), {volume, VOLUME, 1}}},
    {"par1_read_end", read_end, {BYTES(pushed), ROOM(PAR1_PARTS_BYTES)}},
    {"par1_open", open_, {BYTES(sizes), ROOM(PAR1_INVENTORY_BYTES)}},
    {"par1_add_file", add_file, {BYTES(inventory)}},
    {"par1_remove_file", remove_file, {BYTES(present)}},
    {"par1_add_volume", add_volume, {BYTES(inventory)}},
    {"par1_remove_volume", remove_volume, {BYTES(present)}},
    {"par1_quarantine", quarantine, {BYTES(present)}},
    {"par1_release", release, {BYTES(aside)}},
    {"par1_count", count, {BYTES(present), ROOM(PAR1_COUNT_BYTES)}},
    {"par1_query", query, {BYTES(present), ROOM(PAR1_WEIGHTS_BYTES)}},
    {"par1_compare", compare, {{volume, VOLUME, 1}, {volume, VOLUME, 1}, ROOM(TEXT)}},
    {"par1_export", export_, {{volume, VOLUME, 1}, ROOM(LIST)}},
    {"par1_import", import, {{volume, VOLUME, 1}, BYTES(lines), ROOM(FILES)}},
    {"par1_replay", replay, {BYTES(arrivals), ROOM(TEXT)}},
    {"par1_catalog_open", catalog_open, {{volume, VOLUME, 1}, ROOM(CATALOG)}},
    {"par1_catalog_add", catalog_add, {BYTES(opened), {volume, VOLUME, 1}}},
    {"par1_catalog_drop", catalog_drop, {BYTES(filled)}},
    {"par1_catalog_load", catalog_load, {BYTES(filled), {paint, FILES, sizeof(struct par1_row)}}},
};

enum { CALLS = sizeof calls / sizeof *calls };

static void accepted(const char *call, par1_answer answer) {
    if (PAR1_NUMBER(answer) == PAR1_ACCEPTED) return;
    printf("%s refused with %u\n0 passed, 1 failed\n", call, (unsigned)PAR1_NUMBER(answer));
    exit(1);
}

static void make_set(void) {
    memset(paint, PAINT, sizeof paint);
    for (size_t f = 0; f < FILES; f++) {
        uint8_t weight;
        name[0] = (uint8_t)('A' + f);
        for (size_t p = 0; p < SIZE; p++) contents[f][p] = (uint8_t)(31 * f + p * p);
        accepted("write_entry", par1_write_entry(contents[f], SIZE, 1, name, NAME, list + f * ENTRY, ENTRY));
        accepted("coefficient", par1_coefficient(PAR1_POWERS, f + 1, 1, &weight, 1));
        par1_mul_add(weight, contents[f], SIZE, data, SIZE);
        par1_put_number(sizes, 8 * f, SIZE);
    }
    accepted("write_volume", par1_write_volume(PAR1_POWERS, 1, 1, list, LIST, data, SIZE, volume, VOLUME));
    name[0] = 'A';
    memcpy(grown, contents[0], SIZE);
    accepted("write_entry", par1_write_entry(grown, sizeof grown, 1, name, NAME, grown_entry, ENTRY));
    accepted("export", par1_export(volume, VOLUME, lines, LINES));
}

static void make_inventories(void) {
    accepted("open", par1_open(PAR1_POWERS, FILES, sizes, sizeof sizes, inventory, sizeof inventory));
    memcpy(present, inventory, sizeof present);
    accepted("add_file", par1_add_file(present, sizeof present, 1));
    accepted("add_volume", par1_add_volume(present, sizeof present, PAR1_POWERS, 1));
    memcpy(aside, present, sizeof aside);
    accepted("quarantine", par1_quarantine(aside, sizeof aside, 1));
    accepted("catalog_open", par1_catalog_open(volume, VOLUME, opened, sizeof opened));
    memcpy(filled, opened, sizeof filled);
    accepted("catalog_add", par1_catalog_add(filled, sizeof filled, volume, VOLUME));
}

static void make_jobs(void) {
    par1_hash_start(&hash);
    accepted("hash_push", par1_hash_push(&hash, data, SIZE));
    accepted("mul_add_start", par1_mul_add_start(7, fold, sizeof fold));
    accepted("read_start", par1_read_start(reading, sizeof reading));
    memcpy(pushed, reading, sizeof pushed);
    accepted("read_push", par1_read_push(pushed, sizeof pushed, volume, VOLUME));
}

/* What came of a call: its answer, the slices after it, one after another, and the hash. */
struct result {
    par1_answer answer;
    uint8_t bytes[1024];
    size_t length;
    struct par1_hash hash;
};

/* A call whose slices of `empty`, bit i for slice i, are empty and lie at `nowhere`. */
static struct result made(int call, unsigned empty, uint8_t *nowhere) {
    static struct result result;
    struct slice s[MOST] = {{0}};
    memset(&result, 0, sizeof result);
    running = hash;
    for (int i = 0; i < MOST && calls[call].lent[i].at != NULL; i++) {
        s[i] = calls[call].lent[i];
        size_t length = s[i].count * s[i].width;
        if (empty >> i & 1) {
            s[i].count = 0;
            s[i].at = nowhere;
        } else {
            s[i].at = memcpy(malloc(length + (length == 0)), s[i].at, length);
        }
    }
    result.answer = calls[call].make(s);
    result.hash = running;
    for (int i = 0; i < MOST && calls[call].lent[i].at != NULL; i++) {
        if (empty >> i & 1) continue;
        memcpy(result.bytes + result.length, s[i].at, s[i].count * s[i].width);
        result.length += s[i].count * s[i].width;
        free(s[i].at);
    }
    return result;
}

int main(void) {
    int passed = 0, failed = 0;
    uint8_t byte = PAINT, *untouchable = mmap(NULL, PAGE, PROT_NONE, MAP_PRIVATE | MAP_ANONYMOUS, -1, 0);
    if (untouchable == MAP_FAILED) return 2;
    make_set();
    make_inventories();
    make_jobs();
    for (int call = 0; call < CALLS; call++) {
        unsigned slices = 0;
        while (slices < MOST && calls[call].lent[slices].at != NULL) slices++;
        accepted(calls[call].name, made(call, 0, &byte).answer);
        for (unsigned empty = 1; empty < 1u << slices; empty++) {
            uint8_t *const nowhere[] = {NULL, untouchable};
            struct result want = made(call, empty, &byte);
            for (int i = 0; i < 2; i++) {
                struct result got = made(call, empty, nowhere[i]);
                if (byte == PAINT && memcmp(&got, &want, sizeof got) == 0) {
                    passed++;
                    continue;
                }
                failed++;
                printf("%s with the slices %u empty, at %p: otherwise than at a byte\n", calls[call].name, empty, (void *)nowhere[i]);
            }
        }
        printf("%s: %u slices\n", calls[call].name, slices);
    }
    printf("%d passed, %d failed\n", passed, failed);
    return failed > 0;
}
