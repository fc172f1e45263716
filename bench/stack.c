/* The stack of each call of the C library: the stack below is filled with known bytes, and the deepest one that the call changed tells how
 * far down it went; what an empty call changes is taken off. Each call has an input that is accepted. */
#include "../include/par1.h"
#include <stdio.h>
#include <stdlib.h>

enum { STACK = 1 << 20, PAINT = 0xa5, FILES = 127, VOLUMES = 128, SIZE = 1 << 16, ENTRY = PAR1_AT_ENTRY_NAME + 2, LIST = FILES * ENTRY };
enum { VOLUME = PAR1_AT_LIST + LIST + SIZE };

static uint8_t contents[SIZE], list[LIST], volume[VOLUME], sizes[8 * FILES], inventory[PAR1_INVENTORY_BYTES], room[VOLUME], other[VOLUME];
static uint8_t fold[PAR1_MUL_ADD_BYTES], reading[PAR1_READ_BYTES];
static struct par1_hash hash;
static struct par1_row rows[FILES];
static const uint8_t name[2] = {'A', 0};
static char log_[8 * (FILES + VOLUMES)];
static size_t log_length;
static par1_answer number;

static void nothing(void) { number = 0; }
static void md5(void) { number = par1_md5(contents, SIZE - 1, room, VOLUME); }
static void inverse(void) { number = par1_inverse(7, room, VOLUME); }
static void coefficient(void) { number = par1_coefficient(PAR1_CAUCHY, 127, 128, room, VOLUME); }
static void mul_add(void) { par1_mul_add(7, contents, SIZE - 1, room, VOLUME), number = 0; }
static void read_(void) { number = par1_read(volume, VOLUME, room, VOLUME); }
static void entry(void) { number = par1_entry(list, LIST, room, VOLUME); }
static void write_entry(void) { number = par1_write_entry(contents, SIZE, 1, name, 2, room, VOLUME); }
static void write_volume(void) { number = par1_write_volume(PAR1_CAUCHY, 1, 1, list, LIST, contents, SIZE, volume, VOLUME); }
static void amend(void) {
    number = PAR1_NUMBER(par1_amend(volume, VOLUME, VOLUME, 1, 0, contents, SIZE / 2, contents + SIZE / 2, SIZE / 2, list, ENTRY));
}
static void compare(void) { number = PAR1_NUMBER(par1_compare(volume, VOLUME, other, VOLUME, room, VOLUME)); }
static void export_(void) { number = PAR1_NUMBER(par1_export(volume, VOLUME, room, VOLUME)); }
static void import(void) { number = PAR1_NUMBER(par1_import(volume, VOLUME, room, 36, other, VOLUME)); }
static void catalog_open(void) { number = PAR1_NUMBER(par1_catalog_open(volume, VOLUME, room, VOLUME)); }
static void catalog_add(void) { number = PAR1_NUMBER(par1_catalog_add(room, VOLUME, volume, VOLUME)); }
static void catalog_load(void) { number = PAR1_NUMBER(par1_catalog_load(room, VOLUME, rows, FILES)); }
static void catalog_drop(void) { number = PAR1_NUMBER(par1_catalog_drop(room, VOLUME, 1)); }
static void check(void) { number = par1_check(list, ENTRY, contents, SIZE); }
static void hash_start(void) { par1_hash_start(&hash), number = 0; }
static void hash_push(void) { number = par1_hash_push(&hash, contents, SIZE - 1); }
static void hash_end(void) { number = par1_hash_end(&hash, room, VOLUME); }
static void mul_add_start(void) { number = par1_mul_add_start(7, fold, sizeof fold); }
static void mul_add_push(void) { number = par1_mul_add_push(fold, sizeof fold, contents, SIZE - 1, room, VOLUME); }
static void mul_add_end(void) { number = par1_mul_add_end(fold, sizeof fold); }
static void read_start(void) { number = par1_read_start(reading, sizeof reading); }
static void read_push(void) { number = par1_read_push(reading, sizeof reading, volume, VOLUME); }
static void read_end(void) { number = par1_read_end(reading, sizeof reading, room, VOLUME); }
static void open_(void) { number = par1_open(PAR1_CAUCHY, FILES, sizes, sizeof sizes, inventory, sizeof inventory); }
static void add_file(void) { number = par1_add_file(inventory, sizeof inventory, 1); }
static void remove_file(void) { number = par1_remove_file(inventory, sizeof inventory, 1); }
static void add_volume(void) { number = par1_add_volume(inventory, sizeof inventory, PAR1_CAUCHY, 128); }
static void remove_volume(void) { number = par1_remove_volume(inventory, sizeof inventory, 128); }
static void quarantine(void) { number = par1_quarantine(inventory, sizeof inventory, 128); }
static void release(void) { number = par1_release(inventory, sizeof inventory, 128); }
static void count(void) { number = par1_count(inventory, sizeof inventory, room, VOLUME); }
static void replay(void) { number = PAR1_NUMBER(par1_replay((const uint8_t *)log_, log_length, room, VOLUME)); }
static void query(void) { number = par1_query(inventory, sizeof inventory, 1, room, VOLUME); }

static const struct { const char *name; void (*run)(void); } calls[] = {
    {"par1_md5", md5}, {"par1_inverse", inverse}, {"par1_coefficient", coefficient}, {"par1_mul_add", mul_add},
    {"par1_write_entry", write_entry}, {"par1_entry", entry}, {"par1_check", check}, {"par1_write_volume", write_volume}, {"par1_amend", amend},
    {"par1_read", read_}, {"par1_compare", compare}, {"par1_export", export_}, {"par1_import", import},
    {"par1_catalog_open", catalog_open}, {"par1_catalog_add", catalog_add}, {"par1_catalog_load", catalog_load}, {"par1_catalog_drop", catalog_drop},
    {"par1_hash_start", hash_start},
    {"par1_hash_push", hash_push}, {"par1_hash_end", hash_end},
    {"par1_mul_add_start", mul_add_start}, {"par1_mul_add_push", mul_add_push}, {"par1_mul_add_end", mul_add_end},
    {"par1_read_start", read_start}, {"par1_read_push", read_push}, {"par1_read_end", read_end},
    {"par1_open", open_}, {"par1_add_file", add_file}, {"par1_remove_file", remove_file}, {"par1_add_volume", add_volume},
    {"par1_quarantine", quarantine}, {"par1_release", release}, {"par1_remove_volume", remove_volume}, {"par1_count", count}, {"par1_query", query},
    {"par1_replay", replay}};

/* How far below this function's frame the call changed the stack. */
static size_t depth(void (*call)(void)) {
    volatile uint8_t *here, *p;
    __asm__ volatile("mov %%rsp, %0" : "=r"(here));
    for (p = here - STACK; p < here; p++) *p = PAINT;
    call();
    for (p = here - STACK; p < here && *p == PAINT; p++) {}
    return (size_t)(here - p);
}

/* 127 files, their list and a volume; an inventory with every file missing and every volume present, which makes the longest query;
 * a log that ends so. */
static void prepare(void) {
    for (size_t i = 0; i < SIZE; i++) contents[i] = (uint8_t)(i * i >> 3);
    for (int f = 0; f < FILES; f++) {
        if (par1_write_entry(contents, SIZE, 1, name, 2, list + f * ENTRY, ENTRY) != 0) exit(2);
        sizes[8 * f + 2] = SIZE >> 16;
    }
    char *at = log_ + sprintf(log_, "%d", FILES);
    for (int f = 0; f < FILES; f++) at += sprintf(at, " 1");
    for (int v = 1; v <= VOLUMES; v++) at += sprintf(at, "\nV %d", v);
    log_length = (size_t)(at + sprintf(at, "\n") - log_);
    if (par1_write_volume(PAR1_CAUCHY, 1, 1, list, LIST, contents, SIZE, volume, VOLUME) != 0) exit(2);
    if (par1_write_volume(PAR1_CAUCHY, 2, 2, list, LIST, contents, SIZE, other, VOLUME) != 0) exit(2);
}

int main(void) {
    prepare();
    size_t base = depth(nothing);
    puts("| call | bytes of stack |\n|---|---|");
    for (size_t i = 0; i < sizeof calls / sizeof *calls; i++) {
        size_t deep = depth(calls[i].run);
        if (number != 0) return printf("%s answered %u\n", calls[i].name, PAR1_NUMBER(number)), 1;
        printf("| `%s` | %zu |\n", calls[i].name, deep - base);
        if (calls[i].run == open_)
            for (uint64_t v = 1; v < VOLUMES; v++) par1_add_volume(inventory, sizeof inventory, PAR1_CAUCHY, v);
        if (calls[i].run == remove_volume) add_volume();
    }
    return 0;
}
