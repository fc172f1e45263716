/* A set of 24 files in memory: writes its index and four volumes, loses files 7 and 24, walks the list of a volume for the sizes of the files,
 * asks which files come back, rebuilds them and holds them against their entries; with the coefficients of Par 1.0, by which volumes 1 and 4 do not bring
 * these two back, and with Cauchy's, by which any two volumes do. */
#include "../include/par1.h"
#include <stdio.h>
#include <stdlib.h>
#include <string.h>

enum { FILES = 24, VOLUMES = 4, SIZE = 1000, NAME = 10, ENTRY = PAR1_AT_ENTRY_NAME + NAME, LIST = FILES * ENTRY, LENGTH = PAR1_AT_LIST + LIST + SIZE };

/* By number, from 1. A file that is lost and a volume that is not there have the length 0. */
static struct { uint8_t bytes[SIZE]; size_t length; } files[FILES + 1];
static struct { uint8_t bytes[LENGTH]; size_t length; } volumes[VOLUMES + 1];

/* What the list says of each file. */
static struct { const uint8_t *entry; size_t length, size; } listed[FILES + 1];

static uint8_t inventory[PAR1_INVENTORY_BYTES];

/* Every call below must be accepted. A refusal that is about an entry of a list tells its place; a bare number is an answer with none. */
static void accepted(const char *call, par1_answer answer) {
    if (answer == PAR1_ACCEPTED) return;
    printf("%s refused with %u", call, (unsigned)PAR1_NUMBER(answer));
    if (PAR1_VALUE(answer) != 0) printf(", entry %lu", (unsigned long)PAR1_VALUE(answer));
    puts("");
    exit(1);
}

/* Files of unequal sizes, their entries, and the volumes' data: each file, times its coefficient by the code, added to zeros. */
static void make_set(uint32_t code) {
    uint8_t list[LIST], index[PAR1_AT_LIST + LIST];
    for (int f = 1; f <= FILES; f++) {
        files[f].length = (size_t)(SIZE - 30 * (f - 1));
        for (size_t p = 0; p < files[f].length; p++) files[f].bytes[p] = (uint8_t)(f * 31 + p * p);
        uint8_t name[NAME] = {'F', 0, 'I', 0, 'L', 0, (uint8_t)('0' + f / 10), 0, (uint8_t)('0' + f % 10), 0};
        accepted("write_entry", par1_write_entry(files[f].bytes, files[f].length, 1, name, NAME, list + (f - 1) * ENTRY, ENTRY));
    }
    accepted("write_volume", par1_write_volume(code, 1, 0, list, LIST, NULL, 0, index, sizeof index));
    for (uint64_t v = 1; v <= VOLUMES; v++) {
        uint8_t data[SIZE] = {0};
        for (uint64_t f = 1; f <= FILES; f++) {
            uint8_t weight;
            accepted("coefficient", par1_coefficient(code, f, v, &weight, 1));
            par1_mul_add(weight, files[f].bytes, files[f].length, data, SIZE);
        }
        accepted("write_volume", par1_write_volume(code, 1, v, list, LIST, data, SIZE, volumes[v].bytes, LENGTH));
    }
    memset(&files[7], 0, sizeof files[7]);
    memset(&files[24], 0, sizeof files[24]);
    for (int v = 1; v <= VOLUMES; v++) volumes[v].length = 0;
    printf("%d files, an index and %d volumes written, with %s coefficients\n", FILES, VOLUMES, code == PAR1_CAUCHY ? "Cauchy's" : "Par 1.0's");
}

/* Walks the list of a volume, entry by entry. Files are numbered over the saved entries only. */
static int walk(const uint8_t *volume) {
    uint8_t parts[PAR1_PARTS_BYTES], entry[PAR1_ENTRY_BYTES];
    accepted("read", par1_read(volume, LENGTH, parts, sizeof parts));
    const uint8_t *list = volume + PAR1_AT_LIST, *end = list + par1_number_at(parts, PAR1_AT_PARTS_LIST_SIZE);
    for (int n = 0;; list += par1_number_at(entry, PAR1_AT_ENTRY_LENGTH)) {
        accepted("entry", par1_entry(list, (size_t)(end - list), entry, sizeof entry));
        if (par1_number_at(entry, PAR1_AT_ENTRY_LENGTH) == 0) return n;
        if (par1_number_at(entry, PAR1_AT_ENTRY_STATUS) % 2 == 0) continue;
        n++;
        listed[n].entry = list;
        listed[n].length = par1_number_at(entry, PAR1_AT_ENTRY_LENGTH);
        listed[n].size = par1_number_at(entry, PAR1_AT_ENTRY_FILE_SIZE);
    }
}

/* A volume that has come: reading tells its code. */
static void add_volume(uint64_t v) {
    uint8_t parts[PAR1_PARTS_BYTES];
    volumes[v].length = LENGTH;
    accepted("read", par1_read(volumes[v].bytes, LENGTH, parts, sizeof parts));
    accepted("add_volume", par1_add_volume(inventory, sizeof inventory, (uint32_t)par1_number_at(parts, PAR1_AT_PARTS_CODE), v));
}

/* An inventory of the files that the list names and of volumes of this code, with those present and two volumes. */
static void take_inventory(uint32_t code, int n) {
    uint8_t sizes[8 * FILES];
    for (int f = 1; f <= n; f++) par1_put_number(sizes, 8 * (size_t)(f - 1), listed[f].size);
    accepted("open", par1_open(code, (uint64_t)n, sizes, 8 * (size_t)n, inventory, sizeof inventory));
    for (int f = 1; f <= n; f++)
        if (files[f].length != 0) accepted("add_file", par1_add_file(inventory, sizeof inventory, (uint64_t)f));
    add_volume(1);
    add_volume(4);
}

static void query(uint64_t file) {
    uint8_t weights[PAR1_WEIGHTS];
    uint32_t number = par1_query(inventory, sizeof inventory, file, weights, sizeof weights);
    const char *answer = number == PAR1_ACCEPTED ? "recoverable" : number == PAR1_E_UNDETERMINED ? "undetermined" : "refused or present";
    printf("  file %2d: %s\n", (int)file, answer);
}

/* Follows the weights over what is present, and holds the result against the file's entry. */
static void rebuild(uint64_t file) {
    uint8_t weights[PAR1_WEIGHTS], buffer[SIZE] = {0}, parts[PAR1_PARTS_BYTES];
    size_t size = listed[file].size;
    accepted("query", par1_query(inventory, sizeof inventory, file, weights, sizeof weights));
    for (int f = 1; f <= FILES; f++) par1_mul_add(weights[f - 1], files[f].bytes, files[f].length, buffer, size);
    for (int v = 1; v <= VOLUMES; v++) {
        if (volumes[v].length == 0) continue;
        accepted("read", par1_read(volumes[v].bytes, volumes[v].length, parts, sizeof parts));
        const uint8_t *data = volumes[v].bytes + par1_number_at(parts, PAR1_AT_PARTS_DATA_START);
        par1_mul_add(weights[FILES + v - 1], data, par1_number_at(parts, PAR1_AT_PARTS_DATA_SIZE), buffer, size);
    }
    accepted("check", par1_check(listed[file].entry, listed[file].length, buffer, size));
    printf("  file %2d: rebuilt, %d bytes, and checked\n", (int)file, (int)size);
}

/* Files 7 and 24 lost, volumes 1 and 4 present. */
static void lose_two(uint32_t code) {
    make_set(code);
    int n = walk(volumes[1].bytes);
    printf("the list of volume 1 walked: %d saved files, the first of %d bytes\n", n, (int)listed[1].size);
    take_inventory(code, n);
    puts("files 7 and 24 missing, volumes 1 and 4 present:");
    query(7);
    query(24);
}

int main(void) {
    lose_two(PAR1_POWERS);
    add_volume(2);
    puts("volume 2 too:");
    rebuild(7);
    rebuild(24);
    lose_two(PAR1_CAUCHY);
    rebuild(7);
    rebuild(24);
    return 0;
}
