/* Ashore they look for one file in many sets. Each set has a catalog, opened from its index and given its volumes as they come; the file is found by
 * its MD5 in the catalogs, and no volume is opened for it. */
#include "../include/par1.h"
#include <stdio.h>
#include <stdlib.h>
#include <string.h>

enum { SETS = 3, FILES = 4, SIZE = 900, ENTRY = PAR1_AT_ENTRY_NAME + 2, LIST = FILES * ENTRY, LENGTH = PAR1_AT_LIST + LIST + SIZE, VOLUMES = 5 };
enum { ROOM = PAR1_CATALOG_HEAD + PAR1_CATALOG_ROW * (FILES + VOLUMES) };

static uint8_t files[FILES][SIZE], list[LIST], volume[LENGTH], catalogs[SETS][ROOM];

static size_t accepted(const char *call, par1_answer answer) {
    if (PAR1_NUMBER(answer) == PAR1_ACCEPTED) return PAR1_VALUE(answer);
    printf("%s refused with %u\n", call, (unsigned)PAR1_NUMBER(answer));
    exit(1);
}

static size_t size_of(int f) { return SIZE - 100 * (size_t)f; }

/* The files of a set and their list; the third is listed and not saved. */
static void make_set(int set) {
    for (int f = 0; f < FILES; f++) {
        uint8_t name[2] = {(uint8_t)('A' + f), 0};
        for (size_t p = 0; p < SIZE; p++) files[f][p] = (uint8_t)(31 * set + 7 * f + p * p / 3);
        accepted("write_entry", par1_write_entry(files[f], size_of(f), f != 2, name, 2, list + f * ENTRY, ENTRY));
    }
}

/* An index where the number is 0, else a volume: how long it is. */
static size_t write_volume(uint64_t number) {
    uint8_t data[SIZE] = {0}, weight;
    size_t size = number == 0 ? 0 : SIZE;
    for (uint64_t f = 0, saved = 0; number > 0 && f < FILES; f++) {
        if (f == 2) continue;
        accepted("coefficient", par1_coefficient(PAR1_POWERS, ++saved, number, &weight, 1));
        par1_mul_add(weight, files[f], size_of((int)f), data, SIZE);
    }
    accepted("write_volume", par1_write_volume(PAR1_POWERS, 1, number, list, LIST, data, size, volume, LENGTH));
    return PAR1_AT_LIST + LIST + size;
}

/* The numbers of a catalog's volumes, as its rows have them. */
static void print_volumes(const uint8_t *catalog) {
    size_t row = par1_number32_at(catalog, PAR1_AT_CATALOG_VOLUME_ROWS);
    for (uint32_t v = par1_number32_at(catalog, PAR1_AT_CATALOG_VOLUMES); v > 0; v--, row += PAR1_CATALOG_ROW)
        printf(" %u", (unsigned)par1_number32_at(catalog, row + PAR1_AT_ROW_NUMBER));
    puts("");
}

/* Volumes come in any order; the first one comes again and is refused, and of each set the last to come is lost again. */
static void fill_catalog(int set) {
    static const uint64_t came[SETS][VOLUMES] = {{4, 1, 2}, {200, 3, 100, 1}, {252, 251}};
    uint8_t *catalog = catalogs[set];
    uint64_t last = 0;
    size_t length = write_volume(0);
    accepted("catalog_open", par1_catalog_open(volume, length, catalog, ROOM));
    for (int i = 0; i < VOLUMES && came[set][i] != 0; i++) {
        length = write_volume(came[set][i]);
        accepted("catalog_add", par1_catalog_add(catalog, ROOM, volume, length));
        last = came[set][i];
    }
    length = write_volume(came[set][0]);
    if (par1_catalog_add(catalog, ROOM, volume, length) != PAR1_E_ALREADY) exit(1);
    printf("set %d, %u files listed, volumes", set + 1, (unsigned)par1_number32_at(catalog, PAR1_AT_CATALOG_ENTRIES));
    print_volumes(catalog);
    length = accepted("catalog_drop", par1_catalog_drop(catalog, ROOM, last));
    printf("  without volume %u: %u bytes, volumes", (unsigned)last, (unsigned)length);
    print_volumes(catalog);
}

static void find(const uint8_t *contents, size_t size) {
    uint8_t md5[PAR1_MD5_BYTES];
    struct par1_row rows[FILES];
    accepted("md5", par1_md5(contents, size, md5, sizeof md5));
    for (int set = 0; set < SETS; set++) {
        size_t entries = accepted("catalog_load", par1_catalog_load(catalogs[set], ROOM, rows, FILES));
        for (size_t e = 0; e < entries; e++) {
            if (rows[e].size != size || memcmp(rows[e].md5, md5, sizeof md5) != 0) continue;
            printf("  in set %d, entry %u, %s", set + 1, (unsigned)e + 1, rows[e].file > 0 ? "file" : "not saved");
            if (rows[e].file > 0) printf(" %u of the parity", (unsigned)rows[e].file);
            printf(", volumes");
            print_volumes(catalogs[set]);
        }
    }
}

int main(void) {
    for (int set = 0; set < SETS; set++) {
        make_set(set);
        fill_catalog(set);
    }
    make_set(1);
    for (int f = 2; f < FILES; f++) {
        printf("a file of %u bytes:\n", (unsigned)size_of(f));
        find(files[f], size_of(f));
    }
    return 0;
}
