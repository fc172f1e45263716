/* A catalog of 1,024 entries, 100 of them saved, and 154 volumes: a volume of 64 KiB added and dropped again, the catalog opened, both against
   reading the file, which each does first; and its rows loaded, against the same as a C loop. */
#include "clock.h"
#include "../include/par1.h"
#include <string.h>

enum { ENTRIES = PAR1_MAX_ENTRIES, SAVED = 100, VOLUMES = 255 - SAVED, MIDDLE = VOLUMES / 2, SIZE = 4096, TURNS = 15, CALLS = 20 };
enum { ENTRY = PAR1_AT_ENTRY_NAME + 2, LIST = ENTRIES * ENTRY, LENGTH = PAR1_AT_LIST + LIST + SIZE, CATALOG = PAR1_CATALOG_HEAD + PAR1_CATALOG_ROW * (ENTRIES + VOLUMES) };

static uint8_t list[LIST], volume[LENGTH], index_[LENGTH], catalog[CATALOG], opened[CATALOG], parts[PAR1_PARTS_BYTES];
static struct par1_row rows[ENTRIES], loops_rows[ENTRIES];
static par1_answer added, dropped, answer;

static void add_and_drop(void) {
    added = par1_catalog_add(catalog, CATALOG, volume, LENGTH);
    dropped = par1_catalog_drop(catalog, CATALOG, MIDDLE);
}

static void read_volume(void) { answer = par1_read(volume, LENGTH, parts, sizeof parts); }
static void open_(void) { answer = par1_catalog_open(index_, PAR1_AT_LIST + LIST, opened, CATALOG); }
static void read_index(void) { par1_read(index_, PAR1_AT_LIST + LIST, parts, sizeof parts); }
static void load(void) { answer = par1_catalog_load(catalog, CATALOG, rows, ENTRIES); }

static void loops(void) {
    for (int e = 0; e < ENTRIES; e++) {
        const uint8_t *row = catalog + PAR1_CATALOG_HEAD + PAR1_CATALOG_ROW * e;
        memcpy(&loops_rows[e].file, row, 4);
        memcpy(&loops_rows[e].size, row + 4, 8);
        memcpy(loops_rows[e].md5, row + 12, 16);
    }
}

/* One entry in ten is saved; every volume but the one in the middle is in the catalog. */
static int prepare(void) {
    static uint8_t data[SIZE];
    static const uint8_t name[2] = {'A', 0};
    for (int e = 0; e < ENTRIES; e++) {
        data[0] = (uint8_t)e;
        if (par1_write_entry(data, SIZE, e % 10 == 0 && e / 10 < SAVED, name, 2, list + e * ENTRY, ENTRY) != 0) return 0;
    }
    if (par1_write_volume(PAR1_POWERS, 1, 0, list, LIST, data, 0, index_, LENGTH) != 0) return 0;
    open_();
    memcpy(catalog, opened, CATALOG);
    for (uint64_t v = 1; v <= VOLUMES; v++) {
        uint64_t number = v < MIDDLE ? v : v < VOLUMES ? v + 1 : MIDDLE;
        if (par1_write_volume(PAR1_POWERS, 1, number, list, LIST, data, SIZE, volume, LENGTH) != 0) return 0;
        if (v < VOLUMES && PAR1_NUMBER(par1_catalog_add(catalog, CATALOG, volume, LENGTH)) != 0) return 0;
    }
    return 1;
}

int main(void) {
    double a = 0, b = 0, c = 0, d = 0, e = 0, f = 0;
    int right = prepare();
    COMPARE(TURNS, CALLS, add_and_drop(), read_volume(), a, b)
    right &= added == 32 * CATALOG && dropped == 32 * (CATALOG - PAR1_CATALOG_ROW);
    right &= row("a volume added and dropped, 1,024 entries", "reading the volume", 0, a, b, 0);
    COMPARE(TURNS, CALLS, open_(), read_index(), c, d)
    right &= answer == 32 * (PAR1_CATALOG_HEAD + PAR1_CATALOG_ROW * ENTRIES);
    right &= row("a catalog of 1,024 entries opened", "reading the index", 0, c, d, 0);
    COMPARE(TURNS, CALLS, load(), loops(), e, f)
    right &= answer == 32 * ENTRIES && memcmp(&rows[ENTRIES - 1].size, &loops_rows[ENTRIES - 1].size, 24) == 0;
    right &= row("its rows loaded", "the same as a C loop", 0, e, f, 0);
    if (!right) puts("catalog: an answer is not the one that it must be");
    return !right;
}
