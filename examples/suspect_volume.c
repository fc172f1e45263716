/* A volume under suspicion. Five of six files have come ashore and three volumes, by Cauchy's code; file 3 came damaged and counts as missing. Every
 * volume passes its hash, and still file 3 as rebuilt fails its check, for volume 2 was made of other bytes. Each volume in turn is set aside and, where
 * that does not help, taken back; the bad one is removed at last. */
#include "../include/par1.h"
#include <stdio.h>
#include <stdlib.h>

enum { FILES = 6, SIZE = 500, VOLUMES = 3, NAME = 2, ENTRY = PAR1_AT_ENTRY_NAME + NAME, LIST = FILES * ENTRY, LENGTH = PAR1_AT_LIST + LIST + SIZE };
enum { DAMAGED = 3, MISSING = 5, BAD = 2 };

/* By number, from 1, as they came; the bytes of a file that is missing count for nothing, for its weight is 0. */
static uint8_t files[FILES + 1][SIZE], volumes[VOLUMES + 1][LENGTH], list[LIST], inventory[PAR1_INVENTORY_BYTES];

static void accepted(const char *call, par1_answer answer) {
    if (answer == PAR1_ACCEPTED) return;
    printf("%s refused with %u\n", call, (unsigned)PAR1_NUMBER(answer));
    exit(1);
}

static const uint8_t *entry_of(int f) { return list + (f - 1) * ENTRY; }

/* The files and their list, and the volumes; while the bad one is made, file 1 has another first byte. */
static void make_set(void) {
    for (int f = 1; f <= FILES; f++) {
        uint8_t name[NAME] = {(uint8_t)('A' + f - 1), 0};
        for (size_t p = 0; p < SIZE; p++) files[f][p] = (uint8_t)(f * 37 + p * p / 3);
        accepted("write_entry", par1_write_entry(files[f], SIZE, 1, name, NAME, list + (f - 1) * ENTRY, ENTRY));
    }
    for (uint64_t v = 1; v <= VOLUMES; v++) {
        uint8_t data[SIZE] = {0}, weight;
        files[1][0] ^= v == BAD;
        for (uint64_t f = 1; f <= FILES; f++) {
            accepted("coefficient", par1_coefficient(PAR1_CAUCHY, f, v, &weight, 1));
            par1_mul_add(weight, files[f], SIZE, data, SIZE);
        }
        files[1][0] ^= v == BAD;
        accepted("write_volume", par1_write_volume(PAR1_CAUCHY, 1, v, list, LIST, data, SIZE, volumes[v], LENGTH));
    }
    files[DAMAGED][17] ^= 64;
}

static void counts(void) {
    uint8_t count[PAR1_COUNT_BYTES];
    accepted("count", par1_count(inventory, sizeof inventory, count, sizeof count));
    printf("  present: %d files and %d volumes; in quarantine: %d\n", (int)par1_number_at(count, PAR1_AT_COUNT_FILES),
           (int)par1_number_at(count, PAR1_AT_COUNT_VOLUMES), (int)par1_number_at(count, PAR1_AT_COUNT_QUARANTINED));
}

/* What has come is added: volumes by the code and number that reading tells. A file that fails its check is removed again. */
static void take_inventory(void) {
    uint8_t sizes[8 * FILES] = {0}, parts[PAR1_PARTS_BYTES];
    for (int f = 1; f <= FILES; f++) {
        sizes[8 * (f - 1)] = SIZE % 256;
        sizes[8 * (f - 1) + 1] = SIZE / 256;
    }
    accepted("open", par1_open(PAR1_CAUCHY, FILES, sizes, sizeof sizes, inventory, sizeof inventory));
    for (int v = 1; v <= VOLUMES; v++) {
        accepted("read", par1_read(volumes[v], LENGTH, parts, sizeof parts));
        uint32_t code = (uint32_t)par1_number_at(parts, PAR1_AT_PARTS_CODE);
        accepted("add_volume", par1_add_volume(inventory, sizeof inventory, code, par1_number_at(parts, PAR1_AT_PARTS_NUMBER)));
    }
    for (int f = 1; f <= FILES; f++)
        if (f != MISSING) accepted("add_file", par1_add_file(inventory, sizeof inventory, (uint64_t)f));
    for (int f = 1; f <= FILES; f++) {
        if (f == MISSING || par1_check(entry_of(f), ENTRY, files[f], SIZE) == PAR1_ACCEPTED) continue;
        accepted("remove_file", par1_remove_file(inventory, sizeof inventory, (uint64_t)f));
        printf("  file %d fails its check, and is removed\n", f);
    }
}

/* Rebuilds a file from what is present and holds it against its entry: 0, or PAR1_E_DIFFERENT. The buffer may be the place of
 * the file itself, which is not among what is present: no call is lent the same bytes twice. */
static uint32_t rebuild(int file, uint8_t *buffer) {
    uint8_t weights[PAR1_WEIGHTS];
    accepted("query", par1_query(inventory, sizeof inventory, (uint64_t)file, weights, sizeof weights));
    for (int p = 0; p < SIZE; p++) buffer[p] = 0;
    for (int f = 1; f <= FILES; f++)
        if (f != file) par1_mul_add(weights[f - 1], files[f], SIZE, buffer, SIZE);
    for (int v = 1; v <= VOLUMES; v++) par1_mul_add(weights[FILES + v - 1], volumes[v] + PAR1_AT_LIST + LIST, SIZE, buffer, SIZE);
    return par1_check(entry_of(file), ENTRY, buffer, SIZE);
}

/* The volume without which the file comes back as its entry says; it stays in quarantine. */
static uint64_t suspect(int file) {
    uint8_t buffer[SIZE];
    for (uint64_t v = 1; v <= VOLUMES; v++) {
        accepted("quarantine", par1_quarantine(inventory, sizeof inventory, v));
        uint32_t number = rebuild(file, buffer);
        printf("  volume %d set aside: file %d rebuilt, and %s\n", (int)v, file, number == PAR1_ACCEPTED ? "checked" : "it differs from its entry");
        if (number == PAR1_ACCEPTED) return v;
        accepted("release", par1_release(inventory, sizeof inventory, v));
    }
    puts("more than one volume is bad");
    exit(1);
}

int main(void) {
    uint8_t buffer[SIZE];
    make_set();
    printf("%d of %d files come ashore, and %d volumes, by Cauchy's code:\n", FILES - 1, FILES, VOLUMES);
    take_inventory();
    counts();
    printf("  file %d rebuilt: refused with %u, it differs from its entry\n", DAMAGED, (unsigned)rebuild(DAMAGED, buffer));
    uint64_t bad = suspect(DAMAGED);
    counts();
    const int back[] = {DAMAGED, MISSING};
    for (int i = 0; i < 2; i++) {
        accepted("check", rebuild(back[i], files[back[i]]));
        accepted("add_file", par1_add_file(inventory, sizeof inventory, (uint64_t)back[i]));
    }
    accepted("remove_volume", par1_remove_volume(inventory, sizeof inventory, bad));
    printf("  files %d and %d are back, and volume %d is removed\n", DAMAGED, MISSING, (int)bad);
    counts();
    return 0;
}
