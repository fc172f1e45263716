/* A whole set in memory: 24 files of 1 MiB, an index and 8 volumes created, 8 files missing, rebuilt and checked; by Cauchy coefficients against the
   powers of Par 1.0; and where a directory is given, by these against the program `parchive` on files there, which should be in memory too. Every file
   that comes back must be the one removed. */
#include "clock.h"
#include "../include/par1.h"
#include <string.h>

enum { FILES = 24, VOLUMES = 8, SIZE = 1 << 20, ENTRY = 66, LIST = FILES * ENTRY, VOLUME_SIZE = 96 + LIST + SIZE };

static uint8_t *files[FILES + 1], *volumes[VOLUMES + 1], *rebuilt[VOLUMES + 1];
static uint8_t list[LIST], index_file[96 + LIST];

static void accepted(const char *call, par1_answer answer) {
    if (answer != 0) {
        printf("%s refused with %u\n", call, PAR1_NUMBER(answer));
        exit(1);
    }
}

static void create(uint32_t code) {
    static uint8_t data[SIZE];
    for (int f = 1; f <= FILES; f++) {
        uint8_t name[10] = {'F', 0, 'I', 0, 'L', 0, (uint8_t)('0' + f / 10), 0, (uint8_t)('0' + f % 10), 0};
        accepted("write_entry", par1_write_entry(files[f], SIZE, 1, name, 10, list + (f - 1) * ENTRY, ENTRY));
    }
    accepted("write_volume", par1_write_volume(code, 1, 0, list, LIST, list, 0, index_file, sizeof index_file));
    for (int v = 1; v <= VOLUMES; v++) {
        memset(data, 0, SIZE);
        for (int f = 1; f <= FILES; f++) {
            uint8_t weight;
            accepted("coefficient", par1_coefficient(code, (uint64_t)f, (uint64_t)v, &weight, 1));
            par1_mul_add(weight, files[f], SIZE, data, SIZE);
        }
        accepted("write_volume", par1_write_volume(code, 1, (uint64_t)v, list, LIST, data, SIZE, volumes[v], VOLUME_SIZE));
    }
}

/* What is there is checked first, as it would be after a bad link: files 9 to 24 and the volumes. */
static void take_inventory(uint32_t code, uint8_t *inventory) {
    uint8_t sizes[8 * FILES] = {0}, parts[PAR1_PARTS_BYTES];
    for (int f = 1; f <= FILES; f++) sizes[8 * f - 6] = SIZE >> 16;
    accepted("open", par1_open(code, FILES, sizes, sizeof sizes, inventory, PAR1_INVENTORY_BYTES));
    for (int f = VOLUMES + 1; f <= FILES; f++) {
        accepted("check", par1_check(list + (f - 1) * ENTRY, ENTRY, files[f], SIZE));
        accepted("add_file", par1_add_file(inventory, PAR1_INVENTORY_BYTES, (uint64_t)f));
    }
    for (int v = 1; v <= VOLUMES; v++) {
        accepted("read", par1_read(volumes[v], VOLUME_SIZE, parts, sizeof parts));
        accepted("add_volume", par1_add_volume(inventory, PAR1_INVENTORY_BYTES, parts[PAR1_AT_PARTS_CODE], (uint64_t)v));
    }
}

static void rebuild(uint32_t code) {
    uint8_t inventory[PAR1_INVENTORY_BYTES], weights[255];
    take_inventory(code, inventory);
    for (int missing = 1; missing <= VOLUMES; missing++) {
        accepted("query", par1_query(inventory, PAR1_INVENTORY_BYTES, (uint64_t)missing, weights, 255));
        memset(rebuilt[missing], 0, SIZE);
        for (int f = VOLUMES + 1; f <= FILES; f++) par1_mul_add(weights[f - 1], files[f], SIZE, rebuilt[missing], SIZE);
        for (int v = 1; v <= VOLUMES; v++) par1_mul_add(weights[FILES + v - 1], volumes[v] + 96 + LIST, SIZE, rebuilt[missing], SIZE);
        accepted("check", par1_check(list + (missing - 1) * ENTRY, ENTRY, rebuilt[missing], SIZE));
    }
}

/* Whether the files that came back are those removed. */
static int all_back(void) {
    int same = 1;
    for (int f = 1; f <= VOLUMES; f++) {
        same &= memcmp(rebuilt[f], files[f], SIZE) == 0;
        memset(rebuilt[f], 0, SIZE);
    }
    return same;
}

/* The processor time of a call, or the best so far where that is less: what else runs on the machine does not count. */
static double best_of(double best, void (*call)(uint32_t), uint32_t code) {
    struct timespec from, to;
    clock_gettime(CLOCK_PROCESS_CPUTIME_ID, &from);
    call(code);
    clock_gettime(CLOCK_PROCESS_CPUTIME_ID, &to);
    double time = (double)(to.tv_sec - from.tv_sec) + 1e-9 * (double)(to.tv_nsec - from.tv_nsec);
    return time < best ? time : best;
}

/* Sets of both codes, created and rebuilt in turn, by processor time. */
static int both_codes(void) {
    static const uint32_t codes[] = {PAR1_CAUCHY, PAR1_POWERS};
    double created[2] = {1e9, 1e9}, restored[2] = {1e9, 1e9};
    int same = 1;
    for (int turn = 0; turn < 15; turn++)
        for (int i = 0; i < 2; i++) {
            created[i] = best_of(created[i], create, codes[i]);
            restored[i] = best_of(restored[i], rebuild, codes[i]);
            same &= all_back();
        }
    int right = row("24 files of 1 MiB: created, Cauchy", "created, powers", 0, created[0], created[1], 0.95);
    right &= row("24 files of 1 MiB: 8 rebuilt, Cauchy", "8 rebuilt, powers", 0, restored[0], restored[1], 0.95);
    if (!same) puts("set: a file that came back differs");
    return right && same;
}

/* Runs a command in the directory, its output dropped. */
static void command(const char *directory, const char *text) {
    char line[4096];
    snprintf(line, sizeof line, "cd '%s' && { %s; } >/dev/null 2>&1", directory, text);
    if (system(line) != 0) printf("failed: %s\n", text);
}

static void put_files(const char *directory) {
    for (int f = 1; f <= FILES; f++) {
        char path[4096];
        snprintf(path, sizeof path, "%s/FIL%02d", directory, f);
        FILE *file = fopen(path, "wb");
        if (file == NULL || fwrite(files[f], 1, SIZE, file) != SIZE || fclose(file) != 0) {
            printf("cannot write %s\n", path);
            exit(1);
        }
    }
}

/* The removed files that are in the directory with their contents. */
static int files_back(const char *directory) {
    static uint8_t found[SIZE];
    int back = 0;
    for (int f = 1; f <= VOLUMES; f++) {
        char path[4096];
        snprintf(path, sizeof path, "%s/FIL%02d", directory, f);
        FILE *file = fopen(path, "rb");
        if (file == NULL) continue;
        back += fread(found, 1, SIZE, file) == SIZE && memcmp(found, files[f], SIZE) == 0;
        fclose(file);
    }
    return back;
}

static void remove_files(const char *directory) { command(directory, "rm -f FIL01 FIL02 FIL03 FIL04 FIL05 FIL06 FIL07 FIL08"); }

int main(int argc, char **argv) {
    const char *directory = argc > 1 ? argv[1] : NULL;
    double create_ours = 0, create_other = 0, rebuild_ours = 0, rebuild_other = 0;
    uint8_t *contents = random_bytes((size_t)FILES * SIZE);
    for (int f = 1; f <= FILES; f++) files[f] = contents + (size_t)(f - 1) * SIZE;
    for (int v = 1; v <= VOLUMES; v++) volumes[v] = calloc(1, VOLUME_SIZE), rebuilt[v] = calloc(1, SIZE);
    int right = both_codes();
    create(PAR1_POWERS);
    if (directory != NULL) put_files(directory);
    COMPARE(5, 1, create(PAR1_POWERS), if (directory != NULL) command(directory, "rm -f set.*; parchive a -n 8 set.par FIL*"), create_ours, create_other)
    for (int turn = 0; turn < 5; turn++) {
        double a = 0, b = 0;
        if (directory != NULL) remove_files(directory);
        COMPARE(1, 1, rebuild(PAR1_POWERS), if (directory != NULL) command(directory, "parchive r set.par"), a, b)
        if (turn == 0 || a < rebuild_ours) rebuild_ours = a;
        if (turn == 0 || b < rebuild_other) rebuild_other = b;
    }
    int same = (directory == NULL || files_back(directory) == VOLUMES) & all_back();
    if (directory != NULL) {
        right &= row("24 files of 1 MiB: index, 8 volumes created", "parchive", 0, create_ours, create_other, 1.0);
        right &= row("24 files of 1 MiB: 8 missing rebuilt", "parchive", 0, rebuild_ours, rebuild_other, 1.0);
    }
    if (!same) puts("set: a file that came back differs");
    return !right || !same;
}
