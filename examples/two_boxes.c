/* Two boxes that make volumes together. Each has a share of the saved files and adds its own, times their coefficients, to zeros of the data size: the
 * first a file at a time, the second in chunks as they come. The buffer of the second is sent to the first, in chunks too, which adds it with the
 * weight 1. What is written from the sum is held against the volume of all files written at once. */
#include "../include/par1.h"
#include <stdio.h>
#include <stdlib.h>
#include <string.h>

enum { FILES = 8, SIZE = 5000, CHUNK = 512, VOLUMES = 3, NAME = 10, ENTRY = PAR1_AT_ENTRY_NAME + NAME, LIST = FILES * ENTRY };
enum { NOT_SAVED = 3, EMPTY = 6, LENGTH = PAR1_AT_LIST + LIST + SIZE };

/* In list order. One of them is not saved and has no number; one that is saved is empty. */
static struct { uint8_t bytes[2 * SIZE]; size_t length; } files[FILES];
static uint8_t list[LIST];

static void accepted(const char *call, par1_answer answer) {
    if (answer == PAR1_ACCEPTED) return;
    printf("%s refused with %u\n", call, (unsigned)PAR1_NUMBER(answer));
    exit(1);
}

static void make_files(void) {
    for (int k = 0; k < FILES; k++) {
        files[k].length = k == NOT_SAVED ? 2 * SIZE : k == EMPTY ? 0 : (size_t)(SIZE - 611 * k);
        for (size_t p = 0; p < files[k].length; p++) files[k].bytes[p] = (uint8_t)(k * 37 + p * p / 3);
        uint8_t name[NAME] = {'F', 0, 'I', 0, 'L', 0, 'E', 0, (uint8_t)('A' + k), 0};
        accepted("write_entry", par1_write_entry(files[k].bytes, files[k].length, k != NOT_SAVED, name, NAME, list + k * ENTRY, ENTRY));
    }
}

/* Adds weight times the bytes to the buffer: in one call, or in chunks. */
static void at_once(uint8_t weight, const uint8_t *bytes, size_t length, uint8_t *buffer) { par1_mul_add(weight, bytes, length, buffer, SIZE); }

static void in_chunks(uint8_t weight, const uint8_t *bytes, size_t length, uint8_t *buffer) {
    uint8_t job[PAR1_MUL_ADD_BYTES];
    accepted("mul_add_start", par1_mul_add_start(weight, job, sizeof job));
    for (size_t p = 0; p < length; p += CHUNK) {
        size_t n = length - p < CHUNK ? length - p : CHUNK;
        accepted("mul_add_push", par1_mul_add_push(job, sizeof job, bytes + p, n, buffer, SIZE));
    }
    accepted("mul_add_end", par1_mul_add_end(job, sizeof job));
}

/* The saved files with these numbers, in steps of `step` from `first` on, added for volume v to zeros. */
static void add_files(uint64_t v, uint64_t first, uint64_t step, void (*add)(uint8_t, const uint8_t *, size_t, uint8_t *), uint8_t *buffer) {
    uint64_t number = 0;
    memset(buffer, 0, SIZE);
    for (int k = 0; k < FILES; k++) {
        uint8_t weight;
        if (k == NOT_SAVED || ++number < first || (number - first) % step != 0) continue;
        accepted("coefficient", par1_coefficient(PAR1_POWERS, number, v, &weight, 1));
        add(weight, files[k].bytes, files[k].length, buffer);
    }
}

int main(void) {
    static uint8_t all[SIZE], one[SIZE], two[SIZE], volume[LENGTH], merged[LENGTH];
    make_files();
    printf("%d files, of which %d are saved, in two boxes: the first adds each at once, the second %d bytes at a time\n", FILES, FILES - 1, CHUNK);
    for (uint64_t v = 1; v <= VOLUMES; v++) {
        add_files(v, 1, 1, at_once, all);
        accepted("write_volume", par1_write_volume(PAR1_POWERS, 1, v, list, LIST, all, SIZE, volume, LENGTH));
        add_files(v, 1, 2, at_once, one);
        add_files(v, 2, 2, in_chunks, two);
        in_chunks(1, two, SIZE, one);
        accepted("write_volume", par1_write_volume(PAR1_POWERS, 1, v, list, LIST, one, SIZE, merged, LENGTH));
        if (memcmp(volume, merged, LENGTH) != 0) {
            printf("volume %d is not as it must be\n", (int)v);
            return 1;
        }
        printf("volume %d from their buffers, summed: %d bytes, as written at once\n", (int)v, LENGTH);
    }
    return 0;
}
