/* An amendment of 4 KiB in a volume of 16 MiB, against writing the volume afresh from its 24 files, and against two digests of it, which an
   amendment makes whatever its stretch is. The amended volume must be the one that is written afresh. */
#include "clock.h"
#include "../include/par1.h"
#include <string.h>

enum { FILES = 24, CHANGED = 7, VOLUME = 3, ENTRY = 66, LIST = FILES * ENTRY, LENGTH = 1 << 24, SIZE = LENGTH - 96 - LIST };
enum { STRETCH = 4096, PLACE = SIZE / 2, TURNS = 15 };

/* File 7 has one of two stretches, each with its entry; `now` is the one that the amended volume has. */
static uint8_t *files[FILES + 1], *stretch[2], entry[2][ENTRY], list[LIST], *data, *amended, *fresh, digest[16];
static par1_answer answer;
static int now;

static void amend(void) {
    int next = !now;
    answer = par1_amend(amended, LENGTH, LENGTH, CHANGED, PLACE, stretch[now], STRETCH, stretch[next], STRETCH, entry[next], ENTRY);
    now = next;
}

static void write_afresh(void) {
    memset(data, 0, SIZE);
    for (int f = 1; f <= FILES; f++) {
        uint8_t weight;
        par1_coefficient(PAR1_POWERS, (uint64_t)f, VOLUME, &weight, 1);
        par1_mul_add(weight, files[f], SIZE, data, SIZE);
    }
    par1_write_volume(PAR1_POWERS, 1, VOLUME, list, LIST, data, SIZE, fresh, LENGTH);
}

static void two_digests(void) {
    par1_md5(fresh + 32, LENGTH - 32, digest, 16);
    par1_md5(fresh + 32, LENGTH - 32, digest, 16);
}

/* What the files and the list are with this stretch. */
static void put_stretch(int which) {
    memcpy(files[CHANGED] + PLACE, stretch[which], STRETCH);
    memcpy(list + (CHANGED - 1) * ENTRY, entry[which], ENTRY);
}

/* The entry of file f as it is, with a name that tells its number. */
static int write_entry(int f, uint8_t *out) {
    uint8_t name[10] = {'F', 0, 'I', 0, 'L', 0, (uint8_t)('0' + f / 10), 0, (uint8_t)('0' + f % 10), 0};
    return par1_write_entry(files[f], SIZE, 1, name, 10, out, ENTRY) == 0;
}

/* Files that overlap in memory, but for the seventh, and their volume. */
static int prepare(uint8_t *contents) {
    int right = 1;
    for (int f = 1; f <= FILES; f++) files[f] = contents + (size_t)f * 65536;
    files[CHANGED] = malloc(SIZE), data = malloc(SIZE), amended = malloc(LENGTH), fresh = malloc(LENGTH);
    memcpy(files[CHANGED], contents, SIZE);
    for (int f = 1; f <= FILES; f++) right &= write_entry(f, list + (f - 1) * ENTRY);
    for (int which = 0; which < 2; which++) {
        stretch[which] = contents + which * STRETCH;
        memcpy(files[CHANGED] + PLACE, stretch[which], STRETCH);
        right &= write_entry(CHANGED, entry[which]);
    }
    put_stretch(now);
    write_afresh();
    memcpy(amended, fresh, LENGTH);
    return right;
}

int main(void) {
    double a = 0, b = 0, c = 0, d = 0;
    int right = prepare(random_bytes(SIZE + (FILES + 1) * 65536));
    COMPARE(TURNS, 1, amend(), write_afresh(), a, b)
    right &= row("4 KiB of a 16 MiB volume amended", "written afresh, 24 files", 0, a, b, 1.00);
    COMPARE(TURNS, 1, amend(), two_digests(), c, d)
    right &= row("4 KiB of a 16 MiB volume amended", "two digests of it", 0, c, d, 0.90);
    put_stretch(now);
    write_afresh();
    if (answer == 32 * (par1_answer)LENGTH && memcmp(amended, fresh, LENGTH) == 0) return !right;
    puts("amend: the volume differs from one written afresh");
    return 1;
}
