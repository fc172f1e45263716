/* Two index files of 16 MiB compared, equal and with a byte in each 4 KiB that differs, against a digest of each and memcmp of both, which nobody
   who holds two files against each other does without; and what the comparison takes beside its two readings, against memcmp. */
#include "clock.h"
#include "../include/par1.h"
#include <string.h>

enum { LENGTH = 1 << 24, COMMENT = LENGTH - PAR1_AT_LIST, STEP = 4096, LINES = COMMENT / STEP * 32, TURNS = 15 };

static uint8_t *one, *equal, *other, *lines, digest[2][PAR1_MD5_BYTES], parts[PAR1_PARTS_BYTES];
static par1_answer answer;
static volatile int sign;

static void compare(const uint8_t *two) { answer = par1_compare(one, LENGTH, two, LENGTH, lines, LINES); }

static void two_readings(const uint8_t *two) {
    answer = par1_read(one, LENGTH, parts, sizeof parts);
    answer |= par1_read(two, LENGTH, parts, sizeof parts);
}

static void digests_and_memcmp(const uint8_t *two) {
    par1_md5(one + 32, LENGTH - 32, digest[0], PAR1_MD5_BYTES);
    par1_md5(two + 32, LENGTH - 32, digest[1], PAR1_MD5_BYTES);
    sign = memcmp(one, two, LENGTH);
}

int main(void) {
    double a = 0, b = 0, c = 0, d = 0, e = 0, f = 0, g = 0;
    uint8_t *comment = random_bytes(COMMENT);
    one = malloc(LENGTH), equal = malloc(LENGTH), other = malloc(LENGTH), lines = malloc(LINES);
    int right = par1_write_volume(PAR1_POWERS, 1, 0, comment, 0, comment, COMMENT, one, LENGTH) == 0;
    memcpy(equal, one, LENGTH);
    for (size_t p = 0; p < COMMENT; p += STEP) comment[p] ^= 1;
    right &= par1_write_volume(PAR1_POWERS, 1, 0, comment, 0, comment, COMMENT, other, LENGTH) == 0;
    COMPARE(TURNS, 1, compare(equal), digests_and_memcmp(equal), a, b)
    right &= answer == 0;
    right &= row("two equal files of 16 MiB compared", "two digests, memcmp", 0, a, b, 0.90);
    COMPARE(TURNS, 1, two_readings(equal), sign = memcmp(one, equal, LENGTH), e, f)
    right &= answer == 0;
    COMPARE(TURNS, 1, compare(equal), two_readings(equal), a, g)
    right &= row("the same beside its two readings", "memcmp", LENGTH, a - (g < e ? g : e), f, 0.50);
    COMPARE(TURNS, 1, compare(other), digests_and_memcmp(other), c, d)
    right &= PAR1_NUMBER(answer) == 0 && PAR1_VALUE(answer) > COMMENT / STEP * 9;
    right &= memcmp(lines, "head control\ndata 0 0\ndata 4096 4096\n", 37) == 0;
    right &= row("the same, a byte in each 4 KiB differs", "two digests, memcmp", 0, c, d, 0);
    return !right;
}
