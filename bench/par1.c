/* Reading and writing of a file of 32 MiB, an index with a long comment, against the bare digest of as many bytes. */
#include "clock.h"
#include "../include/par1.h"
#include <string.h>

enum { LENGTH = 33554432, ENTRY = 66, DATA = LENGTH - 96 - ENTRY };

int main(void) {
    uint8_t *data = random_bytes(DATA), *file = malloc(LENGTH), *other = malloc(LENGTH);
    uint8_t entry[ENTRY], digest[16], parts[PAR1_PARTS_BYTES];
    if (par1_write_entry((const uint8_t *)"hello", 5, 1, (const uint8_t *)"A\0.\0L\0O\0G\0", 10, entry, ENTRY) != 0 ||
        par1_write_volume(PAR1_POWERS, 7, 0, entry, ENTRY, data, DATA, file, LENGTH) != 0 || par1_read(file, LENGTH, parts, sizeof parts) != 0) {
        puts("par1: a call was refused");
        return 1;
    }
    memset(other, 0, LENGTH);
    double ours = 0, bare = 0;
    COMPARE(15, 1, par1_read(file, LENGTH, parts, sizeof parts), par1_md5(file, LENGTH, digest, 16), ours, bare)
    int right = row("read a file of 32 MiB", "the bare digest", LENGTH, ours, bare, 0.85);
    COMPARE(15, 1, par1_write_volume(PAR1_POWERS, 7, 0, entry, ENTRY, data, DATA, other, LENGTH), par1_md5(file, LENGTH, digest, 16), ours, bare)
    right &= row("write a file of 32 MiB", "the bare digest", LENGTH, ours, bare, 0.85) && memcmp(file, other, LENGTH) == 0;
    return !right;
}
