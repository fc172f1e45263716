/* Two logs of a trip, and volume 2 of them, made where memory is no matter. Writes TRACK.LOG, three times as long as a recorder's memory, and
 * TRIP.P02 into the directory where it is called; NET.LOG is lost, and examples/recorder.c gets it back. */
#include "../include/par1.h"
#include <stdio.h>
#include <stdlib.h>

enum { FILES = 2, VOLUME = 2, TRACK = 200000, NET = 20000, NAME = 18, LIST = FILES * PAR1_AT_ENTRY_NAME + NAME + NAME - 4 };
enum { LENGTH = PAR1_AT_LIST + LIST + TRACK };

static uint8_t track[TRACK], net[NET], data[TRACK], list[LIST], volume[LENGTH];

static const struct { uint8_t name[NAME]; size_t name_length; uint8_t *bytes; size_t size; } files[FILES] = {
    {"T\0R\0A\0C\0K\0.\0L\0O\0G", 18, track, TRACK},
    {"N\0E\0T\0.\0L\0O\0G", 14, net, NET},
};

static void accepted(const char *call, par1_answer answer) {
    if (answer == PAR1_ACCEPTED) return;
    printf("%s refused with %u\n", call, (unsigned)PAR1_NUMBER(answer));
    exit(1);
}

static void save(const char *path, const uint8_t *bytes, size_t size) {
    FILE *file = fopen(path, "wb");
    if (file != NULL && fwrite(bytes, 1, size, file) == size && fclose(file) == 0) return;
    printf("cannot write %s\n", path);
    exit(1);
}

int main(void) {
    uint8_t *entry = list;
    for (int f = 1; f <= FILES; f++) {
        uint8_t *bytes = files[f - 1].bytes, weight;
        size_t size = files[f - 1].size, length = PAR1_AT_ENTRY_NAME + files[f - 1].name_length;
        for (size_t p = 0; p < size; p++) bytes[p] = (uint8_t)(f * 31 + p * p / 7);
        accepted("write_entry", par1_write_entry(bytes, size, 1, files[f - 1].name, files[f - 1].name_length, entry, length));
        accepted("coefficient", par1_coefficient(PAR1_POWERS, (uint64_t)f, VOLUME, &weight, 1));
        par1_mul_add(weight, bytes, size, data, TRACK);
        entry += length;
    }
    accepted("write_volume", par1_write_volume(PAR1_POWERS, 1, VOLUME, list, LIST, data, TRACK, volume, LENGTH));
    save("TRACK.LOG", track, TRACK);
    save("TRIP.P02", volume, LENGTH);
    printf("written: TRACK.LOG of %d bytes, and volume %d of it and NET.LOG, of %d bytes, which is lost\n", TRACK, VOLUME, NET);
    return 0;
}
