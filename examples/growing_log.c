/* A log that grows while two volumes of it and another file are kept current. At each of ten steps the recorder hashes the new bytes alone, puts
 * size and hashes into the log's entry and amends both volumes where they stand; at last the log's first bytes are rewritten. What the volumes
 * then are is held against volumes written afresh from the files. */
#include "../include/par1.h"
#include <stdio.h>
#include <stdlib.h>
#include <string.h>

enum { STEPS = 10, START = 5000, STEP = 4000, TRACK = START + STEPS * STEP, NET = 20000, HEAD = 8, FIRST_16K = 16384, VOLUMES = 2 };
enum { NET_NAME = 14, TRACK_NAME = 18, NET_ENTRY = PAR1_AT_ENTRY_NAME + NET_NAME, TRACK_ENTRY = PAR1_AT_ENTRY_NAME + TRACK_NAME };
enum { LIST = NET_ENTRY + TRACK_ENTRY, ROOM = PAR1_AT_LIST + LIST + TRACK };

static const uint8_t net_name[] = "N\0E\0T\0.\0L\0O\0G", track_name[] = "T\0R\0A\0C\0K\0.\0L\0O\0G";

/* File 1, which stays as it is; file 2, the log, with its entry as it now is and the hashes that go on with it. */
static uint8_t net[NET], track[TRACK], entry[TRACK_ENTRY];
static size_t track_size;
static struct par1_hash whole, first_16k;

/* By number, from 1, each in room for what it will become. */
static struct { uint8_t bytes[ROOM]; size_t length; } volumes[VOLUMES + 1];

static void accepted(const char *call, par1_answer answer) {
    if (PAR1_NUMBER(answer) == PAR1_ACCEPTED) return;
    printf("%s refused with %u\n", call, (unsigned)PAR1_NUMBER(answer));
    exit(1);
}

/* The hash of what has come so far; it ends a copy, and the hash itself goes on. */
static void digest(struct par1_hash copy, uint8_t *out) { accepted("hash_end", par1_hash_end(&copy, out, PAR1_MD5_BYTES)); }

/* The log gets n bytes more, and its entry is what it then must be. */
static void record(size_t n) {
    uint8_t *new_ = track + track_size;
    size_t in_16k = track_size < FIRST_16K ? FIRST_16K - track_size : 0;
    for (size_t p = 0; p < n; p++) new_[p] = (uint8_t)((track_size + p) * (track_size + p) / 7);
    track_size += n;
    accepted("hash_push", par1_hash_push(&whole, new_, n));
    accepted("hash_push", par1_hash_push(&first_16k, new_, n < in_16k ? n : in_16k));
    par1_put_number(entry, PAR1_AT_ENTRY_FILE_SIZE, track_size);
    digest(whole, entry + PAR1_AT_ENTRY_MD5);
    digest(first_16k, entry + PAR1_AT_ENTRY_MD5_16K);
}

/* A volume of both files as they are now. */
static size_t write_afresh(uint64_t v, uint8_t *out) {
    static uint8_t list[LIST], data[TRACK];
    size_t size = track_size < NET ? NET : track_size, length = PAR1_AT_LIST + LIST + size;
    uint8_t weight;
    accepted("write_entry", par1_write_entry(net, NET, 1, net_name, NET_NAME, list, NET_ENTRY));
    accepted("write_entry", par1_write_entry(track, track_size, 1, track_name, TRACK_NAME, list + NET_ENTRY, TRACK_ENTRY));
    memset(data, 0, size);
    accepted("coefficient", par1_coefficient(PAR1_POWERS, 1, v, &weight, 1));
    par1_mul_add(weight, net, NET, data, size);
    accepted("coefficient", par1_coefficient(PAR1_POWERS, 2, v, &weight, 1));
    par1_mul_add(weight, track, track_size, data, size);
    accepted("write_volume", par1_write_volume(PAR1_POWERS, 1, v, list, LIST, data, size, out, length));
    return length;
}

/* From this place on the log had the old bytes and now has these: file 2 of each volume. */
static void amend(size_t place, const uint8_t *old, size_t old_length, const uint8_t *new_, size_t new_length) {
    for (int v = 1; v <= VOLUMES; v++) {
        par1_answer answer =
            par1_amend(volumes[v].bytes, ROOM, volumes[v].length, 2, place, old, old_length, new_, new_length, entry, sizeof entry);
        accepted("amend", answer);
        volumes[v].length = PAR1_VALUE(answer);
    }
}

static void compare(void) {
    static uint8_t fresh[ROOM];
    for (int v = 1; v <= VOLUMES; v++) {
        size_t length = write_afresh((uint64_t)v, fresh);
        if (length == volumes[v].length && memcmp(fresh, volumes[v].bytes, length) == 0) continue;
        printf("volume %d is not as it must be\n", v);
        exit(1);
    }
    printf("%d bytes, volumes of %d bytes, as written afresh\n", (int)track_size, (int)volumes[1].length);
}

int main(void) {
    uint8_t old[HEAD];
    for (size_t p = 0; p < NET; p++) net[p] = (uint8_t)(31 + p * p / 5);
    par1_hash_start(&whole);
    par1_hash_start(&first_16k);
    accepted("write_entry", par1_write_entry(NULL, 0, 1, track_name, TRACK_NAME, entry, sizeof entry));
    record(START);
    for (int v = 1; v <= VOLUMES; v++) volumes[v].length = write_afresh((uint64_t)v, volumes[v].bytes);
    printf("volumes 1 and 2 of NET.LOG, of %d bytes, and TRACK.LOG, of %d, written\nTRACK.LOG grows, and both are amended:\n", NET, START);
    for (int step = 1; step <= STEPS; step++) {
        record(STEP);
        amend(track_size - STEP, NULL, 0, track + track_size - STEP, STEP);
        printf("  step %2d: ", step);
        compare();
    }
    memcpy(old, track, HEAD);
    memcpy(track, "10 steps", HEAD);
    accepted("write_entry", par1_write_entry(track, track_size, 1, track_name, TRACK_NAME, entry, sizeof entry));
    amend(0, old, HEAD, track, HEAD);
    printf("its first %d bytes rewritten: ", HEAD);
    compare();
    return 0;
}
