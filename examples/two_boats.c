/* Two boats made volumes of what should be one set, and the shore asks where they differ: the same files written by one program and by two; a log that was
 * not the same on both boats; a volume that came damaged. Each time the lines of par1_compare are printed as they are. */
#include "../include/par1.h"
#include <stdio.h>
#include <stdlib.h>
#include <string.h>

enum { FILES = 2, NET = 3000, TRACK = 5000, LATER = 40, GREATEST = TRACK + LATER, NAME = 18, LIST = FILES * PAR1_AT_ENTRY_NAME + NAME + NAME - 4 };
enum { ROOM = PAR1_AT_LIST + LIST + GREATEST, VOLUME = 2, LINES = 1000 };

/* A boat: its program's identifier, its two logs, and its volume of them. */
struct boat {
    uint32_t program;
    uint8_t net[NET], track[GREATEST], volume[ROOM];
    size_t track_size, length;
};
static struct boat first, second;

static void accepted(const char *call, par1_answer answer) {
    if (PAR1_NUMBER(answer) == PAR1_ACCEPTED) return;
    printf("%s refused with %u\n", call, (unsigned)PAR1_NUMBER(answer));
    exit(1);
}

static void fill(struct boat *boat, uint32_t program) {
    boat->program = program;
    boat->track_size = TRACK;
    for (size_t p = 0; p < NET; p++) boat->net[p] = (uint8_t)(p * p / 5);
    for (size_t p = 0; p < GREATEST; p++) boat->track[p] = (uint8_t)(31 + p * p / 7);
}

/* One of the logs gets its entry and is added to the data. */
static uint8_t *add(uint64_t f, const uint8_t *log, size_t size, const char *name, size_t name_length, uint8_t *entry, uint8_t *data) {
    uint8_t weight;
    accepted("write_entry", par1_write_entry(log, size, 1, (const uint8_t *)name, name_length, entry, PAR1_AT_ENTRY_NAME + name_length));
    accepted("coefficient", par1_coefficient(PAR1_POWERS, f, VOLUME, &weight, 1));
    par1_mul_add(weight, log, size, data, GREATEST);
    return entry + PAR1_AT_ENTRY_NAME + name_length;
}

static void write_volume(struct boat *boat) {
    uint8_t list[LIST], data[GREATEST] = {0}, *entry = list;
    entry = add(1, boat->net, NET, "N\0E\0T\0.\0L\0O\0G", NAME - 4, entry, data);
    add(2, boat->track, boat->track_size, "T\0R\0A\0C\0K\0.\0L\0O\0G", NAME, entry, data);
    boat->length = PAR1_AT_LIST + LIST + boat->track_size;
    accepted("write_volume", par1_write_volume(PAR1_POWERS, boat->program, VOLUME, list, LIST, data, boat->track_size, boat->volume, ROOM));
}

static void compare(const char *what) {
    uint8_t lines[LINES];
    par1_answer answer = par1_compare(first.volume, first.length, second.volume, second.length, lines, sizeof lines);
    accepted("compare", answer);
    printf("%s:\n%.*s", what, (int)PAR1_VALUE(answer), (const char *)lines);
    if (PAR1_VALUE(answer) == 0) puts("equal");
}

int main(void) {
    fill(&first, 1);
    fill(&second, 1);
    write_volume(&first);
    write_volume(&second);
    compare("volume 2 of two boats");
    second.program = 2;
    write_volume(&second);
    compare("by another program");
    memset(second.track + 1200, 0, 3);
    second.track_size = GREATEST;
    write_volume(&second);
    compare("a log with three other bytes, and 40 more");
    second.volume[second.length / 2] ^= 1;
    compare("a volume that came damaged");
    return 0;
}
