/* The gear desk checks files with md5sum, and the index says what the files must be:
 *
 *   gear_desk index INDEX FILE..   writes an index of these files
 *   gear_desk export INDEX         prints the lines that md5sum -c takes
 *   gear_desk import INDEX         reads the lines that md5sum printed: for each listed file whether its sum is the same
 *
 * Files and texts below 1 MiB.
 */
#include "../include/par1.h"
#include <stdio.h>
#include <stdlib.h>
#include <string.h>

enum { ROOM = 1 << 20, NAME = 255 };

static uint8_t file[ROOM], text[ROOM], said[ROOM];

static void refused(const char *call, par1_answer answer) {
    printf("%s refused with %u", call, (unsigned)PAR1_NUMBER(answer));
    if (PAR1_VALUE(answer) > 0) printf(" at %u", (unsigned)PAR1_VALUE(answer));
    puts("");
    exit(1);
}

static size_t load(FILE *from, uint8_t *into) {
    if (from == NULL) exit(2);
    size_t length = fread(into, 1, ROOM, from);
    if (length == ROOM) exit(2); /* longer than this program's room */
    fclose(from);
    return length;
}

static void save(const char *path, const uint8_t *bytes, size_t length) {
    FILE *to = fopen(path, "wb");
    if (to == NULL || fwrite(bytes, 1, length, to) != length || fclose(to) != 0) exit(2);
}

/* The entry of a file, with each byte of its name as a unit, into what is left of the list. */
static size_t add(const char *path, uint8_t *entry, size_t left) {
    uint8_t name[2 * NAME] = {0};
    size_t units = strlen(path), length = load(fopen(path, "rb"), text);
    if (units > NAME) exit(2);
    for (size_t i = 0; i < units; i++) name[2 * i] = (uint8_t)path[i];
    uint32_t number = par1_write_entry(text, length, 1, name, 2 * units, entry, left);
    if (number != PAR1_ACCEPTED) refused("write_entry", number);
    return PAR1_AT_ENTRY_NAME + 2 * units;
}

static void write_index(const char *path, char **files, int count) {
    size_t list = 0;
    for (int f = 0; f < count; f++) list += add(files[f], said + list, ROOM - list);
    par1_answer answer = par1_write_volume(PAR1_POWERS, 1, 0, said, list, NULL, 0, file, ROOM);
    if (PAR1_NUMBER(answer) != PAR1_ACCEPTED) refused("write_volume", answer);
    save(path, file, PAR1_AT_LIST + list);
}

static void export_(size_t length) {
    par1_answer answer = par1_export(file, length, text, ROOM);
    if (PAR1_NUMBER(answer) != PAR1_ACCEPTED) refused("export", answer);
    fwrite(text, 1, PAR1_VALUE(answer), stdout);
}

static void import(size_t length) {
    static const char *const words[] = {"no line", "the same", "different"};
    size_t read = load(stdin, text);
    par1_answer answer = par1_import(file, length, text, read, said, ROOM);
    if (PAR1_NUMBER(answer) != PAR1_ACCEPTED) refused("import", answer);
    for (size_t e = 0; e < PAR1_VALUE(answer); e++) printf("%u %s\n", (unsigned)e + 1, words[said[e]]);
}

int main(int count, char **words) {
    if (count > 2 && strcmp(words[1], "index") == 0) return write_index(words[2], words + 3, count - 3), 0;
    if (count == 3 && strcmp(words[1], "export") == 0) return export_(load(fopen(words[2], "rb"), file)), 0;
    if (count == 3 && strcmp(words[1], "import") == 0) return import(load(fopen(words[2], "rb"), file)), 0;
    return puts("gear_desk index INDEX FILE.. | export INDEX | import INDEX"), 2;
}
