/* Text of md5sum of 1 MiB, 18,000 lines, imported against an index of 254 files; the names are equally long and differ at their ends. The other side
   is the same as C loops: the lines split once, each held against each entry. Both must say the same. And the export of these files against the
   same as printf. */
#include "clock.h"
#include "../include/par1.h"
#include <string.h>

enum { FILES = 254, NAME = 23, LINE = 35 + NAME, LINES = (1 << 20) / LINE, ENTRY = PAR1_AT_ENTRY_NAME + 2 * NAME, LIST = FILES * ENTRY, TURNS = 15 };
enum { LENGTH = PAR1_AT_LIST + LIST };

static uint8_t list[LIST], file[LENGTH], text[LINES * LINE + 1], out[FILES * LINE], said[FILES], loops_said[FILES], parts[PAR1_PARTS_BYTES];
static char names[LINES][NAME + 1], printed[FILES * LINE + 1];
static par1_answer answer;

static void import(void) { answer = par1_import(file, LENGTH, text, LINES * LINE, said, FILES); }
static void export_(void) { answer = par1_export(file, LENGTH, out, sizeof out); }

static void hex(const uint8_t *md5, char *digits) {
    for (int i = 0; i < PAR1_MD5_BYTES; i++) digits[2 * i] = "0123456789abcdef"[md5[i] / 16], digits[2 * i + 1] = "0123456789abcdef"[md5[i] % 16];
}

/* Whether a line has the name of an entry, whose units are two bytes each. */
static int named(const uint8_t *line, const uint8_t *entry) {
    for (int i = 0; i < NAME; i++)
        if (line[34 + i] != entry[PAR1_AT_ENTRY_NAME + 2 * i] || entry[PAR1_AT_ENTRY_NAME + 2 * i + 1] != 0) return 0;
    return 1;
}

static void loops(void) {
    static char sums[FILES][32];
    const uint8_t *earlier[FILES] = {0};
    par1_read(file, LENGTH, parts, sizeof parts);
    for (int f = 0; f < FILES; f++) hex(list + f * ENTRY + PAR1_AT_ENTRY_MD5, sums[f]);
    for (const uint8_t *line = text, *end; line < text + LINES * LINE; line = end + 1) {
        end = memchr(line, '\n', (size_t)(text + LINES * LINE - line));
        if (end - line != 34 + NAME) exit(2);
        for (int f = 0; f < FILES; f++) {
            if (!named(line, list + f * ENTRY)) continue;
            if (earlier[f] != NULL && memcmp(earlier[f], line, 32) != 0) exit(2);
            earlier[f] = line;
        }
    }
    for (int f = 0; f < FILES; f++) loops_said[f] = earlier[f] == NULL ? 0 : memcmp(earlier[f], sums[f], 32) == 0 ? 1 : 2;
}

static void print(void) {
    char *at = printed;
    par1_read(file, LENGTH, parts, sizeof parts);
    for (int f = 0; f < FILES; f++) {
        char digits[33] = {0};
        hex(list + f * ENTRY + PAR1_AT_ENTRY_MD5, digits);
        at += sprintf(at, "%s  %s\n", digits, names[f]);
    }
}

/* Every file has a name and its number as contents; the text has a line for each second of them, and for names that no file has. */
static int prepare(void) {
    int right = 1;
    for (int l = 0; l < LINES; l++) {
        uint8_t md5[PAR1_MD5_BYTES], units[2 * NAME] = {0}, contents = (uint8_t)l;
        snprintf(names[l], sizeof names[l], "TRIP-2026-TRACK-%07d", l * 7 % 1000003);
        for (int i = 0; i < NAME; i++) units[2 * i] = (uint8_t)names[l][i];
        if (l < FILES) right &= par1_write_entry(&contents, 1, 1, units, sizeof units, list + l * ENTRY, ENTRY) == 0;
        par1_md5(&contents, 1, md5, sizeof md5);
        char digits[33] = {0};
        hex(md5, digits);
        if (l < FILES && l % 2 == 0) digits[5] = 'f';
        sprintf((char *)text + l * LINE, "%s  %s\n", digits, l < FILES && l % 3 == 0 ? "TRIP-2026-TRACK-another" : names[l]);
    }
    return right & (par1_write_volume(PAR1_POWERS, 1, 0, list, LIST, list, 0, file, LENGTH) == 0);
}

int main(void) {
    double a = 0, b = 0, c = 0, d = 0;
    int right = prepare();
    COMPARE(TURNS, 1, import(), loops(), a, b)
    right &= answer == 32 * FILES && memcmp(said, loops_said, FILES) == 0;
    right &= row("text of 1 MiB, 18,000 lines, for 254 files", "the same as C loops", 0, a, b, 0) && a < 1;
    COMPARE(TURNS, 100, export_(), print(), c, d)
    right &= answer == 32 * (par1_answer)sizeof out && memcmp(out, printed, sizeof out) == 0;
    right &= row("text of 254 files", "the same by printf", 0, c, d, 0);
    if (!right) puts("md5sum: the answers differ, or the import takes a second");
    return !right;
}
