/* A log of 65,536 bytes, 127 files missing and 128 volumes that come and go, which makes the longest eliminations; and a night of 24 files and 60
   events. The other side does one elimination an event as plain C loops; both must print the same. The long log is replayed once by each. */
#include "clock.h"
#include "elimination.h"
#include "../include/par1.h"

enum { LOG = PAR1_MAX_LOG_LENGTH, TEXT = 1 << 24 };

static char log_[LOG + 8], ours[TEXT], loops[TEXT];
static size_t log_length, loops_length;
static par1_answer answer;

/* The line of the files of n that are missing and come back from the volumes present. */
static char *put_files(char *at, int n, const char *files, const char *volumes) {
    uint8_t row[256] = {0};
    char *start = at;
    start_rows();
    for (int g = 0; g < n; g++) row[g] = !files[g + 1];
    for (int v = 1; v <= 255 - n; v++) {
        if (volumes[v]) add_row(row, (uint8_t)v);
        for (int g = 0; g < n; g++) row[g] = products[g + 1][row[g]];
    }
    for (int f = 0; f < n; f++) {
        int k = 0;
        while (k < 256 && (owners[k] != 0 || matrix[f][k] == 0)) k++;
        if (k == 256 && !files[f + 1]) at += sprintf(at, at == start ? "%d" : " %d", f + 1);
    }
    return at + sprintf(at, at == start ? "none\n" : "\n");
}

/* A log whose events are all accepted, of files that are not empty. */
static void by_loops(void) {
    char present[2][256] = {{0}}, *at = loops;
    int n = atoi(log_);
    for (const char *line = strchr(log_, '\n') + 1; line < log_ + log_length; line = strchr(line, '\n') + 1) {
        present[*line == 'V' || *line == 'v'][atoi(line + 2)] = *line == 'V' || *line == 'F';
        at = put_files(at, n, present[0], present[1]);
    }
    loops_length = (size_t)(at - loops);
}

static void replay(void) { answer = par1_replay((const uint8_t *)log_, log_length, (uint8_t *)ours, TEXT); }

static void add_line(const char *letter, int number) { log_length += (size_t)sprintf(log_ + log_length, "%s %d\n", letter, number); }

/* The first line; two sizes have two digits, so that the long log has exactly its length. */
static void open_log(int n) {
    log_length = (size_t)sprintf(log_, "%d", n);
    for (int f = 0; f < n; f++) log_length += (size_t)sprintf(log_ + log_length, f < 2 ? " 10" : " 1");
    log_[log_length++] = '\n';
}

static int same(void) { return answer == 32 * (par1_answer)loops_length && memcmp(ours, loops, loops_length) == 0; }

int main(void) {
    double a = 0, b = 0, c = 0, d = 0;
    make_products();
    open_log(24);
    for (int f = 1; f <= 20; f++) add_line("F", f);
    for (int v = 1; v <= 12; v++) add_line("V", v), add_line("f", v), add_line("F", v);
    for (int v = 2; v <= 5; v++) add_line("v", v);
    COMPARE(60, 1, replay(), by_loops(), a, b)
    int right = same();
    right &= row("a night of 24 files and 60 events replayed", "an elimination an event", 0, a, b, 0);
    open_log(127);
    for (int v = 1; v <= 128; v++) add_line("V", v);
    for (int i = 0; log_length + 4 <= LOG; i++) add_line(i % 2 == 0 ? "v" : "V", 1);
    COMPARE(1, 1, replay(), by_loops(), c, d)
    right &= same() && log_length == LOG;
    right &= row("a log of 65,536 bytes, 127 missing of 127", "an elimination an event", 0, c, d, 1.0);
    if (!right) puts("replay: the texts differ, or a replay is slower than the loops");
    return !right;
}
