/* A night's arrivals: reads a log of them from standard input, replays it and prints each event with the missing files that come back after it, or with
 * its refusal. The room is as long as the longest text of any log; on a machine with less, lend less, and more where PAR1_E_NO_ROOM comes back. */
#include "../include/par1.h"
#include <stdio.h>
#include <string.h>

static uint8_t log_[PAR1_MAX_LOG_LENGTH + 1], text[PAR1_MAX_REPLAY_LENGTH];

/* Prints a line, without its end: where the next one starts. */
static const uint8_t *line(const uint8_t *start, const uint8_t *end) {
    const uint8_t *stop = memchr(start, '\n', (size_t)(end - start));
    size_t length = (size_t)((stop != NULL ? stop : end) - start);
    fwrite(start, 1, length, stdout);
    return stop != NULL ? stop + 1 : end;
}

/* Each line of the text is for an event, in turn; the last may be for a line of another shape, which ends the replay, or for the log's first. */
int main(void) {
    size_t length = fread(log_, 1, sizeof log_, stdin);
    par1_answer answer = par1_replay(log_, length, text, sizeof text);
    if (PAR1_NUMBER(answer) != PAR1_ACCEPTED) return 1;
    const uint8_t *event = log_, *events_end = log_ + length, *said = text, *said_end = text + PAR1_VALUE(answer);
    event = line(event, events_end);
    puts("");
    while (said < said_end) {
        event = line(event, events_end);
        fputs(": ", stdout);
        said = line(said, said_end);
        puts("");
    }
    return 0;
}
