/* Times of the two sides of a comparison, each the best of many runs that take turns, so that a busy machine slows both. */
#include <stdint.h>
#include <stdio.h>
#include <stdlib.h>
#include <time.h>

static inline double seconds(void) {
    struct timespec t;
    clock_gettime(CLOCK_MONOTONIC, &t);
    return t.tv_sec + t.tv_nsec * 1e-9;
}

/* Runs `ours` and `other` in turn, `turns` times, each `calls` times in a row, and keeps the best time of a call. */
#define COMPARE(turns, calls, ours, other, best_ours, best_other)                                                      \
    for (int turn_ = 0; turn_ < (turns); turn_++) {                                                                    \
        double t_ = seconds();                                                                                         \
        for (int call_ = 0; call_ < (calls); call_++) { ours; }                                                        \
        double mid_ = seconds();                                                                                       \
        for (int call_ = 0; call_ < (calls); call_++) { other; }                                                       \
        double end_ = seconds();                                                                                       \
        if (turn_ == 0 || (mid_ - t_) / (calls) < best_ours) best_ours = (mid_ - t_) / (calls);                        \
        if (turn_ == 0 || (end_ - mid_) / (calls) < best_other) best_other = (end_ - mid_) / (calls);                  \
    }

static inline uint8_t *random_bytes(size_t n) {
    uint8_t *p = malloc(n);
    uint64_t x = 2026;
    for (size_t i = 0; i < n; i++) {
        x = x * 6364136223846793005u + 1442695040888963407u;
        p[i] = x >> 56;
    }
    return p;
}

/* A figure of the table: the speed of a call on `bytes` bytes, or its time where they are 0. */
static inline void figure(size_t bytes, double time) {
    if (bytes > 0)
        printf(" %8.1f MB/s |", (double)bytes / time / 1e6);
    else if (time < 1e-5)
        printf(" %8.1f ns   |", 1e9 * time);
    else if (time < 1)
        printf(" %8.2f ms   |", 1e3 * time);
    else
        printf(" %8.2f s    |", time);
}

/* A row of the table: what is measured, against what, the times of a call, and the ratio that is wanted, or 0. Whether that is reached. */
static inline int row(const char *what, const char *against, size_t bytes, double ours, double other, double wanted) {
    printf("| %-44s | %-24s |", what, against);
    figure(bytes, ours);
    figure(bytes, other);
    printf(" %5.2f |", other / ours);
    if (wanted > 0)
        printf(" %6.2f |\n", wanted);
    else
        printf("        |\n");
    return other / ours >= wanted;
}
