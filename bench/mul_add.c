/* The speed of mul_add against a loop over a table of 256 products, which gcc -O3 compiles, and where ISA-L is
   installed (HAVE_ISAL) against its gf_vect_mad. All are timed in turn in one run; each figure is the best of many.
   Last, a whole set of files into one volume: file by file, and tile by tile, so that the buffer stays in the cache. */
#include "clock.h"
#include "product.h"
#include "../include/par1.h"
#include <string.h>
#ifdef HAVE_ISAL
#include <isa-l.h>
#endif

enum { ROUNDS = 200, KIB = 1024, MIB = 1024 * KIB, FILES = 24, FILE_BYTES = MIB, TILE = 32 * KIB };

static uint8_t table[256];      /* the products of the weight */
#ifdef HAVE_ISAL
static uint8_t isal_table[32];  /* the same as ISA-L keeps them */
#endif

static void set_weight(uint8_t weight) {
    for (int x = 0; x < 256; x++) table[x] = product(weight, (uint8_t)x);
#ifdef HAVE_ISAL
    gf_vect_mul_init(weight, isal_table);
#endif
}

/* The three under test, with one signature. */
typedef void mul_add_fn(uint8_t weight, const uint8_t *fragment, uint8_t *buffer, size_t n);

static void by_mul_add(uint8_t weight, const uint8_t *fragment, uint8_t *buffer, size_t n) {
    par1_mul_add(weight, fragment, n, buffer, n);
}

__attribute__((noinline)) static void by_table(uint8_t weight, const uint8_t *fragment, uint8_t *buffer, size_t n) {
    (void)weight;
    for (size_t p = 0; p < n; p++) buffer[p] ^= table[fragment[p]];
}

#ifdef HAVE_ISAL
/* ISA-L leaves the upper halves of the vector registers in use; on some processors SSE code after it is then at a third of its speed. They are
   cleared here, so that the others are measured as they are without it. */
static void by_isal(uint8_t weight, const uint8_t *fragment, uint8_t *buffer, size_t n) {
    (void)weight;
    gf_vect_mad((int)n, 1, 0, isal_table, (unsigned char *)fragment, buffer);
    __asm__ volatile("vzeroupper" ::: "memory");
}
#endif

static const struct { const char *name; mul_add_fn *call; } tested[] = {
    {"mul_add", by_mul_add},
    {"a table of 256 products", by_table},
#ifdef HAVE_ISAL
    {"ISA-L (AVX)", by_isal},
#endif
};
enum { TESTED = sizeof tested / sizeof *tested };

/* One size. 0: a result differs, or the ratio to the table is below what is wanted. */
static int one_size(size_t n, double wanted) {
    uint8_t *fragment = random_bytes(n), *buffer = random_bytes(n), *results[TESTED];
    double best[TESTED];
    size_t calls = n < 4 * MIB ? 4 * MIB / n : 1;
    int right = 1;
    for (int k = 0; k < TESTED; k++) {
        best[k] = 1e9;
        results[k] = malloc(n);
        memcpy(results[k], buffer, n);
        tested[k].call(142, fragment, results[k], n);
        right &= !memcmp(results[k], results[0], n);
    }
    for (int round = 0; round < ROUNDS; round++)
        for (int k = 0; k < TESTED; k++) {
            double start = seconds();
            for (size_t c = 0; c < calls; c++) tested[k].call(142, fragment, buffer, n);
            double took = (seconds() - start) / (double)calls;
            if (took < best[k]) best[k] = took;
        }
    char what[64];
    snprintf(what, sizeof what, "mul_add of %zu KiB", n / KIB);
    int reached = 1;
    for (int k = 1; k < TESTED; k++) reached &= row(what, tested[k].name, n, best[0], best[k], k == 1 ? wanted : 0);
    if (!right) puts("mul_add: the results differ");
    for (int k = 0; k < TESTED; k++) free(results[k]);
    free(fragment);
    free(buffer);
    return right && reached;
}

/* A set of files into one volume, in parts of this many bytes of the buffer. */
static void add_files(uint8_t *const files[FILES], uint8_t *volume, size_t part) {
    memset(volume, 0, FILE_BYTES);
    for (size_t at = 0; at < FILE_BYTES; at += part)
        for (int f = 0; f < FILES; f++) par1_mul_add((uint8_t)(f + 1), files[f] + at, part, volume + at, part);
}

static int whole_set(void) {
    uint8_t *files[FILES], *volumes[2] = {malloc(FILE_BYTES), malloc(FILE_BYTES)};
    size_t part[2] = {TILE, FILE_BYTES};
    double best[2] = {1e9, 1e9};
    for (int f = 0; f < FILES; f++) files[f] = random_bytes(FILE_BYTES);
    for (int round = 0; round < ROUNDS / 4; round++)
        for (int k = 0; k < 2; k++) {
            double start = seconds();
            add_files(files, volumes[k], part[k]);
            double took = seconds() - start;
            if (took < best[k]) best[k] = took;
        }
    int right = !memcmp(volumes[0], volumes[1], FILE_BYTES);
    row("24 files mul_added, 32 KiB at a time", "the same, file by file", (size_t)FILES * FILE_BYTES, best[0], best[1], 0);
    if (!right) puts("mul_add: the volumes differ");
    return right;
}

int main(void) {
    set_weight(142);
    int ok = one_size(KIB, 1.0);
    ok &= one_size(64 * KIB, 1.5);
    ok &= one_size(MIB, 1.5);
    ok &= one_size(16 * MIB, 1.0);
    ok &= whole_set();
    return !ok;
}
