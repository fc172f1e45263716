/* This build of the library against another, both as shared objects: queries, and the calls that work out a product. They take turns, and
   must answer the same. */
#include "clock.h"
#include "../include/par1.h"
#include <dlfcn.h>
#include <string.h>

/* A build: whether it is told codes, how long an inventory is, and the calls that are timed; three of them were told no code before 2026-13. */
struct build {
    int codes;
    size_t inventory_length;
    uint32_t (*open)(uint32_t, uint64_t, const uint8_t *, size_t, uint8_t *, size_t);
    uint32_t (*open_without)(uint64_t, const uint8_t *, size_t, uint8_t *, size_t);
    uint32_t (*add_file)(uint8_t *, size_t, uint64_t);
    uint32_t (*add_volume)(uint8_t *, size_t, uint32_t, uint64_t);
    uint32_t (*add_volume_without)(uint8_t *, size_t, uint64_t);
    uint32_t (*query)(const uint8_t *, size_t, uint64_t, uint8_t *, size_t);
    uint32_t (*inverse)(uint8_t, uint8_t *, size_t);
    uint32_t (*coefficient)(uint32_t, uint64_t, uint64_t, uint8_t *, size_t);
    uint32_t (*coefficient_without)(uint64_t, uint64_t, uint8_t *, size_t);
    void (*mul_add)(uint8_t, const uint8_t *, size_t, uint8_t *, size_t);
};

static void *call(void *object, const char *name) {
    void *p = dlsym(object, name);
    if (p == NULL) {
        fprintf(stderr, "%s\n", dlerror());
        exit(2);
    }
    return p;
}

static struct build load(const char *path) {
    void *object = dlopen(path, RTLD_NOW | RTLD_LOCAL);
    if (object == NULL) {
        fprintf(stderr, "%s\n", dlerror());
        exit(2);
    }
    struct build b;
    uint8_t x[1];
    *(void **)&b.open = *(void **)&b.open_without = call(object, "par1_open");
    *(void **)&b.add_file = call(object, "par1_add_file");
    *(void **)&b.add_volume = *(void **)&b.add_volume_without = call(object, "par1_add_volume");
    *(void **)&b.query = call(object, "par1_query");
    *(void **)&b.inverse = call(object, "par1_inverse");
    *(void **)&b.coefficient = *(void **)&b.coefficient_without = call(object, "par1_coefficient");
    *(void **)&b.mul_add = call(object, "par1_mul_add");
    /* One that is told no code takes the first number for file 0, and refuses it. */
    b.codes = b.coefficient(PAR1_POWERS, 1, 1, x, 1) == 0;
    return b;
}

static void open_(const struct build *b, int n, const uint8_t *sizes, uint8_t *inventory, size_t length) {
    if (b->codes)
        b->open(PAR1_POWERS, (uint64_t)n, sizes, 8 * (size_t)n, inventory, length);
    else
        b->open_without((uint64_t)n, sizes, 8 * (size_t)n, inventory, length);
}

static void add_volume(const struct build *b, uint8_t *inventory, int v) {
    if (b->codes)
        b->add_volume(inventory, b->inventory_length, PAR1_POWERS, (uint64_t)v);
    else
        b->add_volume_without(inventory, b->inventory_length, (uint64_t)v);
}

static void coefficient(const struct build *b, int f, int v, uint8_t *out) {
    if (b->codes)
        b->coefficient(PAR1_POWERS, (uint64_t)f, (uint64_t)v, out, 1);
    else
        b->coefficient_without((uint64_t)f, (uint64_t)v, out, 1);
}

/* An inventory has been longer since volumes can be in quarantine, and since it has a code: the length with which this build takes one. */
static size_t inventory_length(const struct build *b) {
    uint8_t sizes[8] = {1}, inventory[PAR1_INVENTORY_BYTES];
    open_(b, 1, sizes, inventory, sizeof inventory);
    return b->add_file(inventory, sizeof inventory, 1) == 0 ? sizeof inventory : b->add_file(inventory, 136, 1) == 0 ? 136 : 104;
}

/* An inventory in which `missing` files of n are missing, one in `step` from file 1 on, and the first volumes are present. */
static void fill(const struct build *b, int n, int missing, int step, int volumes, uint8_t *inventory) {
    uint8_t sizes[8 * 254] = {0};
    for (int f = 0; f < n; f++) sizes[8 * f] = 1;
    open_(b, n, sizes, inventory, b->inventory_length);
    for (int f = 1; f <= n; f++)
        if ((f - 1) % step != 0 || (f - 1) / step >= missing) b->add_file(inventory, b->inventory_length, (uint64_t)f);
    for (int v = 1; v <= volumes; v++) add_volume(b, inventory, v);
}

static struct build now, before;

/* A row of the table: the times of a call in nanoseconds, and the ratio that is wanted, or 0. Whether that is reached. */
static int compared(const char *what, double ours, double other, double wanted) {
    printf("| %-52s | %10.1f | %10.1f | %5.2f |", what, 1e9 * other, 1e9 * ours, other / ours);
    if (wanted > 0)
        printf(" %6.2f |\n", wanted);
    else
        printf("        |\n");
    return other / ours >= wanted;
}

/* A query for the first of `missing` files of n, one in `step` from file 1 on, with the first volumes present. */
static int query(int n, int missing, int step, int volumes, int turns, double wanted) {
    uint8_t one[PAR1_INVENTORY_BYTES], two[PAR1_INVENTORY_BYTES], ours[255] = {0}, theirs[255] = {0};
    size_t l = now.inventory_length, m = before.inventory_length;
    double a = 0, b = 0;
    fill(&now, n, missing, step, volumes, one);
    fill(&before, n, missing, step, volumes, two);
    uint32_t x = now.query(one, l, 1, ours, 255), y = before.query(two, m, 1, theirs, 255);
    COMPARE(turns, 1, now.query(one, l, 1, ours, 255), before.query(two, m, 1, theirs, 255), a, b)
    char what[64];
    snprintf(what, sizeof what, "query, %d missing of %d, one in %d, %d volumes%s", missing, n, step, volumes, x == 12 ? " (12)" : "");
    int same = x == y && memcmp(ours, theirs, 255) == 0;
    if (!same) puts("query: the answers differ");
    return compared(what, a, b, wanted) && same;
}

static int mul_add(size_t n, double wanted) {
    uint8_t *fragment = random_bytes(n), *one = calloc(n, 1), *two = calloc(n, 1);
    double a = 0, b = 0;
    COMPARE(2000, 50, now.mul_add((uint8_t)(1 + call_), fragment, n, one, n), before.mul_add((uint8_t)(1 + call_), fragment, n, two, n), a, b)
    char what[64];
    snprintf(what, sizeof what, "mul_add of %zu byte%s", n, n == 1 ? "" : "s");
    int same = memcmp(one, two, n) == 0;
    if (!same) puts("mul_add: the buffers differ");
    free(fragment);
    free(one);
    free(two);
    return compared(what, a, b, wanted) && same;
}

int main(int argc, char **argv) {
    if (argc != 3) return 2;
    now = load(argv[1]);
    before = load(argv[2]);
    now.inventory_length = inventory_length(&now);
    before.inventory_length = inventory_length(&before);
    int right = 1;
    puts("| what                                                 |  before, ns |     now, ns | ratio | wanted |");
    puts("|---|---|---|---|---|");
    right &= query(100, 10, 1, 10, 3000, 4.0);
    right &= query(100, 10, 10, 10, 3000, 4.0);
    right &= query(100, 1, 1, 1, 3000, 0);
    right &= query(127, 127, 1, 128, 100, 1.2);
    right &= query(100, 100, 1, 155, 100, 1.2);
    right &= query(150, 150, 1, 105, 100, 1.2);
    uint8_t x[1] = {0}, y[1] = {0};
    double a = 0, b = 0;
    COMPARE(2000, 100, now.inverse((uint8_t)(1 + call_), x, 1), before.inverse((uint8_t)(1 + call_), y, 1), a, b)
    right &= compared("an inverse", a, b, 0) && x[0] == y[0];
    COMPARE(2000, 100, coefficient(&now, 1 + call_, 150, x), coefficient(&before, 1 + call_, 150, y), a, b)
    right &= compared("a coefficient", a, b, 0) && x[0] == y[0];
    right &= mul_add(1, 0);
    right &= mul_add(256, 0);
    right &= mul_add(1024, 0.98);
    right &= mul_add(65536, 0.98);
    return !right;
}
