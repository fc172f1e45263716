/* A query in the worst case, every file missing and every volume present, against the same elimination as plain C loops over a table of 256
   products for each weight, which gcc -O3 compiles. Where the file comes back, both must give the same weights. And the same query of an inventory of
   Cauchy coefficients against one of powers. */
#include "clock.h"
#include "elimination.h"
#include "../include/par1.h"

/* The weights of the volumes for file f of n missing files, with every volume present. */
static void by_loops(int n, int f, uint8_t *weights) {
    uint8_t row[256] = {0};
    start_rows();
    for (int g = 0; g < n; g++) row[g] = 1;
    for (int v = 1; v <= 255 - n; v++) {
        add_row(row, (uint8_t)v);
        for (int g = 0; g < n; g++) row[g] = products[g + 1][row[g]];
    }
    memset(weights, 0, 255);
    for (int k = 0; k < 256; k++)
        if (owners[k] != 0) weights[n + owners[k] - 1] ^= matrix[f - 1][k];
}

/* An inventory with every one of n files missing and every volume present. */
static void fill(uint32_t code, int n, uint8_t *inventory) {
    uint8_t sizes[8 * 254] = {0};
    for (int f = 0; f < n; f++) sizes[8 * f] = 1;
    par1_open(code, (uint64_t)n, sizes, 8 * (size_t)n, inventory, PAR1_INVENTORY_BYTES);
    for (int v = 1; v <= 255 - n; v++) par1_add_volume(inventory, PAR1_INVENTORY_BYTES, code, (uint64_t)v);
}

static int both_codes(int n) {
    uint8_t cauchy[PAR1_INVENTORY_BYTES], powers[PAR1_INVENTORY_BYTES], weights[255];
    double a = 0, b = 0;
    fill(PAR1_CAUCHY, n, cauchy);
    fill(PAR1_POWERS, n, powers);
    COMPARE(60, 1, par1_query(cauchy, PAR1_INVENTORY_BYTES, 1, weights, 255), par1_query(powers, PAR1_INVENTORY_BYTES, 1, weights, 255), a, b)
    char what[64];
    snprintf(what, sizeof what, "query, %d files missing, Cauchy", n);
    return row(what, "the same of powers", 0, a, b, 0);
}

int main(void) {
    static const int files[] = {100, 127, 150};
    int right = 1;
    make_products();
    for (int i = 0; i < 3; i++) {
        int n = files[i];
        uint8_t inventory[PAR1_INVENTORY_BYTES], ours[255], loops[255];
        double a = 0, b = 0;
        fill(PAR1_POWERS, n, inventory);
        uint32_t number = par1_query(inventory, PAR1_INVENTORY_BYTES, 1, ours, 255);
        COMPARE(60, 1, par1_query(inventory, PAR1_INVENTORY_BYTES, 1, ours, 255), by_loops(n, 1, loops), a, b)
        /* The loops do not ask whether the file comes back, so weights are compared only where it does. */
        int same = number == 12 || (number == 0 && memcmp(ours, loops, 255) == 0);
        char what[64];
        snprintf(what, sizeof what, "query, %d files missing, %d volumes%s", n, 255 - n, number == 12 ? " (12)" : "");
        right &= row(what, "the same as C loops", 0, a, b, 1.0) && same;
        if (!same) puts("query: the weights differ");
    }
    both_codes(127);
    return !right;
}
