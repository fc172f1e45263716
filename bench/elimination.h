/* An elimination as plain C loops over a table of 256 products for each weight, which gcc -O3 compiles: the other side of queries and replays. */
#include "product.h"
#include <string.h>

static uint8_t products[256][256];
static uint8_t matrix[256][256], owners[256];

static void add_multiple(uint8_t weight, const uint8_t *row, uint8_t *sum) {
    const uint8_t *table = products[weight];
    if (weight == 0) return;
    for (int j = 0; j < 256; j++) sum[j] ^= table[row[j]];
}

static uint8_t inverse(uint8_t a) {
    int b = 1;
    while (products[a][b] != 1) b++;
    return (uint8_t)b;
}

/* Takes the row of volume v: adds it to the matrix, unless it is a sum of multiples of earlier ones. */
static void add_row(const uint8_t *row, uint8_t v) {
    uint8_t y[256] = {0};
    int k = 0;
    for (int i = 0; i < 256; i++) add_multiple(row[i], matrix[i], y);
    while (k < 256 && (owners[k] != 0 || y[k] == 0)) k++;
    if (k == 256) return;
    uint8_t scale = inverse(y[k]);
    y[k] ^= 1;
    for (int r = 0; r < 256; r++) add_multiple(products[scale][matrix[r][k]], y, matrix[r]);
    owners[k] = v;
}

static void make_products(void) {
    for (int a = 0; a < 256; a++)
        for (int b = 0; b < 256; b++) products[a][b] = product((uint8_t)a, (uint8_t)b);
}

/* Starts with no row: the matrix is the identity, and no column has an owner. */
static void start_rows(void) {
    memset(matrix, 0, sizeof matrix);
    memset(owners, 0, sizeof owners);
    for (int i = 0; i < 256; i++) matrix[i][i] = 1;
}
