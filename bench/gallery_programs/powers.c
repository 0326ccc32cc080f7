/* The fourth power of each cell, and the cell. */
#define KERNEL "powers"
enum { N = 65536 };
#define BUFFERS 4 * N, 4 * N
#define WORK (3.0 * N)
#define UNIT "GOp/s"
#include "gallery.h"

void powers(int64_t n, int32_t *x, int32_t *y);
static void exoc(void **b) { powers(N, b[0], b[1]); }

APART static void loops(int64_t n, int32_t *restrict x, int32_t *restrict y) {
    for (int64_t i = 0; i < n; i++) {
        uint32_t s = (uint32_t)x[i] * (uint32_t)x[i];
        y[i] = (int32_t)(s * s + (uint32_t)x[i]);
    }
}
static void plain(void **b) { loops(N, b[0], b[1]); }
