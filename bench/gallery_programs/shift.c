/* A row of cells, each one place further on. */
#define KERNEL "shift"
enum { N = 65536 };
#define BUFFERS 4 * N, 4 * N
#define WORK (8.0 * N)
#define UNIT "GB/s"
#include "gallery.h"

void shift(int64_t n, int32_t *x, int32_t *y);
static void exoc(void **b) { shift(N, b[0], b[1]); }

APART static void loops(int64_t n, int32_t *restrict x, int32_t *restrict y) {
    for (int64_t i = 0; i < n - 1; i++) y[i] = x[i + 1];
    y[n - 1] = 0;
}
static void plain(void **b) { loops(N, b[0], b[1]); }
