/* A row of cells into rows of eight. */
#define KERNEL "tiled"
enum { N = 65536 };
#define BUFFERS 4 * N, 4 * (N + 8)
#define WORK (8.0 * N)
#define UNIT "GB/s"
#include "gallery.h"

void tiled(int64_t n, int32_t *x, int32_t *y);
static void exoc(void **b) { tiled(N, b[0], b[1]); }

APART static void loops(int64_t n, int32_t *restrict x, int32_t *restrict y) {
    for (int64_t i = 0; i < n; i++) y[i / 8 * 8 + i % 8] = x[i];
}
static void plain(void **b) { loops(N, b[0], b[1]); }
