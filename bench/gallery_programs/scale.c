/* A row of cells, each three times as large. */
#define KERNEL "scale"
enum { N = 65536 };
#define BUFFERS 4 * N
#define WORK (8.0 * N)
#define UNIT "GB/s"
#include "gallery.h"

void scale(int64_t n, int32_t *x);
static void exoc(void **b) { scale(N, b[0]); }

APART static void loops(int64_t n, int32_t *x) {
    for (int64_t i = 0; i < n; i++) x[i] = (int32_t)(3u * (uint32_t)x[i]);
}
static void plain(void **b) { loops(N, b[0]); }
