/* Cells of 32 bits brought into the range from 0 to 127. */
#define KERNEL "clamp"
enum { N = 65536 };
#define BUFFERS 4 * N, N
#define WORK (5.0 * N)
#define UNIT "GB/s"
#include "gallery.h"

void clamp(int64_t n, int32_t *x, int8_t *y);
static void exoc(void **b) { clamp(N, b[0], b[1]); }

APART static void loops(int64_t n, int32_t *restrict x, int8_t *restrict y) {
    for (int64_t i = 0; i < n; i++) y[i] = (int8_t)(x[i] < 0 ? 0 : x[i] < 127 ? x[i] : 127);
}
static void plain(void **b) { loops(N, b[0], b[1]); }
