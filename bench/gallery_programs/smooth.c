/* Cells of 8 bits scaled and clipped, and the sum of the first half. */
#define KERNEL "smooth"
enum { N = 65536 };
#define BUFFERS N, N, 4
#define WORK (2.0 * N)
#define UNIT "GB/s"
#include "gallery.h"

void smooth(int64_t n, int8_t *x, int8_t *y, int32_t *total);
extern int64_t Cfg_clip;
static void exoc(void **b) {
    Cfg_clip = 1;
    smooth(N, b[0], b[1], b[2]);
}

APART static void loops(int64_t n, int64_t clip, int8_t *restrict x, int8_t *restrict y, int32_t *restrict total) {
    *total = 0;
    for (int64_t i = 0; i < n; i++) {
        int32_t held = 3 * x[i] - 5 > 0 ? 3 * x[i] - 5 : 0;
        y[i] = (int8_t)(clip && held >= 100 ? 100 : held);
        if (i < n / 2) *total += held;
    }
}
static void plain(void **b) { loops(N, 1, b[0], b[1], b[2]); }
