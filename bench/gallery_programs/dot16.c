/* The sum of products of cells of 8 bits, by instructions of AVX2. */
#define KERNEL "dot16"
enum { N = 65536 };
#define BUFFERS N, N, 4
#define WORK (2.0 * N)
#define UNIT "GOp/s"
#include "gallery.h"

void dot(int64_t n, int8_t *x, int8_t *y, int32_t *out);
static void exoc(void **b) { dot(N, b[0], b[1], b[2]); }

APART static void loops(int64_t n, int8_t *restrict x, int8_t *restrict y, int32_t *restrict out) {
    for (int64_t i = 0; i < n; i++) *out = (int32_t)((uint32_t)*out + (uint32_t)(x[i] * y[i]));
}
static void plain(void **b) { loops(N, b[0], b[1], b[2]); }
