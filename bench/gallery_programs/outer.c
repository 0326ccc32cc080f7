/* The products of two rows of cells, added to a matrix. */
#define KERNEL "outer"
enum { M = 256, N = 256 };
#define BUFFERS 4 * M, 4 * N, 4 * M * N
#define WORK (2.0 * M * N)
#define UNIT "GOp/s"
#include "gallery.h"

void outer(int64_t M, int64_t N, int32_t *a, int32_t *b, int32_t *C);
static void exoc(void **b) { outer(M, N, b[0], b[1], b[2]); }

APART static void loops(int64_t m, int64_t n, int32_t *restrict a, int32_t *restrict b, int32_t *restrict c) {
    for (int64_t i = 0; i < m; i++)
        for (int64_t j = 0; j < n; j++) c[i * n + j] = (int32_t)((uint32_t)c[i * n + j] + (uint32_t)a[i] * (uint32_t)b[j]);
}
static void plain(void **b) { loops(M, N, b[0], b[1], b[2]); }
