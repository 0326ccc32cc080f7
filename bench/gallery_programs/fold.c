/* The second half of each row added to the first. */
#define KERNEL "fold"
enum { M = 128, N = 256 };
#define BUFFERS 8 * M * N
#define WORK (12.0 * M * N)
#define UNIT "GB/s"
#include "gallery.h"

void fold(int64_t m, int64_t n, int32_t *x);
static void exoc(void **b) { fold(M, N, b[0]); }

APART static void loops(int64_t m, int64_t n, int32_t *x) {
    for (int64_t i = 0; i < m; i++)
        for (int64_t l = 0; l < n; l++)
            x[i * 2 * n + l] = (int32_t)((uint32_t)x[i * 2 * n + l] + (uint32_t)x[i * 2 * n + n + l]);
}
static void plain(void **b) { loops(M, N, b[0]); }
