/* Rows become columns. */
#define KERNEL "transpose"
enum { M = 512, N = 512 };
#define BUFFERS 4 * M * N, 4 * M * N
#define WORK (8.0 * M * N)
#define UNIT "GB/s"
#include "gallery.h"

void transpose(int64_t M, int64_t N, int32_t *A, int32_t *B);
static void exoc(void **b) { transpose(M, N, b[0], b[1]); }

APART static void loops(int64_t m, int64_t n, int32_t *restrict a, int32_t *restrict b) {
    for (int64_t i = 0; i < m; i++)
        for (int64_t j = 0; j < n; j++) b[j * m + i] = a[i * n + j];
}
static void plain(void **b) { loops(M, N, b[0], b[1]); }
