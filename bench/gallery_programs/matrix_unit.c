/* A product of matrices of cells of 8 bits by the functions that stand for a machine; what is below 0 as 0. */
#define KERNEL "matrix_unit"
enum { N = 256 };
#define BUFFERS N * N, N * N, 4 * N * N
#define WORK (2.0 * N * N * N)
#define UNIT "GOp/s"
#include "gallery.h"

void product(int64_t n, int8_t *A, int8_t *B, int32_t *C);
static void exoc(void **b) { product(N, b[0], b[1], b[2]); }

APART static void loops(int64_t n, int8_t *restrict a, int8_t *restrict b, int32_t *restrict c) {
    for (int64_t i = 0; i < n; i++) {
        for (int64_t j = 0; j < n; j++) c[i * n + j] = 0;
        for (int64_t k = 0; k < n; k++)
            for (int64_t j = 0; j < n; j++) c[i * n + j] += a[i * n + k] * b[k * n + j];
        for (int64_t j = 0; j < n; j++) c[i * n + j] = c[i * n + j] < 0 ? 0 : c[i * n + j];
    }
}
static void plain(void **b) { loops(N, b[0], b[1], b[2]); }
