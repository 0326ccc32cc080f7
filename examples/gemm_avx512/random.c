/* The plain loops of a matrix product on random inputs, against the C that is printed. */
#include "../random.h"

void gemm_avx512(int64_t M, int64_t N, int64_t K, int32_t *A, int32_t *B, int32_t *C);

int main(void) {
    int wrong = 0;
    for (int run = 0; run < 10; run++) {
        /* One tile to three of them, in each direction. */
        int64_t m = 12 * between(1, 3), n = 16 * between(1, 3), k = 256 * between(1, 2);
        int32_t *a = random_cells(m * k), *b = random_cells(k * n), *c = random_cells(m * n);
        int32_t *before = malloc((size_t)(m * n) * sizeof(int32_t));
        for (int64_t i = 0; i < m * n; i++) before[i] = c[i];
        gemm_avx512(m, n, k, a, b, c);
        for (int64_t i = 0; i < m; i++)
            for (int64_t j = 0; j < n; j++) {
                int32_t sum = before[i * n + j];
                for (int64_t l = 0; l < k; l++) sum = wrap32(sum + (int64_t)wrap32((int64_t)((uint64_t)a[i * k + l] * (uint64_t)b[l * n + j])));
                wrong += c[i * n + j] != sum;
            }
        free(a);
        free(b);
        free(c);
        free(before);
    }
    return wrong != 0;
}
