/* The plain loops of gemm on random inputs, against the C that is printed. */
#include "../random.h"

void gemm(int64_t M, int64_t N, int64_t K, int32_t *A, int32_t *B, int32_t *C);

int main(void) {
    int wrong = 0;
    for (int run = 0; run < 100; run++) {
        /* Every third run has few columns and rows, so that no block is full; the others have up to two blocks and a rest. */
        int64_t most = run % 3 == 0 ? 7 : 150;
        int64_t m = between(1, 7), n = between(1, most), k = between(1, most);
        int32_t *a = random_cells(m * k), *b = random_cells(k * n), *c = random_cells(m * n);
        gemm(m, n, k, a, b, c);
        for (int64_t i = 0; i < m; i++)
            for (int64_t j = 0; j < n; j++) {
                int32_t sum = 0;
                for (int64_t l = 0; l < k; l++) sum = wrap32(sum + (int64_t)wrap32((int64_t)((uint64_t)a[i * k + l] * (uint64_t)b[l * n + j])));
                wrong += c[i * n + j] != sum;
            }
        free(a);
        free(b);
        free(c);
    }
    return wrong != 0;
}
