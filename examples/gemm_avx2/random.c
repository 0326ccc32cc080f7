/* The plain loops of a matrix product on random inputs, against the C that is printed. */
#include "../random.h"

void gemm_avx2(int64_t M, int64_t N, int64_t K, int32_t *A, int32_t *B, int32_t *C);

int main(void) {
    int wrong = 0;
    for (int run = 0; run < 100; run++) {
        int64_t M = between(1, 9), N = 8 * between(1, 3), K = between(1, 9);
        int32_t *A = random_cells(M * K), *B = random_cells(K * N), *C = random_cells(M * N);
        int32_t *wanted = malloc((size_t)(M * N) * sizeof(int32_t));
        for (int64_t c = 0; c < M * N; c++) wanted[c] = C[c];
        for (int64_t i = 0; i < M; i++)
            for (int64_t j = 0; j < N; j++)
                for (int64_t k = 0; k < K; k++)
                    wanted[i * N + j] = wrap32((int64_t)wanted[i * N + j] + wrap32((int64_t)A[i * K + k] * B[k * N + j]));
        gemm_avx2(M, N, K, A, B, C);
        for (int64_t c = 0; c < M * N; c++) wrong += C[c] != wanted[c];
        free(A);
        free(B);
        free(C);
        free(wanted);
    }
    return wrong != 0;
}
