/* Plain loops in the order i, k, j, whose innermost one gcc makes vectors of. */
#include <stdint.h>

void plain(int64_t M, int64_t N, int64_t K, int32_t *restrict A, int32_t *restrict B, int32_t *restrict C) {
    for (int64_t i = 0; i < M; i++)
        for (int64_t k = 0; k < K; k++)
            for (int64_t j = 0; j < N; j++)
                C[i * N + j] = (int32_t)((uint32_t)C[i * N + j] + (uint32_t)A[i * K + k] * (uint32_t)B[k * N + j]);
}
