/* exoc
 * gemm: from gemm; differs: nothing
 */
#include <stdint.h>
#include <stdlib.h>

static inline int64_t exo_div(int64_t a, int64_t b) { int64_t q = a / b; return (a % b < 0) ? q - 1 : q; }
static inline int64_t exo_mod(int64_t a, int64_t b) { int64_t r = a % b; return (r < 0) ? r + b : r; }
static inline uint32_t exo_relu(uint32_t x) { return ((int32_t)x > 0) ? x : 0; }
static inline uint32_t exo_select(uint32_t x, uint32_t v, uint32_t y, uint32_t z) { return ((int32_t)x < (int32_t)v) ? y : z; }

void gemm(int64_t M, int64_t N, int64_t K, int32_t *A, int32_t *B, int32_t *C) {
    for (int64_t i = 0LL; i < M; i++) {
        for (int64_t j = 0LL; j < N; j++) {
            C[((i * N) + j)] = (int32_t)0u;
        }
    }
    for (int64_t jo = 0LL; jo < exo_div(N, 64LL); jo++) {
        for (int64_t ko = 0LL; ko < exo_div((K + 63LL), 64LL); ko++) {
            for (int64_t i = 0LL; i < M; i++) {
                for (int64_t ki = 0LL; ki < 64LL; ki++) {
                    if ((((64LL * ko) + ki) < K)) {
                        for (int64_t ji = 0LL; ji < 64LL; ji++) {
                            C[((i * N) + ((64LL * jo) + ji))] = (int32_t)((uint32_t)C[((i * N) + ((64LL * jo) + ji))] + ((uint32_t)A[((i * K) + ((64LL * ko) + ki))] * (uint32_t)B[((((64LL * ko) + ki) * N) + ((64LL * jo) + ji))]));
                        }
                    }
                }
            }
        }
    }
    for (int64_t i = 0LL; i < M; i++) {
        for (int64_t k = 0LL; k < K; k++) {
            for (int64_t ji = 0LL; ji < exo_mod(N, 64LL); ji++) {
                C[((i * N) + ((64LL * exo_div(N, 64LL)) + ji))] = (int32_t)((uint32_t)C[((i * N) + ((64LL * exo_div(N, 64LL)) + ji))] + ((uint32_t)A[((i * K) + k)] * (uint32_t)B[((k * N) + ((64LL * exo_div(N, 64LL)) + ji))]));
            }
        }
    }
}
