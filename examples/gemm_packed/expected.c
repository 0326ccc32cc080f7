/* exoc
 * gemm: from gemm; differs: nothing
 */
#include <stdint.h>
#include <stdlib.h>

static inline int64_t exo_div(int64_t a, int64_t b) { int64_t q = a / b; return (a % b < 0) ? q - 1 : q; }
static inline int64_t exo_mod(int64_t a, int64_t b) { int64_t r = a % b; return (r < 0) ? r + b : r; }
static inline uint32_t exo_relu(uint32_t x) { return ((int32_t)x > 0) ? x : 0; }
static inline uint32_t exo_select(uint32_t x, uint32_t v, uint32_t y, uint32_t z) { return ((int32_t)x < (int32_t)v) ? y : z; }

void gemm(int64_t M, int64_t N, int64_t K, int32_t *A, int32_t *B, int32_t *C) {
    for (int64_t io = 0LL; io < exo_div(M, 32LL); io++) {
        for (int64_t jo = 0LL; jo < exo_div(N, 32LL); jo++) {
            int32_t c[1024];
            for (int64_t i0 = 0LL; i0 < 32LL; i0++) {
                for (int64_t i1 = 0LL; i1 < 32LL; i1++) {
                    c[((i0 * 32LL) + i1)] = (int32_t)0u;
                }
            }
            for (int64_t ko = 0LL; ko < exo_div(K, 32LL); ko++) {
                int32_t a[1024];
                for (int64_t i0 = 0LL; i0 < 32LL; i0++) {
                    for (int64_t i1 = 0LL; i1 < 32LL; i1++) {
                        a[((i0 * 32LL) + i1)] = (int32_t)(uint32_t)A[((((32LL * io) + i0) * K) + ((32LL * ko) + i1))];
                    }
                }
                int32_t b[1024];
                for (int64_t i0 = 0LL; i0 < 32LL; i0++) {
                    for (int64_t i1 = 0LL; i1 < 32LL; i1++) {
                        b[((i0 * 32LL) + i1)] = (int32_t)(uint32_t)B[((((32LL * ko) + i0) * N) + ((32LL * jo) + i1))];
                    }
                }
                for (int64_t ii = 0LL; ii < 32LL; ii++) {
                    for (int64_t ki = 0LL; ki < 32LL; ki++) {
                        for (int64_t ji = 0LL; ji < 32LL; ji++) {
                            c[((ii * 32LL) + ji)] = (int32_t)((uint32_t)c[((ii * 32LL) + ji)] + ((uint32_t)a[((ii * 32LL) + ki)] * (uint32_t)b[((ki * 32LL) + ji)]));
                        }
                    }
                }
            }
            for (int64_t i0 = 0LL; i0 < 32LL; i0++) {
                for (int64_t i1 = 0LL; i1 < 32LL; i1++) {
                    C[((((32LL * io) + i0) * N) + ((32LL * jo) + i1))] = (int32_t)((uint32_t)C[((((32LL * io) + i0) * N) + ((32LL * jo) + i1))] + (uint32_t)c[((i0 * 32LL) + i1)]);
                }
            }
        }
    }
}
