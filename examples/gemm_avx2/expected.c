/* exoc
 * gemm_avx2: from gemm_avx2; differs: nothing
 */
#include <stdint.h>
#include <stdlib.h>
#include <immintrin.h>

static inline int64_t exo_div(int64_t a, int64_t b) { int64_t q = a / b; return (a % b < 0) ? q - 1 : q; }
static inline int64_t exo_mod(int64_t a, int64_t b) { int64_t r = a % b; return (r < 0) ? r + b : r; }
static inline uint32_t exo_relu(uint32_t x) { return ((int32_t)x > 0) ? x : 0; }
static inline uint32_t exo_select(uint32_t x, uint32_t v, uint32_t y, uint32_t z) { return ((int32_t)x < (int32_t)v) ? y : z; }

void gemm_avx2(int64_t M, int64_t N, int64_t K, int32_t *A, int32_t *B, int32_t *C) {
    for (int64_t i = 0LL; i < M; i++) {
        for (int64_t jo = 0LL; jo < exo_div(N, 8LL); jo++) {
            __m256i c[1];
            c[0LL] = _mm256_loadu_si256((const __m256i *)&C[((i * N) + (8LL * jo))]);
            for (int64_t k = 0LL; k < K; k++) {
                __m256i b[1];
                b[0LL] = _mm256_loadu_si256((const __m256i *)&B[((k * N) + (8LL * jo))]);
                c[0LL] = _mm256_add_epi32(c[0LL], _mm256_mullo_epi32(_mm256_set1_epi32(A[((i * K) + k)]), b[0LL]));
            }
            _mm256_storeu_si256((__m256i *)&C[((i * N) + (8LL * jo))], c[0LL]);
        }
    }
}
