/* exoc
 * gemm_avx2_tiled: from gemm; differs: nothing
 */
#include <stdint.h>
#include <stdlib.h>
#include <immintrin.h>

static inline int64_t exo_div(int64_t a, int64_t b) { int64_t q = a / b; return (a % b < 0) ? q - 1 : q; }
static inline int64_t exo_mod(int64_t a, int64_t b) { int64_t r = a % b; return (r < 0) ? r + b : r; }
static inline uint32_t exo_relu(uint32_t x) { return ((int32_t)x > 0) ? x : 0; }
static inline uint32_t exo_select(uint32_t x, uint32_t v, uint32_t y, uint32_t z) { return ((int32_t)x < (int32_t)v) ? y : z; }

void gemm_avx2_tiled(int64_t M, int64_t N, int64_t K, int32_t *A, int32_t *B, int32_t *C) {
    for (int64_t jo = 0LL; jo < exo_div(N, 8LL); jo++) {
        for (int64_t ko = 0LL; ko < exo_div(K, 256LL); ko++) {
            int32_t *b = (int32_t *)malloc((size_t)(256LL * 8LL) * sizeof(int32_t));
            for (int64_t i0 = 0LL; i0 < 256LL; i0++) {
                for (int64_t i1 = 0LL; i1 < 8LL; i1++) {
                    b[((i0 * 8LL) + i1)] = (int32_t)(uint32_t)B[((((256LL * ko) + i0) * N) + ((8LL * jo) + i1))];
                }
            }
            for (int64_t io = 0LL; io < exo_div(M, 12LL); io++) {
                __m256i c[12];
                c[0LL] = _mm256_loadu_si256((const __m256i *)&C[(((12LL * io) * N) + (8LL * jo))]);
                c[1LL] = _mm256_loadu_si256((const __m256i *)&C[((((12LL * io) + 1LL) * N) + (8LL * jo))]);
                c[2LL] = _mm256_loadu_si256((const __m256i *)&C[((((12LL * io) + 2LL) * N) + (8LL * jo))]);
                c[3LL] = _mm256_loadu_si256((const __m256i *)&C[((((12LL * io) + 3LL) * N) + (8LL * jo))]);
                c[4LL] = _mm256_loadu_si256((const __m256i *)&C[((((12LL * io) + 4LL) * N) + (8LL * jo))]);
                c[5LL] = _mm256_loadu_si256((const __m256i *)&C[((((12LL * io) + 5LL) * N) + (8LL * jo))]);
                c[6LL] = _mm256_loadu_si256((const __m256i *)&C[((((12LL * io) + 6LL) * N) + (8LL * jo))]);
                c[7LL] = _mm256_loadu_si256((const __m256i *)&C[((((12LL * io) + 7LL) * N) + (8LL * jo))]);
                c[8LL] = _mm256_loadu_si256((const __m256i *)&C[((((12LL * io) + 8LL) * N) + (8LL * jo))]);
                c[9LL] = _mm256_loadu_si256((const __m256i *)&C[((((12LL * io) + 9LL) * N) + (8LL * jo))]);
                c[10LL] = _mm256_loadu_si256((const __m256i *)&C[((((12LL * io) + 10LL) * N) + (8LL * jo))]);
                c[11LL] = _mm256_loadu_si256((const __m256i *)&C[((((12LL * io) + 11LL) * N) + (8LL * jo))]);
                for (int64_t ki = 0LL; ki < 256LL; ki++) {
                    __m256i v[1];
                    v[0LL] = _mm256_loadu_si256((const __m256i *)&b[((ki * 8LL) + 0LL)]);
                    c[0LL] = _mm256_add_epi32(c[0LL], _mm256_mullo_epi32(_mm256_set1_epi32(A[(((12LL * io) * K) + ((256LL * ko) + ki))]), v[0LL]));
                    c[1LL] = _mm256_add_epi32(c[1LL], _mm256_mullo_epi32(_mm256_set1_epi32(A[((((12LL * io) + 1LL) * K) + ((256LL * ko) + ki))]), v[0LL]));
                    c[2LL] = _mm256_add_epi32(c[2LL], _mm256_mullo_epi32(_mm256_set1_epi32(A[((((12LL * io) + 2LL) * K) + ((256LL * ko) + ki))]), v[0LL]));
                    c[3LL] = _mm256_add_epi32(c[3LL], _mm256_mullo_epi32(_mm256_set1_epi32(A[((((12LL * io) + 3LL) * K) + ((256LL * ko) + ki))]), v[0LL]));
                    c[4LL] = _mm256_add_epi32(c[4LL], _mm256_mullo_epi32(_mm256_set1_epi32(A[((((12LL * io) + 4LL) * K) + ((256LL * ko) + ki))]), v[0LL]));
                    c[5LL] = _mm256_add_epi32(c[5LL], _mm256_mullo_epi32(_mm256_set1_epi32(A[((((12LL * io) + 5LL) * K) + ((256LL * ko) + ki))]), v[0LL]));
                    c[6LL] = _mm256_add_epi32(c[6LL], _mm256_mullo_epi32(_mm256_set1_epi32(A[((((12LL * io) + 6LL) * K) + ((256LL * ko) + ki))]), v[0LL]));
                    c[7LL] = _mm256_add_epi32(c[7LL], _mm256_mullo_epi32(_mm256_set1_epi32(A[((((12LL * io) + 7LL) * K) + ((256LL * ko) + ki))]), v[0LL]));
                    c[8LL] = _mm256_add_epi32(c[8LL], _mm256_mullo_epi32(_mm256_set1_epi32(A[((((12LL * io) + 8LL) * K) + ((256LL * ko) + ki))]), v[0LL]));
                    c[9LL] = _mm256_add_epi32(c[9LL], _mm256_mullo_epi32(_mm256_set1_epi32(A[((((12LL * io) + 9LL) * K) + ((256LL * ko) + ki))]), v[0LL]));
                    c[10LL] = _mm256_add_epi32(c[10LL], _mm256_mullo_epi32(_mm256_set1_epi32(A[((((12LL * io) + 10LL) * K) + ((256LL * ko) + ki))]), v[0LL]));
                    c[11LL] = _mm256_add_epi32(c[11LL], _mm256_mullo_epi32(_mm256_set1_epi32(A[((((12LL * io) + 11LL) * K) + ((256LL * ko) + ki))]), v[0LL]));
                }
                _mm256_storeu_si256((__m256i *)&C[(((12LL * io) * N) + (8LL * jo))], c[0LL]);
                _mm256_storeu_si256((__m256i *)&C[((((12LL * io) + 1LL) * N) + (8LL * jo))], c[1LL]);
                _mm256_storeu_si256((__m256i *)&C[((((12LL * io) + 2LL) * N) + (8LL * jo))], c[2LL]);
                _mm256_storeu_si256((__m256i *)&C[((((12LL * io) + 3LL) * N) + (8LL * jo))], c[3LL]);
                _mm256_storeu_si256((__m256i *)&C[((((12LL * io) + 4LL) * N) + (8LL * jo))], c[4LL]);
                _mm256_storeu_si256((__m256i *)&C[((((12LL * io) + 5LL) * N) + (8LL * jo))], c[5LL]);
                _mm256_storeu_si256((__m256i *)&C[((((12LL * io) + 6LL) * N) + (8LL * jo))], c[6LL]);
                _mm256_storeu_si256((__m256i *)&C[((((12LL * io) + 7LL) * N) + (8LL * jo))], c[7LL]);
                _mm256_storeu_si256((__m256i *)&C[((((12LL * io) + 8LL) * N) + (8LL * jo))], c[8LL]);
                _mm256_storeu_si256((__m256i *)&C[((((12LL * io) + 9LL) * N) + (8LL * jo))], c[9LL]);
                _mm256_storeu_si256((__m256i *)&C[((((12LL * io) + 10LL) * N) + (8LL * jo))], c[10LL]);
                _mm256_storeu_si256((__m256i *)&C[((((12LL * io) + 11LL) * N) + (8LL * jo))], c[11LL]);
            }
            free(b);
        }
    }
}
