/* exoc
 * dot: from dot; differs: nothing
 */
#include <stdint.h>
#include <stdlib.h>
#include <immintrin.h>

static inline int64_t exo_div(int64_t a, int64_t b) { int64_t q = a / b; return (a % b < 0) ? q - 1 : q; }
static inline int64_t exo_mod(int64_t a, int64_t b) { int64_t r = a % b; return (r < 0) ? r + b : r; }
static inline uint32_t exo_relu(uint32_t x) { return ((int32_t)x > 0) ? x : 0; }
static inline uint32_t exo_select(uint32_t x, uint32_t v, uint32_t y, uint32_t z) { return ((int32_t)x < (int32_t)v) ? y : z; }

void dot(int64_t n, uint8_t *x, int8_t *w, int32_t *out) {
    __m256i acc[1];
    acc[0LL] = _mm256_setzero_si256();
    for (int64_t i = 0LL; i < exo_div(n, 32LL); i++) {
        __m256i xs[1];
        __m256i ws[1];
        __m256i pairs[1];
        xs[0LL] = _mm256_loadu_si256((const __m256i *)&x[(32LL * i)]);
        ws[0LL] = _mm256_loadu_si256((const __m256i *)&w[(32LL * i)]);
        pairs[0LL] = _mm256_maddubs_epi16(xs[0LL], ws[0LL]);
        acc[0LL] = _mm256_add_epi32(acc[0LL], _mm256_madd_epi16(pairs[0LL], _mm256_set1_epi16(1)));
    }
    int32_t *sums = (int32_t *)malloc((size_t)8LL * sizeof(int32_t));
    _mm256_storeu_si256((__m256i *)&sums[0LL], acc[0LL]);
    out[0LL] = (int32_t)0u;
    out[0LL] = (int32_t)((uint32_t)out[0LL] + (uint32_t)sums[0LL]);
    out[0LL] = (int32_t)((uint32_t)out[0LL] + (uint32_t)sums[1LL]);
    out[0LL] = (int32_t)((uint32_t)out[0LL] + (uint32_t)sums[2LL]);
    out[0LL] = (int32_t)((uint32_t)out[0LL] + (uint32_t)sums[3LL]);
    out[0LL] = (int32_t)((uint32_t)out[0LL] + (uint32_t)sums[4LL]);
    out[0LL] = (int32_t)((uint32_t)out[0LL] + (uint32_t)sums[5LL]);
    out[0LL] = (int32_t)((uint32_t)out[0LL] + (uint32_t)sums[6LL]);
    out[0LL] = (int32_t)((uint32_t)out[0LL] + (uint32_t)sums[7LL]);
    free(sums);
}
