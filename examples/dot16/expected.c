/* exoc
 * dot: from dot; differs: nothing
 */
#include <stdint.h>
#include <stdlib.h>
#include <immintrin.h>

static inline int64_t exo_div(int64_t a, int64_t b) { int64_t q = a / b; return (a % b < 0) ? q - 1 : q; }
static inline int64_t exo_mod(int64_t a, int64_t b) { int64_t r = a % b; return (r < 0) ? r + b : r; }
static inline uint32_t exo_relu(uint32_t x) { return ((int32_t)x > 0) ? x : 0; }
static inline uint32_t exo_select(uint32_t x, uint32_t v, uint32_t y, uint32_t z) { return ((int32_t)x < (int32_t)v) ? y : z; }

void dot(int64_t n, int8_t *x, int8_t *y, int32_t *out) {
    __m256i acc[1];
    acc[0LL] = _mm256_setzero_si256();
    for (int64_t i = 0LL; i < exo_div(n, 16LL); i++) {
        acc[0LL] = _mm256_add_epi32(acc[0LL], _mm256_madd_epi16(_mm256_cvtepi8_epi16(_mm_loadu_si128((const __m128i *)&x[(16LL * i)])), _mm256_cvtepi8_epi16(_mm_loadu_si128((const __m128i *)&y[(16LL * i)]))));
    }
    for (int64_t l = 0LL; l < 8LL; l++) {
        out[0LL] = (int32_t)((uint32_t)out[0LL] + (uint32_t)((__v8si)acc[0LL])[l]);
    }
    for (int64_t t = 0LL; t < exo_mod(n, 16LL); t++) {
        out[0LL] = (int32_t)((uint32_t)out[0LL] + ((uint32_t)x[((16LL * exo_div(n, 16LL)) + t)] * (uint32_t)y[((16LL * exo_div(n, 16LL)) + t)]));
    }
}
