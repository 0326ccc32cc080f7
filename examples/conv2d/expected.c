/* exoc
 * conv2d: from conv2d; differs: nothing
 */
#include <stdint.h>
#include <stdlib.h>

static inline int64_t exo_div(int64_t a, int64_t b) { int64_t q = a / b; return (a % b < 0) ? q - 1 : q; }
static inline int64_t exo_mod(int64_t a, int64_t b) { int64_t r = a % b; return (r < 0) ? r + b : r; }
static inline uint32_t exo_relu(uint32_t x) { return ((int32_t)x > 0) ? x : 0; }
static inline uint32_t exo_select(uint32_t x, uint32_t v, uint32_t y, uint32_t z) { return ((int32_t)x < (int32_t)v) ? y : z; }

void conv2d(int64_t H, int64_t W, int64_t K, int64_t L, int32_t *image, int32_t *kernel, int32_t *out) {
    for (int64_t y = 0LL; y < ((H - K) + 1LL); y++) {
        for (int64_t x = 0LL; x < ((W - L) + 1LL); x++) {
            out[((y * ((W - L) + 1LL)) + x)] = (int32_t)0u;
            for (int64_t u = 0LL; u < K; u++) {
                for (int64_t v = 0LL; v < L; v++) {
                    out[((y * ((W - L) + 1LL)) + x)] = (int32_t)((uint32_t)out[((y * ((W - L) + 1LL)) + x)] + ((uint32_t)image[(((y + u) * W) + (x + v))] * (uint32_t)kernel[((u * L) + v)]));
                }
            }
        }
    }
}
