/* exoc
 * tiled: from tiled; differs: nothing
 */
#include <stdint.h>
#include <stdlib.h>

static inline int64_t exo_div(int64_t a, int64_t b) { int64_t q = a / b; return (a % b < 0) ? q - 1 : q; }
static inline int64_t exo_mod(int64_t a, int64_t b) { int64_t r = a % b; return (r < 0) ? r + b : r; }
static inline uint32_t exo_relu(uint32_t x) { return ((int32_t)x > 0) ? x : 0; }
static inline uint32_t exo_select(uint32_t x, uint32_t v, uint32_t y, uint32_t z) { return ((int32_t)x < (int32_t)v) ? y : z; }

void tiled(int64_t n, int32_t *x, int32_t *y) {
    for (int64_t i = 0LL; i < n; i++) {
        y[((exo_div(i, 8LL) * 8LL) + exo_mod(i, 8LL))] = (int32_t)(uint32_t)x[i];
    }
}
