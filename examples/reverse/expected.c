/* exoc
 * reverse: from reverse; differs: nothing
 */
#include <stdint.h>
#include <stdlib.h>

static inline int64_t exo_div(int64_t a, int64_t b) { int64_t q = a / b; return (a % b < 0) ? q - 1 : q; }
static inline int64_t exo_mod(int64_t a, int64_t b) { int64_t r = a % b; return (r < 0) ? r + b : r; }
static inline uint32_t exo_relu(uint32_t x) { return ((int32_t)x > 0) ? x : 0; }
static inline uint32_t exo_select(uint32_t x, uint32_t v, uint32_t y, uint32_t z) { return ((int32_t)x < (int32_t)v) ? y : z; }

void reverse(int64_t n, int32_t *x) {
    int32_t *t = (int32_t *)malloc((size_t)n * sizeof(int32_t));
    for (int64_t i = 0LL; i < n; i++) {
        t[i] = (int32_t)(uint32_t)x[i];
    }
    for (int64_t i = 0LL; i < n; i++) {
        x[i] = (int32_t)(uint32_t)t[((n - 1LL) - i)];
    }
    free(t);
}
