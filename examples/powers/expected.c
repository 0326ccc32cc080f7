/* exoc
 * powers: from powers; differs: nothing
 */
#include <stdint.h>
#include <stdlib.h>

static inline int64_t exo_div(int64_t a, int64_t b) { int64_t q = a / b; return (a % b < 0) ? q - 1 : q; }
static inline int64_t exo_mod(int64_t a, int64_t b) { int64_t r = a % b; return (r < 0) ? r + b : r; }
static inline uint32_t exo_relu(uint32_t x) { return ((int32_t)x > 0) ? x : 0; }
static inline uint32_t exo_select(uint32_t x, uint32_t v, uint32_t y, uint32_t z) { return ((int32_t)x < (int32_t)v) ? y : z; }

void powers(int64_t n, int32_t *x, int32_t *y) {
    for (int64_t io = 0LL; io < exo_div(n, 8LL); io++) {
        int32_t s[8];
        for (int64_t ii = 0LL; ii < 8LL; ii++) {
            s[ii] = (int32_t)((uint32_t)x[((8LL * io) + ii)] * (uint32_t)x[((8LL * io) + ii)]);
        }
        for (int64_t ii = 0LL; ii < 8LL; ii++) {
            y[((8LL * io) + ii)] = (int32_t)(((uint32_t)s[ii] * (uint32_t)s[ii]) + (uint32_t)x[((8LL * io) + ii)]);
        }
    }
    for (int64_t ii = 0LL; ii < exo_mod(n, 8LL); ii++) {
        int32_t s[1];
        s[0LL] = (int32_t)((uint32_t)x[((8LL * exo_div(n, 8LL)) + ii)] * (uint32_t)x[((8LL * exo_div(n, 8LL)) + ii)]);
        y[((8LL * exo_div(n, 8LL)) + ii)] = (int32_t)(((uint32_t)s[0LL] * (uint32_t)s[0LL]) + (uint32_t)x[((8LL * exo_div(n, 8LL)) + ii)]);
    }
}
