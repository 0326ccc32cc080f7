/* exoc
 * filter: from filter; differs: nothing
 */
#include <stdint.h>
#include <stdlib.h>

static inline int64_t exo_div(int64_t a, int64_t b) { int64_t q = a / b; return (a % b < 0) ? q - 1 : q; }
static inline int64_t exo_mod(int64_t a, int64_t b) { int64_t r = a % b; return (r < 0) ? r + b : r; }
static inline uint32_t exo_relu(uint32_t x) { return ((int32_t)x > 0) ? x : 0; }
static inline uint32_t exo_select(uint32_t x, uint32_t v, uint32_t y, uint32_t z) { return ((int32_t)x < (int32_t)v) ? y : z; }

void filter(int64_t n, int32_t *w, int32_t *x, int32_t *y) {
    if ((11LL <= n)) {
        for (int64_t io = 0LL; io < exo_div((n - 3LL), 8LL); io++) {
            for (int64_t ii = 0LL; ii < 8LL; ii++) {
                y[((8LL * io) + ii)] = (int32_t)0u;
                if (((((8LL * io) + ii) + 0LL) < n)) {
                    y[((8LL * io) + ii)] = (int32_t)((uint32_t)y[((8LL * io) + ii)] + ((uint32_t)w[0LL] * (uint32_t)x[(((8LL * io) + ii) + 0LL)]));
                }
                if (((((8LL * io) + ii) + 1LL) < n)) {
                    y[((8LL * io) + ii)] = (int32_t)((uint32_t)y[((8LL * io) + ii)] + ((uint32_t)w[1LL] * (uint32_t)x[(((8LL * io) + ii) + 1LL)]));
                }
                if (((((8LL * io) + ii) + 2LL) < n)) {
                    y[((8LL * io) + ii)] = (int32_t)((uint32_t)y[((8LL * io) + ii)] + ((uint32_t)w[2LL] * (uint32_t)x[(((8LL * io) + ii) + 2LL)]));
                }
                if (((((8LL * io) + ii) + 3LL) < n)) {
                    y[((8LL * io) + ii)] = (int32_t)((uint32_t)y[((8LL * io) + ii)] + ((uint32_t)w[3LL] * (uint32_t)x[(((8LL * io) + ii) + 3LL)]));
                }
            }
        }
        for (int64_t ii = 0LL; ii < exo_mod((n - 3LL), 8LL); ii++) {
            y[((8LL * exo_div((n - 3LL), 8LL)) + ii)] = (int32_t)0u;
            for (int64_t k = 0LL; k < 4LL; k++) {
                if (((((8LL * exo_div((n - 3LL), 8LL)) + ii) + k) < n)) {
                    y[((8LL * exo_div((n - 3LL), 8LL)) + ii)] = (int32_t)((uint32_t)y[((8LL * exo_div((n - 3LL), 8LL)) + ii)] + ((uint32_t)w[k] * (uint32_t)x[(((8LL * exo_div((n - 3LL), 8LL)) + ii) + k)]));
                }
            }
        }
        for (int64_t i = (n - 3LL); i < n; i++) {
            y[i] = (int32_t)0u;
            for (int64_t k = 0LL; k < 4LL; k++) {
                if (((i + k) < n)) {
                    y[i] = (int32_t)((uint32_t)y[i] + ((uint32_t)w[k] * (uint32_t)x[(i + k)]));
                }
            }
        }
    } else {
        for (int64_t i = 0LL; i < (n - 3LL); i++) {
            y[i] = (int32_t)0u;
            for (int64_t k = 0LL; k < 4LL; k++) {
                if (((i + k) < n)) {
                    y[i] = (int32_t)((uint32_t)y[i] + ((uint32_t)w[k] * (uint32_t)x[(i + k)]));
                }
            }
        }
        for (int64_t i = (n - 3LL); i < n; i++) {
            y[i] = (int32_t)0u;
            for (int64_t k = 0LL; k < 4LL; k++) {
                if (((i + k) < n)) {
                    y[i] = (int32_t)((uint32_t)y[i] + ((uint32_t)w[k] * (uint32_t)x[(i + k)]));
                }
            }
        }
    }
}
