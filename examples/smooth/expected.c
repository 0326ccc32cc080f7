/* exoc
 * smooth: from smooth; differs: nothing
 */
#include <stdint.h>
#include <stdlib.h>

static inline int64_t exo_div(int64_t a, int64_t b) { int64_t q = a / b; return (a % b < 0) ? q - 1 : q; }
static inline int64_t exo_mod(int64_t a, int64_t b) { int64_t r = a % b; return (r < 0) ? r + b : r; }
static inline uint32_t exo_relu(uint32_t x) { return ((int32_t)x > 0) ? x : 0; }
static inline uint32_t exo_select(uint32_t x, uint32_t v, uint32_t y, uint32_t z) { return ((int32_t)x < (int32_t)v) ? y : z; }
int64_t Cfg_limit;
int64_t Cfg_clip;

void smooth(int64_t n, int8_t *x, int8_t *y, int32_t *total) {
    Cfg_limit = exo_div(n, 2LL);
    int32_t *t = (int32_t *)malloc((size_t)n * sizeof(int32_t));
    for (int64_t i = 0LL; i < n; i++) {
        t[i] = (int32_t)((uint32_t)x[i] * 3u);
    }
    total[0LL] = (int32_t)0u;
    for (int64_t i = 0LL; i < n; i++) {
        int32_t int_1[1];
        int_1[0LL] = (int32_t)exo_relu(((uint32_t)t[i] - 5u));
        if ((Cfg_clip != 0LL)) {
            y[i] = (int8_t)exo_select((uint32_t)int_1[0LL], 100u, (uint32_t)int_1[0LL], 100u);
        } else {
            y[i] = (int8_t)(uint32_t)int_1[0LL];
        }
        if ((i < Cfg_limit)) {
            total[0LL] = (int32_t)((uint32_t)total[0LL] + (uint32_t)int_1[0LL]);
        }
    }
    free(t);
}
