/* exoc
 * dot8: from dot8; differs: nothing
 * dot: from dot; differs: nothing
 */
#include <stdint.h>
#include <stdlib.h>

static inline int64_t exo_div(int64_t a, int64_t b) { int64_t q = a / b; return (a % b < 0) ? q - 1 : q; }
static inline int64_t exo_mod(int64_t a, int64_t b) { int64_t r = a % b; return (r < 0) ? r + b : r; }
static inline uint32_t exo_relu(uint32_t x) { return ((int32_t)x > 0) ? x : 0; }
static inline uint32_t exo_select(uint32_t x, uint32_t v, uint32_t y, uint32_t z) { return ((int32_t)x < (int32_t)v) ? y : z; }
struct exo_win_1i8 { int8_t *data; int64_t strides[1]; };
int64_t Cfg_width;

void dot8(struct exo_win_1i8 x, struct exo_win_1i8 y, int32_t *out) {
    for (int64_t l = 0LL; l < 8LL; l++) {
        out[0LL] = (int32_t)((uint32_t)out[0LL] + ((uint32_t)x.data[(l * x.strides[0])] * (uint32_t)y.data[(l * y.strides[0])]));
    }
}

void dot(int64_t n, int8_t *x, int8_t *y, int32_t *out) {
    Cfg_width = 8LL;
    for (int64_t i = 0LL; i < exo_div(n, 8LL); i++) {
        dot8((struct exo_win_1i8){ &x[(8LL * i)], { 1LL } }, (struct exo_win_1i8){ &y[(8LL * i)], { 1LL } }, &out[0LL]);
    }
}
