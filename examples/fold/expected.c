/* exoc
 * add: from add; differs: nothing
 * fold: from fold; differs: nothing
 */
#include <stdint.h>
#include <stdlib.h>

static inline int64_t exo_div(int64_t a, int64_t b) { int64_t q = a / b; return (a % b < 0) ? q - 1 : q; }
static inline int64_t exo_mod(int64_t a, int64_t b) { int64_t r = a % b; return (r < 0) ? r + b : r; }
static inline uint32_t exo_relu(uint32_t x) { return ((int32_t)x > 0) ? x : 0; }
static inline uint32_t exo_select(uint32_t x, uint32_t v, uint32_t y, uint32_t z) { return ((int32_t)x < (int32_t)v) ? y : z; }
struct exo_win_1i32 { int32_t *data; int64_t strides[1]; };

void add(int64_t n, struct exo_win_1i32 a, struct exo_win_1i32 b) {
    for (int64_t l = 0LL; l < n; l++) {
        a.data[(l * a.strides[0])] = (int32_t)((uint32_t)a.data[(l * a.strides[0])] + (uint32_t)b.data[(l * b.strides[0])]);
    }
}

void fold(int64_t m, int64_t n, int32_t *x) {
    for (int64_t io = 0LL; io < exo_div(m, 4LL); io++) {
        add(n, (struct exo_win_1i32){ &x[((((4LL * io) + 0LL) * (2LL * n)) + 0LL)], { 1LL } }, (struct exo_win_1i32){ &x[((((4LL * io) + 0LL) * (2LL * n)) + n)], { 1LL } });
        add(n, (struct exo_win_1i32){ &x[((((4LL * io) + 1LL) * (2LL * n)) + 0LL)], { 1LL } }, (struct exo_win_1i32){ &x[((((4LL * io) + 1LL) * (2LL * n)) + n)], { 1LL } });
        add(n, (struct exo_win_1i32){ &x[((((4LL * io) + 2LL) * (2LL * n)) + 0LL)], { 1LL } }, (struct exo_win_1i32){ &x[((((4LL * io) + 2LL) * (2LL * n)) + n)], { 1LL } });
        add(n, (struct exo_win_1i32){ &x[((((4LL * io) + 3LL) * (2LL * n)) + 0LL)], { 1LL } }, (struct exo_win_1i32){ &x[((((4LL * io) + 3LL) * (2LL * n)) + n)], { 1LL } });
    }
    for (int64_t ii = 0LL; ii < exo_mod(m, 4LL); ii++) {
        add(n, (struct exo_win_1i32){ &x[((((4LL * exo_div(m, 4LL)) + ii) * (2LL * n)) + 0LL)], { 1LL } }, (struct exo_win_1i32){ &x[((((4LL * exo_div(m, 4LL)) + ii) * (2LL * n)) + n)], { 1LL } });
    }
}
