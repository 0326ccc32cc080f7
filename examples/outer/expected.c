/* exoc
 * outer: from outer; differs: nothing
 */
#include <stdint.h>
#include <stdlib.h>

static inline int64_t exo_div(int64_t a, int64_t b) { int64_t q = a / b; return (a % b < 0) ? q - 1 : q; }
static inline int64_t exo_mod(int64_t a, int64_t b) { int64_t r = a % b; return (r < 0) ? r + b : r; }
static inline uint32_t exo_relu(uint32_t x) { return ((int32_t)x > 0) ? x : 0; }
static inline uint32_t exo_select(uint32_t x, uint32_t v, uint32_t y, uint32_t z) { return ((int32_t)x < (int32_t)v) ? y : z; }

void outer(int64_t M, int64_t N, int32_t *a, int32_t *b, int32_t *C) {
    if ((4LL <= N)) {
        for (int64_t io = 0LL; io < exo_div((M + 1LL), 2LL); io++) {
            for (int64_t ii = 0LL; ii < 2LL; ii++) {
                if ((((2LL * io) + ii) < M)) {
                    for (int64_t jo = 0LL; jo < exo_div(N, 4LL); jo++) {
                        C[((((2LL * io) + ii) * N) + ((4LL * jo) + 0LL))] = (int32_t)((uint32_t)C[((((2LL * io) + ii) * N) + ((4LL * jo) + 0LL))] + ((uint32_t)a[((2LL * io) + ii)] * (uint32_t)b[((4LL * jo) + 0LL)]));
                        C[((((2LL * io) + ii) * N) + ((4LL * jo) + 1LL))] = (int32_t)((uint32_t)C[((((2LL * io) + ii) * N) + ((4LL * jo) + 1LL))] + ((uint32_t)a[((2LL * io) + ii)] * (uint32_t)b[((4LL * jo) + 1LL)]));
                        C[((((2LL * io) + ii) * N) + ((4LL * jo) + 2LL))] = (int32_t)((uint32_t)C[((((2LL * io) + ii) * N) + ((4LL * jo) + 2LL))] + ((uint32_t)a[((2LL * io) + ii)] * (uint32_t)b[((4LL * jo) + 2LL)]));
                        C[((((2LL * io) + ii) * N) + ((4LL * jo) + 3LL))] = (int32_t)((uint32_t)C[((((2LL * io) + ii) * N) + ((4LL * jo) + 3LL))] + ((uint32_t)a[((2LL * io) + ii)] * (uint32_t)b[((4LL * jo) + 3LL)]));
                    }
                    for (int64_t ji = 0LL; ji < exo_mod(N, 4LL); ji++) {
                        C[((((2LL * io) + ii) * N) + ((4LL * exo_div(N, 4LL)) + ji))] = (int32_t)((uint32_t)C[((((2LL * io) + ii) * N) + ((4LL * exo_div(N, 4LL)) + ji))] + ((uint32_t)a[((2LL * io) + ii)] * (uint32_t)b[((4LL * exo_div(N, 4LL)) + ji)]));
                    }
                }
            }
        }
    } else {
        for (int64_t io = 0LL; io < exo_div((M + 1LL), 2LL); io++) {
            for (int64_t ii = 0LL; ii < 2LL; ii++) {
                if ((((2LL * io) + ii) < M)) {
                    for (int64_t jo = 0LL; jo < exo_div(N, 4LL); jo++) {
                        C[((((2LL * io) + ii) * N) + ((4LL * jo) + 0LL))] = (int32_t)((uint32_t)C[((((2LL * io) + ii) * N) + ((4LL * jo) + 0LL))] + ((uint32_t)a[((2LL * io) + ii)] * (uint32_t)b[((4LL * jo) + 0LL)]));
                        C[((((2LL * io) + ii) * N) + ((4LL * jo) + 1LL))] = (int32_t)((uint32_t)C[((((2LL * io) + ii) * N) + ((4LL * jo) + 1LL))] + ((uint32_t)a[((2LL * io) + ii)] * (uint32_t)b[((4LL * jo) + 1LL)]));
                        C[((((2LL * io) + ii) * N) + ((4LL * jo) + 2LL))] = (int32_t)((uint32_t)C[((((2LL * io) + ii) * N) + ((4LL * jo) + 2LL))] + ((uint32_t)a[((2LL * io) + ii)] * (uint32_t)b[((4LL * jo) + 2LL)]));
                        C[((((2LL * io) + ii) * N) + ((4LL * jo) + 3LL))] = (int32_t)((uint32_t)C[((((2LL * io) + ii) * N) + ((4LL * jo) + 3LL))] + ((uint32_t)a[((2LL * io) + ii)] * (uint32_t)b[((4LL * jo) + 3LL)]));
                    }
                    for (int64_t ji = 0LL; ji < exo_mod(N, 4LL); ji++) {
                        C[((((2LL * io) + ii) * N) + ((4LL * exo_div(N, 4LL)) + ji))] = (int32_t)((uint32_t)C[((((2LL * io) + ii) * N) + ((4LL * exo_div(N, 4LL)) + ji))] + ((uint32_t)a[((2LL * io) + ii)] * (uint32_t)b[((4LL * exo_div(N, 4LL)) + ji)]));
                    }
                }
            }
        }
    }
}
