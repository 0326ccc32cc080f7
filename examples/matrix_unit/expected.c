/* exoc
 * product: from product; differs: Unit.clip
 */
#include <stdint.h>
#include <stdlib.h>
#include <unit.h>

static inline int64_t exo_div(int64_t a, int64_t b) { int64_t q = a / b; return (a % b < 0) ? q - 1 : q; }
static inline int64_t exo_mod(int64_t a, int64_t b) { int64_t r = a % b; return (r < 0) ? r + b : r; }
static inline uint32_t exo_relu(uint32_t x) { return ((int32_t)x > 0) ? x : 0; }
static inline uint32_t exo_select(uint32_t x, uint32_t v, uint32_t y, uint32_t z) { return ((int32_t)x < (int32_t)v) ? y : z; }
int64_t Unit_row;
int64_t Unit_clip;

void product(int64_t n, int8_t *A, int8_t *B, int32_t *C) {
    Unit_row = n;
    unit_clip(1);
    for (int64_t i = 0LL; i < exo_div(n, 4LL); i++) {
        for (int64_t j = 0LL; j < exo_div(n, 4LL); j++) {
            int32_t *sum = (int32_t *)malloc((size_t)(4LL * 4LL) * sizeof(int32_t));
            unit_clear(&sum[((0LL * 4LL) + 0LL)]);
            for (int64_t k = 0LL; k < exo_div(n, 4LL); k++) {
                int8_t *a = (int8_t *)malloc((size_t)(4LL * 4LL) * sizeof(int8_t));
                unit_load(&a[((0LL * 4LL) + 0LL)], &A[(((4LL * i) * n) + (4LL * k))]);
                int8_t *b = (int8_t *)malloc((size_t)(4LL * 4LL) * sizeof(int8_t));
                unit_load(&b[((0LL * 4LL) + 0LL)], &B[(((4LL * k) * n) + (4LL * j))]);
                unit_multiply(&sum[((0LL * 4LL) + 0LL)], &a[((0LL * 4LL) + 0LL)], &b[((0LL * 4LL) + 0LL)]);
                free(b);
                free(a);
            }
            unit_store(&C[(((4LL * i) * n) + (4LL * j))], n, &sum[((0LL * 4LL) + 0LL)]);
            free(sum);
        }
    }
    unit_clip(0);
}
