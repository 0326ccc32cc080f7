/* The plain loops of filter on random inputs, against the C that is printed. */
#include "../random.h"

void filter(int64_t n, int32_t *w, int32_t *x, int32_t *y);

int main(void) {
    int wrong = 0;
    for (int run = 0; run < 300; run++) {
        int64_t n = between(3, 40);
        int32_t *w = random_cells(4), *x = random_cells(n), *y = random_cells(n);
        filter(n, w, x, y);
        for (int64_t i = 0; i < n; i++) {
            uint32_t sum = 0;
            for (int64_t k = 0; k < 4 && i + k < n; k++) sum += (uint32_t)w[k] * (uint32_t)x[i + k];
            wrong += (uint32_t)y[i] != sum;
        }
        free(w);
        free(x);
        free(y);
    }
    return wrong != 0;
}
