/* The plain loop of shift on random inputs, against the C that is printed. */
#include "../random.h"

void shift(int64_t n, int32_t *x, int32_t *y);

int main(void) {
    int wrong = 0;
    for (int run = 0; run < 200; run++) {
        int64_t n = between(1, 40);
        int32_t *x = random_cells(n), *y = random_cells(n);
        shift(n, x, y);
        for (int64_t i = 0; i < n; i++) wrong += y[i] != (i < n - 1 ? x[i + 1] : 0);
        free(x);
        free(y);
    }
    return wrong != 0;
}
