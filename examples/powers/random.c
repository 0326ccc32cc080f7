/* The plain loop of powers on random inputs, against the C that is printed. */
#include "../random.h"

void powers(int64_t n, int32_t *x, int32_t *y);

int main(void) {
    int wrong = 0;
    for (int run = 0; run < 300; run++) {
        int64_t n = between(1, 40);
        int32_t *x = random_cells(n), *y = random_cells(n);
        powers(n, x, y);
        for (int64_t i = 0; i < n; i++) {
            int32_t square = wrap32((int64_t)x[i] * x[i]);
            wrong += y[i] != wrap32((int64_t)wrap32((int64_t)square * square) + x[i]);
        }
        free(x);
        free(y);
    }
    return wrong != 0;
}
