/* The plain loop of blur on random inputs, against the C that is printed. */
#include "../random.h"

void blur(int64_t n, int32_t *x, int32_t *y);

int main(void) {
    int wrong = 0;
    for (int run = 0; run < 200; run++) {
        int64_t n = between(1, 40);
        int32_t *x = random_cells(n), *y = random_cells(n);
        blur(n, x, y);
        for (int64_t i = 0; i < n; i++) {
            int inner = 0 < i && i < n - 1;
            int32_t want = inner ? wrap32((int64_t)x[i - 1] + 2 * (int64_t)x[i] + (int64_t)x[i + 1]) : x[i];
            wrong += y[i] != want;
        }
        free(x);
        free(y);
    }
    return wrong != 0;
}
