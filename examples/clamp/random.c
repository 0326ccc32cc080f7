/* The plain loop of clamp on random inputs, small ones too, against the C that is printed. */
#include "../random.h"

void clamp(int64_t n, int32_t *x, int8_t *y);

int main(void) {
    int wrong = 0;
    for (int run = 0; run < 200; run++) {
        int64_t n = between(1, 40);
        int32_t *x = random_cells(n);
        int8_t *y = malloc((size_t)n);
        for (int64_t i = 0; i < n; i += 2) x[i] = (int32_t)between(-200, 200);
        clamp(n, x, y);
        for (int64_t i = 0; i < n; i++) wrong += y[i] != (x[i] < 0 ? 0 : x[i] > 127 ? 127 : x[i]);
        free(x);
        free(y);
    }
    return wrong != 0;
}
