/* The plain loop of scale on random inputs, against the C that is printed. */
#include "../random.h"

void scale(int64_t n, int32_t *x);

int main(void) {
    int wrong = 0;
    for (int run = 0; run < 200; run++) {
        int64_t n = between(1, 40);
        int32_t *x = random_cells(n), *before = malloc((size_t)n * sizeof(int32_t));
        for (int64_t i = 0; i < n; i++) before[i] = x[i];
        scale(n, x);
        for (int64_t i = 0; i < n; i++) wrong += x[i] != wrap32(3 * (int64_t)before[i]);
        free(x);
        free(before);
    }
    return wrong != 0;
}
