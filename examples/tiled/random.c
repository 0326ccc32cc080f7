/* The plain loop of tiled on random inputs, against the C that is printed; cells that no turn writes stay as they were. */
#include "../random.h"

void tiled(int64_t n, int32_t *x, int32_t *y);

int main(void) {
    int wrong = 0;
    for (int run = 0; run < 200; run++) {
        int64_t n = between(1, 40), cells = (n / 8 + 1) * 8;
        int32_t *x = random_cells(n), *y = random_cells(cells), *before = malloc((size_t)cells * sizeof(int32_t));
        for (int64_t i = 0; i < cells; i++) before[i] = y[i];
        tiled(n, x, y);
        for (int64_t i = 0; i < cells; i++) wrong += y[i] != (i < n ? x[i] : before[i]);
        free(x);
        free(y);
        free(before);
    }
    return wrong != 0;
}
