/* The plain assignment of add3 on random inputs, against the C that is printed. */
#include "../random.h"

void add3(int32_t *x, int32_t *y);

int main(void) {
    int wrong = 0;
    for (int run = 0; run < 200; run++) {
        int32_t *x = random_cells(4), *y = random_cells(4), before[4];
        for (int k = 0; k < 4; k++) before[k] = x[k];
        add3(x, y);
        wrong += x[0] != wrap32((int64_t)y[1] + 3);
        for (int k = 1; k < 4; k++) wrong += x[k] != before[k];
        free(x);
        free(y);
    }
    return wrong != 0;
}
