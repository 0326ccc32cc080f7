/* The plain loops of fold on random inputs, against the C that is printed. */
#include <string.h>

#include "../random.h"

void fold(int64_t m, int64_t n, int32_t *x);

int main(void) {
    int wrong = 0;
    for (int run = 0; run < 300; run++) {
        int64_t m = between(1, 11), n = between(1, 9), all = m * 2 * n;
        int32_t *x = random_cells(all), *wanted = malloc(all * sizeof(int32_t));
        memcpy(wanted, x, all * sizeof(int32_t));
        for (int64_t i = 0; i < m; i++) {
            for (int64_t l = 0; l < n; l++) {
                wanted[i * 2 * n + l] = wrap32((int64_t)x[i * 2 * n + l] + x[i * 2 * n + n + l]);
            }
        }
        fold(m, n, x);
        wrong += memcmp(x, wanted, all * sizeof(int32_t)) != 0;
        free(x);
        free(wanted);
    }
    return wrong != 0;
}
