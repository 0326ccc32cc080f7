/* The plain loops of outer on random inputs, against the C that is printed. */
#include "../random.h"

void outer(int64_t M, int64_t N, int32_t *a, int32_t *b, int32_t *C);

int main(void) {
    int wrong = 0;
    for (int run = 0; run < 300; run++) {
        int64_t m = between(1, 7), n = between(1, 14);
        int32_t *a = random_cells(m), *b = random_cells(n), *c = random_cells(m * n), *wanted = random_cells(m * n);
        for (int64_t i = 0; i < m; i++)
            for (int64_t j = 0; j < n; j++) wanted[i * n + j] = wrap32(c[i * n + j] + (int64_t)wrap32((int64_t)((uint64_t)a[i] * (uint64_t)b[j])));
        outer(m, n, a, b, c);
        for (int64_t k = 0; k < m * n; k++) wrong += c[k] != wanted[k];
        free(a);
        free(b);
        free(c);
        free(wanted);
    }
    return wrong != 0;
}
