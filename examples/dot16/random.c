/* The plain loop of a dot product on random inputs, against the C that is printed. */
#include "../random.h"

void dot(int64_t n, int8_t *x, int8_t *y, int32_t *out);

int main(void) {
    int wrong = 0;
    for (int run = 0; run < 200; run++) {
        int64_t n = between(1, 200);
        int8_t *x = malloc(n), *y = malloc(n);
        /* The ends of the range come often: there a product by 8-bit instructions that saturate would differ. */
        for (int64_t i = 0; i < n; i++) {
            x[i] = (int8_t)(between(0, 3) == 0 ? -128 : between(-128, 127));
            y[i] = (int8_t)(between(0, 3) == 0 ? -128 : between(-128, 127));
        }
        int32_t out = wrap32((int64_t)next_random()), wanted = out;
        for (int64_t i = 0; i < n; i++) wanted = wrap32((int64_t)wanted + x[i] * y[i]);
        dot(n, x, y, &out);
        wrong += out != wanted;
        free(x);
        free(y);
    }
    return wrong != 0;
}
