/* The plain loops of dot on random inputs, against the C that is printed. */
#include "../random.h"

void dot(int64_t n, int8_t *x, int8_t *y, int32_t *out);

int main(void) {
    int wrong = 0;
    for (int run = 0; run < 200; run++) {
        int64_t n = 8 * between(1, 9);
        int8_t *x = malloc(n), *y = malloc(n);
        for (int64_t i = 0; i < n; i++) {
            x[i] = (int8_t)between(-128, 127);
            y[i] = (int8_t)between(-128, 127);
        }
        int32_t before = (int32_t)between(-1000, 1000), out = before, wanted = before;
        dot(n, x, y, &out);
        for (int64_t i = 0; i < n; i++) wanted += x[i] * y[i];
        wrong += out != wanted;
        free(x);
        free(y);
    }
    return wrong != 0;
}
