/* The plain loop of dot on random inputs, against the C that is printed. */
#include "../random.h"

void dot(int64_t n, uint8_t *x, int8_t *w, int32_t *out);

/* The nearest number that 16 bits hold. */
static int32_t saturated(int32_t s) { return s > 32767 ? 32767 : s < -32768 ? -32768 : s; }

int main(void) {
    int wrong = 0;
    for (int run = 0; run < 300; run++) {
        int64_t n = 32 * between(1, 8);
        /* The ends of both ranges come often: there a sum of two products passes 16 bits. */
        int often = (int)between(0, 1);
        uint8_t *x = malloc(n);
        int8_t *w = malloc(n);
        for (int64_t i = 0; i < n; i++) {
            x[i] = (uint8_t)(often && between(0, 1) ? 255 : between(0, 255));
            w[i] = (int8_t)(often && between(0, 1) ? (between(0, 1) ? 127 : -128) : between(-128, 127));
        }
        int32_t out = wrap32((int64_t)next_random()), wanted = 0;
        dot(n, x, w, &out);
        for (int64_t i = 0; i < n; i += 2) wanted += saturated(x[i] * w[i] + x[i + 1] * w[i + 1]);
        wrong += out != wanted;
        free(x);
        free(w);
    }
    return wrong != 0;
}
