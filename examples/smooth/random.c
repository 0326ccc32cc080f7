/* The plain loops of smooth on random inputs, with the field that it reads set and not set, against the C that is printed. */
#include "../random.h"

extern int64_t Cfg_limit;
extern int64_t Cfg_clip;

void smooth(int64_t n, int8_t *x, int8_t *y, int32_t *total);

int main(void) {
    int wrong = 0;
    for (int run = 0; run < 200; run++) {
        int64_t n = between(1, 40);
        int8_t *x = malloc((size_t)n), *y = malloc((size_t)n);
        int32_t total = -1, sum = 0;
        for (int64_t i = 0; i < n; i++) x[i] = wrap8(between(-128, 127));
        Cfg_clip = run % 2;
        Cfg_limit = -1;
        smooth(n, x, y, &total);
        for (int64_t i = 0; i < n; i++) {
            int32_t held = 3 * x[i] - 5 > 0 ? 3 * x[i] - 5 : 0;
            int32_t kept = run % 2 == 1 && !(held < 100) ? 100 : held;
            wrong += y[i] != wrap8(kept);
            if (i < n / 2) sum += held;
        }
        wrong += total != sum || Cfg_limit != n / 2;
        free(x);
        free(y);
    }
    return wrong != 0;
}
