/* Runs smooth with and without its flag on a line that was worked out by hand. Status 0 where all cells and fields are right. */
#include <stdint.h>

extern int64_t Cfg_limit;
extern int64_t Cfg_clip;
void smooth(int64_t n, int8_t *x, int8_t *y, int32_t *total);

static int wrong_with(int64_t clip, const int8_t *wanted) {
    int8_t x[6] = { -128, 1, 2, 40, 50, 127 };
    int8_t y[6] = { 0, 0, 0, 0, 0, 0 };
    int32_t total = -1;
    Cfg_limit = -1;
    Cfg_clip = clip;
    smooth(6, x, y, &total);
    int wrong = total != 1 || Cfg_limit != 3 || Cfg_clip != clip;
    for (int k = 0; k < 6; k++) wrong += y[k] != wanted[k];
    return wrong;
}

int main(void) {
    const int8_t wrapped[6] = { 0, 0, 1, 115, -111, 120 };
    const int8_t clipped[6] = { 0, 0, 1, 100, 100, 100 };
    return wrong_with(0, wrapped) + wrong_with(1, clipped);
}
