/* Runs blur on a line that was worked out by hand, sums that wrap included. Status 0 where all cells are right. */
#include <stdint.h>

void blur(int64_t n, int32_t *x, int32_t *y);

int main(void) {
    int32_t x[5] = { 1, 2, 3, 2147483647, 5 };
    int32_t y[6] = { 0, 0, 0, 0, 0, 7 };
    const int32_t wanted[6] = { 1, 8, -2147483641, 6, 5, 7 };
    blur(5, x, y);
    int wrong = 0;
    for (int k = 0; k < 6; k++) wrong += y[k] != wanted[k];
    return wrong;
}
