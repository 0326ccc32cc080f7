/* Runs gemm on a product that was worked out by hand. Status 0 where all cells are right. */
#include <stdint.h>

void gemm(int64_t M, int64_t N, int64_t K, int32_t *A, int32_t *B, int32_t *C);

int main(void) {
    int32_t a[6] = { 1, 2, 3, 4, 5, 6 };
    int32_t b[6] = { 7, 8, 9, 10, 11, 2147483647 };
    int32_t c[4] = { -1, -1, -1, -1 };
    const int32_t wanted[4] = { 58, -2147483623, 139, 76 };
    gemm(2, 2, 3, a, b, c);
    int wrong = 0;
    for (int k = 0; k < 4; k++) wrong += c[k] != wanted[k];
    return wrong;
}
