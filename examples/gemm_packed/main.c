/* Runs gemm on a product that is known: a matrix that takes each row to the one before it. Status 0 where all cells are right. */
#include <stdint.h>

void gemm(int64_t M, int64_t N, int64_t K, int32_t *A, int32_t *B, int32_t *C);

enum { SIDE = 64 };

int main(void) {
    static int32_t a[SIDE * SIDE], b[SIDE * SIDE], c[SIDE * SIDE];
    int wrong = 0;
    for (int i = 0; i < SIDE; i++)
        for (int j = 0; j < SIDE; j++) {
            a[i * SIDE + j] = j == (i + 1) % SIDE;
            b[i * SIDE + j] = SIDE * i + j;
            c[i * SIDE + j] = -j;
        }
    gemm(SIDE, SIDE, SIDE, a, b, c);
    for (int i = 0; i < SIDE; i++)
        for (int j = 0; j < SIDE; j++) wrong += c[i * SIDE + j] != SIDE * ((i + 1) % SIDE);
    return wrong != 0;
}
