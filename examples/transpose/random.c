/* The plain loops of transpose on random inputs, against the C that is printed. */
#include "../random.h"

void transpose(int64_t M, int64_t N, int32_t *A, int32_t *B);

int main(void) {
    int wrong = 0;
    for (int run = 0; run < 200; run++) {
        int64_t M = between(1, 9), N = between(1, 9);
        int32_t *A = random_cells(M * N), *B = random_cells(M * N);
        transpose(M, N, A, B);
        for (int64_t i = 0; i < M; i++)
            for (int64_t j = 0; j < N; j++) wrong += B[j * M + i] != A[i * N + j];
        free(A);
        free(B);
    }
    return wrong != 0;
}
