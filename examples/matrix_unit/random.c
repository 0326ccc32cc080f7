/* The plain loops of a product of square matrices, what is below 0 as 0, on random inputs, against the C that is printed. */
#include "../random.h"

void product(int64_t n, int8_t *A, int8_t *B, int32_t *C);

int main(void) {
    int wrong = 0;
    for (int run = 0; run < 60; run++) {
        int64_t n = 4 * between(1, 6);
        int8_t *A = malloc(n * n), *B = malloc(n * n);
        for (int64_t k = 0; k < n * n; k++) {
            A[k] = (int8_t)between(-128, 127);
            B[k] = (int8_t)between(-128, 127);
        }
        int32_t *C = random_cells(n * n);
        product(n, A, B, C);
        for (int64_t i = 0; i < n; i++)
            for (int64_t j = 0; j < n; j++) {
                int32_t wanted = 0;
                for (int64_t k = 0; k < n; k++) wanted = wrap32((int64_t)wanted + A[n * i + k] * B[n * k + j]);
                if (wanted < 0) wanted = 0;
                wrong += C[n * i + j] != wanted;
            }
        free(A);
        free(B);
        free(C);
    }
    return wrong != 0;
}
