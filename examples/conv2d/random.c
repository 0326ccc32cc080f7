/* The plain loops of conv2d on random inputs, against the C that is printed. */
#include "../random.h"

void conv2d(int64_t H, int64_t W, int64_t K, int64_t L, int32_t *image, int32_t *kernel, int32_t *out);

int main(void) {
    int wrong = 0;
    for (int run = 0; run < 100; run++) {
        int64_t K = between(1, 4), L = between(1, 4), H = K + between(0, 5), W = L + between(0, 5);
        int64_t rows = H - K + 1, columns = W - L + 1;
        int32_t *image = random_cells(H * W), *kernel = random_cells(K * L), *out = random_cells(rows * columns);
        conv2d(H, W, K, L, image, kernel, out);
        for (int64_t y = 0; y < rows; y++)
            for (int64_t x = 0; x < columns; x++) {
                int32_t sum = 0;
                for (int64_t u = 0; u < K; u++)
                    for (int64_t v = 0; v < L; v++) {
                        uint32_t product = (uint32_t)image[(y + u) * W + x + v] * (uint32_t)kernel[u * L + v];
                        sum = (int32_t)((uint32_t)sum + product);
                    }
                wrong += out[y * columns + x] != sum;
            }
        free(image);
        free(kernel);
        free(out);
    }
    return wrong != 0;
}
