/* An image of 256 by 256 cells under a kernel of 5 by 5. */
#define KERNEL "conv2d"
enum { H = 256, W = 256, K = 5, L = 5, ROWS = H - K + 1, COLUMNS = W - L + 1 };
#define BUFFERS 4 * H * W, 4 * K * L, 4 * ROWS * COLUMNS
#define WORK (2.0 * K * L * ROWS * COLUMNS)
#define UNIT "GOp/s"
#ifdef HALIDE
#define PEER "Halide, best of three"
#endif
#include "gallery.h"

void conv2d(int64_t H, int64_t W, int64_t K, int64_t L, int32_t *image, int32_t *kernel, int32_t *out);
static void exoc(void **b) { conv2d(H, W, K, L, b[0], b[1], b[2]); }

APART static void loops(int64_t h, int64_t w, int64_t k, int64_t l, int32_t *restrict image, int32_t *restrict kernel,
                        int32_t *restrict out) {
    int64_t rows = h - k + 1, columns = w - l + 1;
    for (int64_t y = 0; y < rows; y++)
        for (int64_t x = 0; x < columns; x++) {
            uint32_t sum = 0;
            for (int64_t u = 0; u < k; u++)
                for (int64_t v = 0; v < l; v++) sum += (uint32_t)image[(y + u) * w + x + v] * (uint32_t)kernel[u * l + v];
            out[y * columns + x] = (int32_t)sum;
        }
}
static void plain(void **b) { loops(H, W, K, L, b[0], b[1], b[2]); }

#ifdef HALIDE
#include "halide.h"

typedef int schedule(struct halide_buffer_t *, struct halide_buffer_t *, struct halide_buffer_t *);
schedule conv2d0, conv2d1, conv2d2;

static void scheduled(int number, void **b) {
    halide_dimension_t dims[3][2];
    struct halide_buffer_t image = cells(dims[0], b[0], W, H), kernel = cells(dims[1], b[1], L, K);
    struct halide_buffer_t out = cells(dims[2], b[2], COLUMNS, ROWS);
    ((schedule *[]){conv2d0, conv2d1, conv2d2})[number](&image, &kernel, &out);
}
static void peer(void **b) { fastest(scheduled, b); }
#endif
