/* Four weights over a row of cells; past its end nothing is added. */
#define KERNEL "filter"
enum { N = 65536 };
#define BUFFERS 4 * 4, 4 * N, 4 * N
#define WORK (8.0 * N)
#define UNIT "GOp/s"
#ifdef HALIDE
#define PEER "Halide, best of three"
#endif
#include "gallery.h"

void filter(int64_t n, int32_t *w, int32_t *x, int32_t *y);
static void exoc(void **b) { filter(N, b[0], b[1], b[2]); }

APART static void loops(int64_t n, int32_t *restrict w, int32_t *restrict x, int32_t *restrict y) {
    for (int64_t i = 0; i < n; i++) {
        uint32_t sum = 0;
        for (int64_t k = 0; k < 4; k++)
            if (i + k < n) sum += (uint32_t)w[k] * (uint32_t)x[i + k];
        y[i] = (int32_t)sum;
    }
}
static void plain(void **b) { loops(N, b[0], b[1], b[2]); }

#ifdef HALIDE
#include "halide.h"

typedef int schedule(struct halide_buffer_t *, struct halide_buffer_t *, struct halide_buffer_t *);
schedule filter0, filter1, filter2;

static void scheduled(int number, void **b) {
    halide_dimension_t dims[3][2];
    struct halide_buffer_t w = cells(dims[0], b[0], 4, 1), x = cells(dims[1], b[1], N, 1);
    struct halide_buffer_t y = cells(dims[2], b[2], N, 1);
    ((schedule *[]){filter0, filter1, filter2})[number](&w, &x, &y);
}
static void peer(void **b) { fastest(scheduled, b); }
#endif
