/* Each cell with its two neighbours; the ends stay. */
#define KERNEL "blur"
enum { N = 65536 };
#define BUFFERS 4 * N, 4 * N
#define WORK (8.0 * N)
#define UNIT "GB/s"
#ifdef HALIDE
#define PEER "Halide, best of three"
#endif
#include "gallery.h"

void blur(int64_t n, int32_t *x, int32_t *y);
static void exoc(void **b) { blur(N, b[0], b[1]); }

APART static void loops(int64_t n, int32_t *restrict x, int32_t *restrict y) {
    for (int64_t i = 0; i < n; i++)
        y[i] = 0 < i && i < n - 1 ? (int32_t)((uint32_t)x[i - 1] + 2u * (uint32_t)x[i] + (uint32_t)x[i + 1]) : x[i];
}
static void plain(void **b) { loops(N, b[0], b[1]); }

#ifdef HALIDE
#include "halide.h"

typedef int schedule(struct halide_buffer_t *, struct halide_buffer_t *);
schedule blur0, blur1, blur2;

static void scheduled(int number, void **b) {
    halide_dimension_t dims[2][2];
    struct halide_buffer_t x = cells(dims[0], b[0], N, 1), y = cells(dims[1], b[1], N, 1);
    ((schedule *[]){blur0, blur1, blur2})[number](&x, &y);
}
static void peer(void **b) { fastest(scheduled, b); }
#endif
