/* A row of cells turned round, by a copy. */
#define KERNEL "reverse"
enum { N = 65536 };
#define BUFFERS 4 * N
#define WORK (8.0 * N)
#define UNIT "GB/s"
#include "gallery.h"

void reverse(int64_t n, int32_t *x);
static void exoc(void **b) { reverse(N, b[0]); }

APART static void loops(int64_t n, int32_t *restrict x) {
    int32_t *restrict t = malloc((size_t)n * sizeof(int32_t));
    for (int64_t i = 0; i < n; i++) t[i] = x[i];
    for (int64_t i = 0; i < n; i++) x[i] = t[n - 1 - i];
    free(t);
}
static void plain(void **b) { loops(N, b[0]); }
