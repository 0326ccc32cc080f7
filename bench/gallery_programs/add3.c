/* One sum: what a call costs. */
#define KERNEL "add3"
#define BUFFERS 16, 16
#define WORK 8.0
#define UNIT "GB/s"
#include "gallery.h"

void add3(int32_t *x, int32_t *y);
static void exoc(void **b) { add3(b[0], b[1]); }

APART static void loops(int32_t *restrict x, int32_t *restrict y) { x[0] = (int32_t)((uint32_t)y[1] + 3u); }
static void plain(void **b) { loops(b[0], b[1]); }
