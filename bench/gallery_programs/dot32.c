/* The same of cells without and with a sign, where a sum of two products stops at the ends of 16 bits. */
#define KERNEL "dot32"
enum { N = 65536 };
#define BUFFERS N, N, 4
#define WORK (2.0 * N)
#define UNIT "GOp/s"
#include "gallery.h"

void dot(int64_t n, uint8_t *x, int8_t *w, int32_t *out);
static void exoc(void **b) { dot(N, b[0], b[1], b[2]); }

APART static void loops(int64_t n, uint8_t *restrict x, int8_t *restrict w, int32_t *restrict out) {
    *out = 0;
    for (int64_t i = 0; i < n; i += 2) {
        int32_t s = x[i] * w[i] + x[i + 1] * w[i + 1];
        *out += s > 32767 ? 32767 : s < -32768 ? -32768 : s;
    }
}
static void plain(void **b) { loops(N, b[0], b[1], b[2]); }
