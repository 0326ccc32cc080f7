/* The machine in C: its registers are the fields of the kernel's configuration, and a function stands for each instruction. */
#include <stdint.h>

extern int64_t Unit_row;
extern int64_t Unit_clip;

static inline void unit_clip(int64_t on) { Unit_clip = on; }

static inline void unit_clear(int32_t *sum) {
    for (int k = 0; k < 16; k++) sum[k] = 0;
}

static inline void unit_load(int8_t *dst, const int8_t *src) {
    for (int r = 0; r < 4; r++)
        for (int c = 0; c < 4; c++) dst[4 * r + c] = src[Unit_row * r + c];
}

static inline void unit_multiply(int32_t *sum, const int8_t *a, const int8_t *b) {
    for (int r = 0; r < 4; r++)
        for (int c = 0; c < 4; c++)
            for (int t = 0; t < 4; t++)
                sum[4 * r + c] = (int32_t)((uint32_t)sum[4 * r + c] + (uint32_t)(a[4 * r + t] * b[4 * t + c]));
}

static inline void unit_store(int32_t *dst, int64_t n, const int32_t *sum) {
    for (int r = 0; r < 4; r++)
        for (int c = 0; c < 4; c++) {
            int32_t cell = sum[4 * r + c];
            dst[n * r + c] = Unit_clip && cell < 0 ? 0 : cell;
        }
}
