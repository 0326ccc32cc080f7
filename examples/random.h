/* Random inputs for the drivers of examples, the same in each run, and the wrapping of cells. */
#include <stdint.h>
#include <stdio.h>
#include <stdlib.h>

static uint64_t seed = 88172645463325252ULL;

/* xorshift64 (Marsaglia 2003) */
static inline uint64_t next_random(void) {
    seed ^= seed << 13;
    seed ^= seed >> 7;
    seed ^= seed << 17;
    return seed;
}

static inline int64_t between(int64_t low, int64_t high) { return low + (int64_t)(next_random() % (uint64_t)(high - low + 1)); }

/* What a cell of 32 or of 8 bits keeps of a number. */
static inline int32_t wrap32(int64_t n) { return (int32_t)(uint32_t)(uint64_t)n; }
static inline int8_t wrap8(int64_t n) { return (int8_t)(uint8_t)(uint64_t)n; }

static inline int32_t *random_cells(int64_t count) {
    int32_t *cells = malloc((size_t)count * sizeof(int32_t));
    for (int64_t k = 0; k < count; k++) cells[k] = wrap32((int64_t)next_random());
    return cells;
}
