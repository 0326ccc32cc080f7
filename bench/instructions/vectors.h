/* Vectors that any processor has, for the unit of this folder. */
#include <stdint.h>
typedef struct { int32_t c[4]; } v4;
typedef struct { _Alignas(32) int32_t c[8]; } v8;
static inline v4 load_v4(const int32_t *from) { return (v4){ { from[0], from[1], from[2], from[3] } }; }
static inline void store_v4(int32_t *to, v4 v) { for (int k = 0; k < 4; k++) to[k] = v.c[k]; }
static inline v4 mac_v4(v4 c, int32_t a, v4 b) {
    for (int k = 0; k < 4; k++) c.c[k] = (int32_t)((uint32_t)c.c[k] + (uint32_t)a * (uint32_t)b.c[k]);
    return c;
}
