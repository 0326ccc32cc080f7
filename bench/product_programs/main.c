/* Times each program of rows.h on square matrices, and compares what it leaves with what the first one leaves. */
#define _POSIX_C_SOURCE 199309L
#include <stdint.h>
#include <stdio.h>
#include <stdlib.h>
#include <string.h>
#include <time.h>

typedef void kernel(int64_t, int64_t, int64_t, int32_t *, int32_t *, int32_t *);
#define ROW(name, f) kernel f;
#include "rows.h"
#undef ROW
static const struct { const char *name; kernel *run; } programs[] = {
#define ROW(name, f) {name, f},
#include "rows.h"
};
#define COUNT (sizeof programs / sizeof programs[0])

/* Seconds of this thread on a processor. */
static double now(void) {
    struct timespec t;
    clock_gettime(CLOCK_THREAD_CPUTIME_ID, &t);
    return (double)t.tv_sec + 1e-9 * (double)t.tv_nsec;
}

/* The least time of two to fifteen runs, each on the same matrices, of some four seconds in all. */
static double least(kernel *run, int64_t n, int32_t *a, int32_t *b, int32_t *c) {
    double best = 1e30, start = now();
    for (int k = 0; k < 2 || (k < 15 && now() - start < 4.0); k++) {
        memset(c, 0, (size_t)(n * n) * sizeof(int32_t));
        double t = now();
        run(n, n, n, a, b, c);
        t = now() - t;
        if (t < best) best = t;
    }
    return best;
}

int main(int count, char **words) {
    int64_t sizes[64] = {768, 1536};
    int number = 2;
    if (count > 1) {
        number = 0;
        for (int k = 1; k < count && number < 64; k++) sizes[number++] = atoll(words[k]);
    }
    for (int s = 0; s < number; s++) {
        int64_t n = sizes[s];
        size_t bytes = (size_t)(n * n) * sizeof(int32_t);
        int32_t *a = malloc(bytes), *b = malloc(bytes), *c = malloc(bytes), *wanted = malloc(bytes);
        for (int64_t k = 0; k < n * n; k++) {
            a[k] = (int32_t)(k * 7 % 1000 - 500);
            b[k] = (int32_t)(k * 13 % 900 - 450);
        }
        for (size_t p = 0; p < COUNT; p++) {
            double t = least(programs[p].run, n, a, b, p ? c : wanted);
            int wrong = p && memcmp(c, wanted, bytes) != 0;
            printf("%ld by %ld by %ld\t%s\t%.2f\tGOp/s%s\n", (long)n, (long)n, (long)n, programs[p].name,
                   2e-9 * (double)n * (double)n * (double)n / t, wrong ? "\tWRONG" : "");
        }
        free(a);
        free(b);
        free(c);
        free(wanted);
    }
    return 0;
}
