/* Times the C of an example and its plain loops on the same buffers. A file that includes it defines, before that,
 *   KERNEL      its name,
 *   BUFFERS     the bytes of each buffer, and
 *   WORK, UNIT  what one call does: operations and "GOp/s", or bytes and "GB/s",
 * and behind it, exoc(b) and plain(b): one call of each on the buffers b; where PEER is given, a name, peer(b) too.
 * Prints a line a program: its name, the figure by the least processor time of many calls, and WRONG where its buffers end otherwise than
 * those of the plain loops. */
#define _POSIX_C_SOURCE 199309L
#include <stdint.h>
#include <stdio.h>
#include <stdlib.h>
#include <string.h>
#include <time.h>

/* A function whose arguments gcc does not know beforehand. */
#define APART __attribute__((noipa))

typedef void program(void **b);
static void exoc(void **b);
static void plain(void **b);
#ifdef PEER
static void peer(void **b);
#endif

static const size_t bytes[] = {BUFFERS};
enum { COUNT = sizeof bytes / sizeof bytes[0] };

/* Seconds of this thread on a processor. */
static double now(void) {
    struct timespec t;
    clock_gettime(CLOCK_THREAD_CPUTIME_ID, &t);
    return (double)t.tv_sec + 1e-9 * (double)t.tv_nsec;
}

static void fill(void **b) {
    uint64_t seed = 88172645463325252ULL;
    for (int k = 0; k < COUNT; k++)
        for (size_t i = 0; i < bytes[k]; i++) {
            seed ^= seed << 13;
            seed ^= seed >> 7;
            seed ^= seed << 17;
            ((uint8_t *)b[k])[i] = (uint8_t)seed;
        }
}

/* The time of one call: the least of at least nine batches of some half millisecond, for a second at most. */
static double least(program *run, void **b) {
    fill(b);
    run(b);
    double start = now(), best = 1e30, one;
    run(b);
    one = now() - start;
    int calls = one < 5e-4 ? (int)(5e-4 / (one + 1e-9)) + 1 : 1;
    for (int k = 0; k < 9 || (k < 400 && now() - start < 1.0); k++) {
        double t = now();
        for (int c = 0; c < calls; c++) run(b);
        t = (now() - t) / calls;
        if (t < best) best = t;
    }
    return best;
}

static void told(const char *name, program *run, void **b, void **wanted) {
    int wrong = 0;
    fill(b);
    run(b);
    for (int k = 0; k < COUNT; k++) wrong |= memcmp(b[k], wanted[k], bytes[k]) != 0;
    printf("%s\t%s\t%.2f\t%s%s\n", KERNEL, name, 1e-9 * (WORK) / least(run, b), UNIT, wrong ? "\tWRONG" : "");
}

int main(void) {
    void *b[COUNT], *wanted[COUNT];
    for (int k = 0; k < COUNT; k++) {
        b[k] = aligned_alloc(64, (bytes[k] + 63) / 64 * 64);
        wanted[k] = malloc(bytes[k]);
    }
    fill(wanted);
    plain(wanted);
    told("plain loops, gcc -O3", plain, b, wanted);
    told("exoc", exoc, b, wanted);
#ifdef PEER
    told(PEER, peer, b, wanted);
#endif
    return 0;
}
