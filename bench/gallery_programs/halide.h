/* Calls of pipelines that Halide compiled beforehand, three schedules of each. */
#include <HalideRuntime.h>

/* A matrix of cells of 32 bits in rows, or a row of them where there is one. */
static struct halide_buffer_t cells(halide_dimension_t *dims, void *data, int32_t columns, int32_t rows) {
    dims[0] = (halide_dimension_t){0, columns, 1, 0};
    dims[1] = (halide_dimension_t){0, rows, columns, 0};
    return (struct halide_buffer_t){
        .host = data, .type = {halide_type_uint, 32, 1}, .dimensions = rows == 1 ? 1 : 2, .dim = dims};
}

/* Calls the schedule that took least at the first calls. */
static void fastest(void (*run)(int, void **), void **b) {
    static int best = -1;
    if (best < 0) {
        double least = 1e30;
        for (int k = 0; k < 3; k++)
            for (int turn = 0; turn < 9; turn++) {
                double t = now();
                run(k, b);
                t = now() - t;
                if (turn && t < least) least = t, best = k;
            }
    }
    run(best, b);
}
