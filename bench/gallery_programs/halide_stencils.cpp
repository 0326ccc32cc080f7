// Writes Halide's objects for the kernels that have a peer there, each by three schedules, and its runtime into the folder that is named.
#include <Halide.h>
#include <string>
using namespace Halide;

int main(int, char **words) {
    const std::string into = std::string(words[1]) + "/";
    const Target host = get_host_target(), bare = host.with_feature(Target::NoRuntime);
    const int lanes = host.natural_vector_size<uint32_t>();
    Var i("i"), j("j"), x("x"), y("y");
    for (int k = 0; k < 3; k++) {
        const std::string number = std::to_string(k);
        ImageParam from(UInt(32), 1, "from"), weights(UInt(32), 1, "weights"), image(UInt(32), 2, "image"), kernel(UInt(32), 2, "kernel");
        Expr n = from.dim(0).extent();

        Func blur("blur"), edge = BoundaryConditions::repeat_edge(from);
        blur(i) = select(i > 0 && i < n - 1, edge(i - 1) + 2 * edge(i) + edge(i + 1), edge(i));
        Func filter("filter"), rest = BoundaryConditions::constant_exterior(from, cast<uint32_t>(0));
        Expr sum = weights(0) * rest(i);
        for (int l = 1; l < 4; l++) sum += weights(l) * rest(i + l);
        filter(i) = sum;
        for (Func f : {blur, filter}) f.vectorize(i, lanes << k, TailStrategy::ShiftInwards);
        blur.compile_to_object(into + "blur" + number + ".o", {from}, "blur" + number, bare);
        filter.compile_to_object(into + "filter" + number + ".o", {weights, from}, "filter" + number, bare);

        // A tile of the result is summed up in registers.
        const int columns[] = {lanes, 2 * lanes, 4 * lanes}, rows[] = {8, 4, 4};
        Func conv2d("conv2d"), part("part");
        RDom r(0, kernel.dim(0).extent(), 0, kernel.dim(1).extent());
        part(i, j) += image(i + r.x, j + r.y) * kernel(r.x, r.y);
        conv2d(i, j) = part(i, j);
        conv2d.tile(i, j, x, y, columns[k], rows[k], TailStrategy::ShiftInwards).vectorize(x, lanes).unroll(x).unroll(y);
        part.compute_at(conv2d, i).vectorize(i, lanes).unroll(i).unroll(j);
        part.update().reorder(i, j, r.x, r.y).vectorize(i, lanes).unroll(i).unroll(j);
        conv2d.compile_to_object(into + "conv2d" + number + ".o", {image, kernel}, "conv2d" + number, bare);
    }
    compile_standalone_runtime(into + "runtime.o", host);
    return 0;
}
