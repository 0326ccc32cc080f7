// Halide's product by four tilings of the result, of which the one that is fastest at some calls is kept; one thread.
#include <Halide.h>
#include <algorithm>
#include <cstdint>
#include <ctime>
#include <memory>
#include <vector>
using namespace Halide;

namespace {

struct Product {
    ImageParam a{Int(32), 2}, b{Int(32), 2}, c{Int(32), 2};
    Func product{"product"}, sum{"sum"};

    // Tiles of so many columns and rows, the sum of a tile in blocks of k.
    Product(int columns, int rows, int depth, int lanes) {
        Var j("j"), i("i"), ji("ji"), ii("ii");
        RDom k(0, a.dim(0).extent());
        sum(j, i) += a(k, i) * b(j, k);
        product(j, i) = c(j, i) + sum(j, i);
        RVar ko("ko"), ki("ki");
        product.tile(j, i, ji, ii, columns, rows).vectorize(ji, lanes);
        sum.compute_at(product, j).vectorize(j, lanes).unroll(j).unroll(i);
        sum.update().split(k, ko, ki, depth).reorder(j, i, ki, ko).vectorize(j, lanes).unroll(j).unroll(i);
    }
    void run(int64_t M, int64_t N, int64_t K, int32_t *A, int32_t *B, int32_t *C) {
        Buffer<int32_t> left(A, (int)K, (int)M), right(B, (int)N, (int)K), into(C, (int)N, (int)M);
        a.set(left);
        b.set(right);
        c.set(into);
        product.realize({into});
    }
};

// Seconds of this thread on a processor.
double now() {
    timespec t;
    clock_gettime(CLOCK_THREAD_CPUTIME_ID, &t);
    return t.tv_sec + 1e-9 * t.tv_nsec;
}

}  // namespace

extern "C" void halide(int64_t M, int64_t N, int64_t K, int32_t *A, int32_t *B, int32_t *C) {
    static std::unique_ptr<Product> best;
    static int64_t size = 0;
    if (size != M) {
        int lanes = get_host_target().natural_vector_size<int32_t>();
        int tilings[4][3] = {{lanes, 12, 64}, {2 * lanes, 6, 64}, {2 * lanes, 8, 256}, {4 * lanes, 4, 256}};
        double least = 1e30;
        std::vector<int32_t> spare(M * N);
        for (auto &t : tilings) {
            auto tried = std::make_unique<Product>(t[0], t[1], t[2], lanes);
            tried->run(M, N, K, A, B, spare.data());
            double took = 1e30;
            for (int k = 0; k < 3; k++) {
                double start = now();
                tried->run(M, N, K, A, B, spare.data());
                took = std::min(took, now() - start);
            }
            if (took < least) {
                least = took;
                best = std::move(tried);
            }
        }
        size = M;
    }
    best->run(M, N, K, A, B, C);
}
