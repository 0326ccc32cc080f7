// Eigen's product of matrices of int32_t, added to a third.
#include <Eigen/Dense>
#include <cstdint>

using Matrix = Eigen::Matrix<int32_t, Eigen::Dynamic, Eigen::Dynamic, Eigen::RowMajor>;

extern "C" void eigen(int64_t M, int64_t N, int64_t K, int32_t *A, int32_t *B, int32_t *C) {
    Eigen::Map<Matrix> a(A, M, K), b(B, K, N), c(C, M, N);
    c.noalias() += a * b;
}
