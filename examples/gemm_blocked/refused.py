@proc
def gemm(M: size, N: size, K: size, A: i32[M, K], B: i32[K, N], C: i32[M, N]):
    for i in seq(0, M):
        for j in seq(0, N):
            C[i, j] = 0
            for k in seq(0, K):
                C[i, j] += A[k, i] * B[k, j]
