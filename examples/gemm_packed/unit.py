@memory
class STACK:
    place = "stack"

@proc
def gemm(M: size, N: size, K: size, A: i32[M, K], B: i32[K, N], C: i32[M, N]):
    assert M % 32 == 0
    assert N % 32 == 0
    assert K % 32 == 0
    for i in seq(0, M):
        for j in seq(0, N):
            for k in seq(0, K):
                C[i, j] += A[i, k] * B[k, j]
