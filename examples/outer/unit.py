@proc
def outer(M: size, N: size, a: i32[M], b: i32[N], C: i32[M, N]):
    for i in seq(0, M):
        for j in seq(0, N):
            C[i, j] += a[i] * b[j]
