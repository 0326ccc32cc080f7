@proc
def outer(M: size, N: size, a: i32[M], b: i32[N], C: i32[M, N]):
    for i in seq(0, M):
        for j in seq(0, N):
            C[j, i] += a[i] * b[j]
