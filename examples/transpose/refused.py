@proc
def transpose(M: size, N: size, A: i32[M, N], B: i32[N, M]):
    for i in seq(0, M):
        for j in seq(0, N):
            B[i, j] = A[i, j]
