@proc
def add(n: size, a: [i32][n], b: [i32][n]):
    for l in seq(0, n):
        a[l] += b[l]

@proc
def fold(m: size, n: size, x: i32[m, 2 * n]):
    for i in seq(0, m):
        add(n, x[i, 0:n], x[i, n - 1:2 * n - 1])
