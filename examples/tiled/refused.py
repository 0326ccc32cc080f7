@proc
def tiled(n: size, x: i32[n], y: i32[n / 8, 8]):
    assert 8 <= n
    for i in seq(0, n):
        y[i / 8, i % 8] = x[i]
