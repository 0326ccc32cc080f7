@proc
def filter(n: size, w: i32[4], x: i32[n], y: i32[n]):
    assert 3 <= n
    for i in seq(0, n):
        y[i] = 0
        for k in seq(0, 4):
            if i + k < n:
                y[i] += w[k] * x[i + k]
