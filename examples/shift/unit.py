@proc
def shift(n: size, x: i32[n], y: i32[n]):
    for i in seq(0, n - 1):
        y[i] = x[i + 1]
    y[n - 1] = 0
