@proc
def shift(n: size, x: i32[n], y: i32[n]):
    for i in seq(0, n):
        y[i] = x[i + 1]
