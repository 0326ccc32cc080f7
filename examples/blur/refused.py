@proc
def blur(n: size, x: i32[n], y: i32[n]):
    for i in seq(0, n):
        if 0 < i and i < n:
            y[i] = x[i - 1] + 2 * x[i] + x[i + 1]
        else:
            y[i] = x[i]
