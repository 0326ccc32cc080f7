@proc
def scale(n: size, x: i32[n]):
    for i in seq(0, n):
        x[i] = 3 * x[i]
