@proc
def clamp(n: size, x: i32[n], y: i8[n]):
    for i in seq(0, n):
        y[i] = select(x[i], n, relu(x[i]), n)
