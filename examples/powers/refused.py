@memory
class STACK:
    place = "stack"

@proc
def powers(n: size, x: i32[n], y: i32[n]):
    for i in seq(0, n):
        s : i32
        s = x[i] * x[i]
        y[i] = s * s + x[i - 1]
