@proc
def reverse(n: size, x: i32[n]):
    t : i32[n]
    for i in seq(0, n):
        t[i] = x[i]
    for i in seq(0, n):
        x[i] = t[n - i]
