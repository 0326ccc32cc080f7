@proc
def add3(x: i32[4], y: i32[4]):
    x[0] = y[1] + 3
