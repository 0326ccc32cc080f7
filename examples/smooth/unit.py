@config
class Cfg:
    limit: index
    clip: bool

@proc
def smooth(n: size, x: i8[n], y: i8[n], total: i32):
    Cfg.limit = n / 2
    t : i32[n]
    for i in seq(0, n):
        t[i] = x[i] * 3
    total = 0
    for i in seq(0, n):
        int : i32
        int = relu(t[i] - 5)
        if Cfg.clip:
            y[i] = select(int, 100, int, 100)
        else:
            y[i] = int
        if i < Cfg.limit:
            total += int
