@config
class Cfg:
    width: size

@proc
def dot8(x: [i8][8], y: [i8][8], out: i32):
    assert Cfg.width == 8
    for l in seq(0, 8):
        out += x[l] * y[l]

@proc
def dot(n: size, x: i8[n], y: i8[n], out: i32):
    assert n % 8 == 0
    for i in seq(0, n / 8):
        dot8(x[8 * i:8 * i + 8], y[8 * i:8 * i + 8], out)
