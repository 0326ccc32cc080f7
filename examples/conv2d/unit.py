@proc
def conv2d(H: size, W: size, K: size, L: size, image: i32[H, W], kernel: i32[K, L], out: i32[H - K + 1, W - L + 1]):
    assert K <= H
    assert L <= W
    for y in seq(0, H - K + 1):
        for x in seq(0, W - L + 1):
            out[y, x] = 0
            for u in seq(0, K):
                for v in seq(0, L):
                    out[y, x] += image[y + u, x + v] * kernel[u, v]
