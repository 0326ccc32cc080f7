@memory
class BYTES:
    ctype = "__m256i"
    lanes = 32
    cell = "ui8"
    place = "stack"
    read = False
    write = False
    reduce = False
    include = "immintrin.h"

@memory
class WEIGHTS:
    ctype = "__m256i"
    lanes = 32
    cell = "i8"
    place = "stack"
    read = False
    write = False
    reduce = False
    include = "immintrin.h"

@memory
class PAIRS:
    ctype = "__m256i"
    lanes = 16
    cell = "i16"
    place = "stack"
    read = False
    write = False
    reduce = False
    include = "immintrin.h"

@memory
class SUMS:
    ctype = "__m256i"
    lanes = 8
    cell = "i32"
    place = "stack"
    read = False
    write = False
    reduce = False
    include = "immintrin.h"

@instr("{dst_data} = _mm256_loadu_si256((const __m256i *)&{src_data});")
def load_bytes(dst: [ui8][32] @ BYTES, src: [ui8][32]):
    assert stride(dst, 0) == 1
    assert stride(src, 0) == 1
    for l in seq(0, 32):
        dst[l] = src[l]

@instr("{dst_data} = _mm256_loadu_si256((const __m256i *)&{src_data});")
def load_weights(dst: [i8][32] @ WEIGHTS, src: [i8][32]):
    assert stride(dst, 0) == 1
    assert stride(src, 0) == 1
    for l in seq(0, 32):
        dst[l] = src[l]

# Two products are added, and a sum that 16 bits do not hold is taken to the next end of their range.
@instr("{dst_data} = _mm256_maddubs_epi16({x_data}, {w_data});")
def multiply(dst: [i16][16] @ PAIRS, x: [ui8][32] @ BYTES, w: [i8][32] @ WEIGHTS):
    assert stride(dst, 0) == 1
    assert stride(x, 0) == 1
    assert stride(w, 0) == 1
    s : i32
    for l in seq(0, 16):
        s = x[2 * l] * w[2 * l] + x[2 * l + 1] * w[2 * l + 1]
        dst[l] = select(32767, s, 32767, select(s, -32768, -32768, s))

@instr("{dst_data} = _mm256_setzero_si256();")
def zero(dst: [i32][8] @ SUMS):
    assert stride(dst, 0) == 1
    for l in seq(0, 8):
        dst[l] = 0

@instr("{acc_data} = _mm256_add_epi32({acc_data}, _mm256_madd_epi16({src_data}, _mm256_set1_epi16(1)));")
def add_pairs(acc: [i32][8] @ SUMS, src: [i16][16] @ PAIRS):
    assert stride(acc, 0) == 1
    assert stride(src, 0) == 1
    for l in seq(0, 8):
        acc[l] += src[2 * l] + src[2 * l + 1]

@instr("_mm256_storeu_si256((__m256i *)&{dst_data}, {src_data});")
def store(dst: [i32][8], src: [i32][8] @ SUMS):
    assert stride(dst, 0) == 1
    assert stride(src, 0) == 1
    for l in seq(0, 8):
        dst[l] = src[l]

@proc
def dot(n: size, x: ui8[n], w: i8[n], out: i32):
    assert n % 32 == 0
    acc : i32[8] @ SUMS
    zero(acc)
    for i in seq(0, n / 32):
        xs : ui8[32] @ BYTES
        ws : i8[32] @ WEIGHTS
        pairs : i16[16] @ PAIRS
        load_bytes(xs, x[32 * i:32 * i + 32])
        load_weights(ws, w[32 * i:32 * i + 32])
        multiply(pairs, xs, ws)
        add_pairs(acc, pairs)
    sums : i32[8]
    store(sums, acc)
    out = 0
    for l in seq(0, 8):
        out += sums[l]
