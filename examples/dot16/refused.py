@memory
class AVX2:
    ctype = "__m256i"
    lanes = 8
    cell = "i32"
    place = "stack"
    read = False
    write = False
    reduce = False
    include = "immintrin.h"

@instr("{dst_data} = _mm256_setzero_si256();")
def zero8(dst: [i32][8] @ AVX2):
    for l in seq(0, 8):
        dst[l] = 0

# Lane l takes the products of two neighbours. `madd` multiplies signed 16-bit numbers and adds neighbours in 32 bits, so nothing is lost.
@instr("{acc_data} = _mm256_add_epi32({acc_data}, _mm256_madd_epi16("
       "_mm256_cvtepi8_epi16(_mm_loadu_si128((const __m128i *)&{x_data})), "
       "_mm256_cvtepi8_epi16(_mm_loadu_si128((const __m128i *)&{y_data}))));")
def mac16(acc: [i32][8] @ AVX2, x: [i8][16], y: [i8][16]):
    assert stride(x, 0) == 1
    assert stride(y, 0) == 1
    for l in seq(0, 8):
        acc[l] += x[2 * l] * y[2 * l] + x[2 * l + 1] * y[2 * l + 1]

@instr("{out_data} = (int32_t)((uint32_t){out_data} + (uint32_t)((__v8si){acc_data})[{l}]);")
def add_lane(out: i32, acc: [i32][8] @ AVX2, l: index):
    assert 0 <= l
    assert l < 8
    out += acc[l]

@proc
def dot(n: size, x: i8[n], y: i8[n], out: i32):
    acc : i32[8] @ AVX2
    zero8(acc[0:8])
    for i in seq(0, (n + 15) / 16):
        mac16(acc[0:8], x[16 * i:16 * i + 16], y[16 * i:16 * i + 16])
    for l in seq(0, 8):
        add_lane(out, acc[0:8], l)
    for t in seq(0, n % 16):
        out += x[16 * (n / 16) + t] * y[16 * (n / 16) + t]
