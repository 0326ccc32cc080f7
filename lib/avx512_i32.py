# AVX-512 over cells of 32 bits: vectors of sixteen. Compile with -mavx512f.
@memory
class AVX512:
    ctype = "__m512i"
    lanes = 16
    cell = "i32"
    place = "stack"
    read = False
    write = False
    reduce = False
    include = "immintrin.h"

# dst = src, from and to neighbours at any address.
@instr("{dst_data} = _mm512_loadu_si512(&{src_data});")
def load16(dst: [i32][16] @ AVX512, src: [i32][16]):
    assert stride(dst, 0) == 1
    assert stride(src, 0) == 1
    for l in seq(0, 16):
        dst[l] = src[l]

@instr("_mm512_storeu_si512(&{dst_data}, {src_data});")
def store16(dst: [i32][16], src: [i32][16] @ AVX512):
    assert stride(dst, 0) == 1
    assert stride(src, 0) == 1
    for l in seq(0, 16):
        dst[l] = src[l]

# The same of the first n cells alone: the others are not touched, so the window may be shorter than a vector.
@instr("{dst_data} = _mm512_maskz_loadu_epi32((__mmask16)((1u << {n}) - 1u), &{src_data});")
def load_first16(n: size, dst: [i32][16] @ AVX512, src: [i32][n]):
    assert n <= 16
    assert stride(dst, 0) == 1
    assert stride(src, 0) == 1
    for l in seq(0, 16):
        dst[l] = 0
    for l in seq(0, n):
        dst[l] = src[l]

@instr("_mm512_mask_storeu_epi32(&{dst_data}, (__mmask16)((1u << {n}) - 1u), {src_data});")
def store_first16(n: size, dst: [i32][n], src: [i32][16] @ AVX512):
    assert n <= 16
    assert stride(dst, 0) == 1
    assert stride(src, 0) == 1
    for l in seq(0, n):
        dst[l] = src[l]

# Vectors from nothing, from one cell, and from another vector.
@instr("{dst_data} = _mm512_setzero_si512();")
def zero16(dst: [i32][16] @ AVX512):
    assert stride(dst, 0) == 1
    for l in seq(0, 16):
        dst[l] = 0

@instr("{dst_data} = _mm512_set1_epi32({a_data});")
def broadcast16(dst: [i32][16] @ AVX512, a: i32):
    assert stride(dst, 0) == 1
    for l in seq(0, 16):
        dst[l] = a

@instr("{dst_data} = {src_data};")
def copy16(dst: [i32][16] @ AVX512, src: [i32][16] @ AVX512):
    assert stride(dst, 0) == 1
    assert stride(src, 0) == 1
    for l in seq(0, 16):
        dst[l] = src[l]

# Lane by lane; sums and products wrap as cells do.
@instr("{c_data} = _mm512_add_epi32({c_data}, {a_data});")
def add16(c: [i32][16] @ AVX512, a: [i32][16] @ AVX512):
    assert stride(c, 0) == 1
    assert stride(a, 0) == 1
    for l in seq(0, 16):
        c[l] += a[l]

@instr("{c_data} = _mm512_sub_epi32({c_data}, {a_data});")
def subtract16(c: [i32][16] @ AVX512, a: [i32][16] @ AVX512):
    assert stride(c, 0) == 1
    assert stride(a, 0) == 1
    for l in seq(0, 16):
        c[l] = c[l] - a[l]

@instr("{c_data} = _mm512_mullo_epi32({c_data}, {a_data});")
def multiply16(c: [i32][16] @ AVX512, a: [i32][16] @ AVX512):
    assert stride(c, 0) == 1
    assert stride(a, 0) == 1
    for l in seq(0, 16):
        c[l] = c[l] * a[l]

@instr("{c_data} = _mm512_add_epi32({c_data}, _mm512_mullo_epi32({a_data}, {b_data}));")
def multiply_add16(c: [i32][16] @ AVX512, a: [i32][16] @ AVX512, b: [i32][16] @ AVX512):
    assert stride(c, 0) == 1
    assert stride(a, 0) == 1
    assert stride(b, 0) == 1
    for l in seq(0, 16):
        c[l] += a[l] * b[l]

# One cell times a vector, as a row of a matrix product takes it.
@instr("{c_data} = _mm512_add_epi32({c_data}, _mm512_mullo_epi32(_mm512_set1_epi32({a_data}), {b_data}));")
def scaled_add16(c: [i32][16] @ AVX512, a: i32, b: [i32][16] @ AVX512):
    assert stride(c, 0) == 1
    assert stride(b, 0) == 1
    for l in seq(0, 16):
        c[l] += a * b[l]

@instr("{c_data} = _mm512_max_epi32({c_data}, _mm512_setzero_si512());")
def relu16(c: [i32][16] @ AVX512):
    assert stride(c, 0) == 1
    for l in seq(0, 16):
        c[l] = relu(c[l])

@instr("{c_data} = _mm512_max_epi32({c_data}, {a_data});")
def greatest16(c: [i32][16] @ AVX512, a: [i32][16] @ AVX512):
    assert stride(c, 0) == 1
    assert stride(a, 0) == 1
    for l in seq(0, 16):
        c[l] = select(c[l], a[l], a[l], c[l])

# The sum of all lanes, added to a cell. (With gcc `_mm512_reduce_add_epi32` adds two numbers of C at last, whose overflow C leaves undefined.)
@instr("{{ __m256i _h = _mm256_add_epi32(_mm512_castsi512_si256({a_data}), _mm512_extracti64x4_epi64({a_data}, 1)); "
       "__m128i _s = _mm_add_epi32(_mm256_castsi256_si128(_h), _mm256_extracti128_si256(_h, 1)); "
       "_s = _mm_add_epi32(_s, _mm_shuffle_epi32(_s, 78)); _s = _mm_add_epi32(_s, _mm_shuffle_epi32(_s, 177)); "
       "{out_data} = (int32_t)((uint32_t){out_data} + (uint32_t)_mm_cvtsi128_si32(_s)); }}")
def add_lanes16(out: i32, a: [i32][16] @ AVX512):
    assert stride(a, 0) == 1
    for l in seq(0, 16):
        out += a[l]
