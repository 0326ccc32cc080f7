# AVX2 over cells of 32 bits: vectors of eight. Compile with -mavx2.
@memory
class AVX2:
    ctype = "__m256i"
    lanes = 8
    cell = "i32"
    place = "stack"
    read = False
    write = False
    reduce = False
    include = "immintrin.h"

# dst = src, from and to neighbours at any address.
@instr("{dst_data} = _mm256_loadu_si256((const __m256i *)&{src_data});")
def load8(dst: [i32][8] @ AVX2, src: [i32][8]):
    assert stride(dst, 0) == 1
    assert stride(src, 0) == 1
    for l in seq(0, 8):
        dst[l] = src[l]

@instr("_mm256_storeu_si256((__m256i *)&{dst_data}, {src_data});")
def store8(dst: [i32][8], src: [i32][8] @ AVX2):
    assert stride(dst, 0) == 1
    assert stride(src, 0) == 1
    for l in seq(0, 8):
        dst[l] = src[l]

# The same of the first n cells alone: the others are not touched, so the window may be shorter than a vector.
@instr("{dst_data} = _mm256_maskload_epi32((const int *)&{src_data}, "
       "_mm256_cmpgt_epi32(_mm256_set1_epi32((int){n}), _mm256_setr_epi32(0, 1, 2, 3, 4, 5, 6, 7)));")
def load_first8(n: size, dst: [i32][8] @ AVX2, src: [i32][n]):
    assert n <= 8
    assert stride(dst, 0) == 1
    assert stride(src, 0) == 1
    for l in seq(0, 8):
        dst[l] = 0
    for l in seq(0, n):
        dst[l] = src[l]

@instr("_mm256_maskstore_epi32((int *)&{dst_data}, "
       "_mm256_cmpgt_epi32(_mm256_set1_epi32((int){n}), _mm256_setr_epi32(0, 1, 2, 3, 4, 5, 6, 7)), {src_data});")
def store_first8(n: size, dst: [i32][n], src: [i32][8] @ AVX2):
    assert n <= 8
    assert stride(dst, 0) == 1
    assert stride(src, 0) == 1
    for l in seq(0, n):
        dst[l] = src[l]

# Vectors from nothing, from one cell, and from another vector.
@instr("{dst_data} = _mm256_setzero_si256();")
def zero8(dst: [i32][8] @ AVX2):
    assert stride(dst, 0) == 1
    for l in seq(0, 8):
        dst[l] = 0

@instr("{dst_data} = _mm256_set1_epi32({a_data});")
def broadcast8(dst: [i32][8] @ AVX2, a: i32):
    assert stride(dst, 0) == 1
    for l in seq(0, 8):
        dst[l] = a

@instr("{dst_data} = {src_data};")
def copy8(dst: [i32][8] @ AVX2, src: [i32][8] @ AVX2):
    assert stride(dst, 0) == 1
    assert stride(src, 0) == 1
    for l in seq(0, 8):
        dst[l] = src[l]

# Lane by lane; sums and products wrap as cells do.
@instr("{c_data} = _mm256_add_epi32({c_data}, {a_data});")
def add8(c: [i32][8] @ AVX2, a: [i32][8] @ AVX2):
    assert stride(c, 0) == 1
    assert stride(a, 0) == 1
    for l in seq(0, 8):
        c[l] += a[l]

@instr("{c_data} = _mm256_sub_epi32({c_data}, {a_data});")
def subtract8(c: [i32][8] @ AVX2, a: [i32][8] @ AVX2):
    assert stride(c, 0) == 1
    assert stride(a, 0) == 1
    for l in seq(0, 8):
        c[l] = c[l] - a[l]

@instr("{c_data} = _mm256_mullo_epi32({c_data}, {a_data});")
def multiply8(c: [i32][8] @ AVX2, a: [i32][8] @ AVX2):
    assert stride(c, 0) == 1
    assert stride(a, 0) == 1
    for l in seq(0, 8):
        c[l] = c[l] * a[l]

@instr("{c_data} = _mm256_add_epi32({c_data}, _mm256_mullo_epi32({a_data}, {b_data}));")
def multiply_add8(c: [i32][8] @ AVX2, a: [i32][8] @ AVX2, b: [i32][8] @ AVX2):
    assert stride(c, 0) == 1
    assert stride(a, 0) == 1
    assert stride(b, 0) == 1
    for l in seq(0, 8):
        c[l] += a[l] * b[l]

# One cell times a vector, as a row of a matrix product takes it.
@instr("{c_data} = _mm256_add_epi32({c_data}, _mm256_mullo_epi32(_mm256_set1_epi32({a_data}), {b_data}));")
def scaled_add8(c: [i32][8] @ AVX2, a: i32, b: [i32][8] @ AVX2):
    assert stride(c, 0) == 1
    assert stride(b, 0) == 1
    for l in seq(0, 8):
        c[l] += a * b[l]

@instr("{c_data} = _mm256_max_epi32({c_data}, _mm256_setzero_si256());")
def relu8(c: [i32][8] @ AVX2):
    assert stride(c, 0) == 1
    for l in seq(0, 8):
        c[l] = relu(c[l])

@instr("{c_data} = _mm256_max_epi32({c_data}, {a_data});")
def greatest8(c: [i32][8] @ AVX2, a: [i32][8] @ AVX2):
    assert stride(c, 0) == 1
    assert stride(a, 0) == 1
    for l in seq(0, 8):
        c[l] = select(c[l], a[l], a[l], c[l])

# The sum of all lanes, added to a cell.
@instr("{{ __m128i _s = _mm_add_epi32(_mm256_castsi256_si128({a_data}), _mm256_extracti128_si256({a_data}, 1)); "
       "_s = _mm_add_epi32(_s, _mm_shuffle_epi32(_s, 78)); _s = _mm_add_epi32(_s, _mm_shuffle_epi32(_s, 177)); "
       "{out_data} = (int32_t)((uint32_t){out_data} + (uint32_t)_mm_cvtsi128_si32(_s)); }}")
def add_lanes8(out: i32, a: [i32][8] @ AVX2):
    assert stride(a, 0) == 1
    for l in seq(0, 8):
        out += a[l]
