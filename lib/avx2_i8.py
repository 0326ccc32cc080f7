# Dot products of cells of 8 bits by AVX2: sums of eight lanes of 32 bits. Compile with -mavx2.
@memory
class SUMS:
    ctype = "__m256i"
    lanes = 8
    cell = "i32"
    place = "stack"
    read = False
    write = False
    reduce = False
    include = "immintrin.h"

@memory
class BYTES:
    ctype = "__m256i"
    lanes = 32
    cell = "ui8"
    place = "stack"
    read = False
    write = False
    reduce = False
    include = "immintrin.h"

@memory
class WEIGHTS:
    ctype = "__m256i"
    lanes = 32
    cell = "i8"
    place = "stack"
    read = False
    write = False
    reduce = False
    include = "immintrin.h"

@memory
class PAIRS:
    ctype = "__m256i"
    lanes = 16
    cell = "i16"
    place = "stack"
    read = False
    write = False
    reduce = False
    include = "immintrin.h"

@instr("{dst_data} = _mm256_setzero_si256();")
def zero_sums(dst: [i32][8] @ SUMS):
    assert stride(dst, 0) == 1
    for l in seq(0, 8):
        dst[l] = 0

@instr("_mm256_storeu_si256((__m256i *)&{dst_data}, {src_data});")
def store_sums(dst: [i32][8], src: [i32][8] @ SUMS):
    assert stride(dst, 0) == 1
    assert stride(src, 0) == 1
    for l in seq(0, 8):
        dst[l] = src[l]

# The sum of all lanes, added to a cell.
@instr("{{ __m128i _s = _mm_add_epi32(_mm256_castsi256_si128({a_data}), _mm256_extracti128_si256({a_data}, 1)); "
       "_s = _mm_add_epi32(_s, _mm_shuffle_epi32(_s, 78)); _s = _mm_add_epi32(_s, _mm_shuffle_epi32(_s, 177)); "
       "{out_data} = (int32_t)((uint32_t){out_data} + (uint32_t)_mm_cvtsi128_si32(_s)); }}")
def add_sums(out: i32, a: [i32][8] @ SUMS):
    assert stride(a, 0) == 1
    for l in seq(0, 8):
        out += a[l]

# Sixteen cells with a sign on both sides, exactly: lane l takes the products of two neighbours.
@instr("{acc_data} = _mm256_add_epi32({acc_data}, _mm256_madd_epi16("
       "_mm256_cvtepi8_epi16(_mm_loadu_si128((const __m128i *)&{x_data})), "
       "_mm256_cvtepi8_epi16(_mm_loadu_si128((const __m128i *)&{y_data}))));")
def dot_i8(acc: [i32][8] @ SUMS, x: [i8][16], y: [i8][16]):
    assert stride(acc, 0) == 1
    assert stride(x, 0) == 1
    assert stride(y, 0) == 1
    for l in seq(0, 8):
        acc[l] += x[2 * l] * y[2 * l] + x[2 * l + 1] * y[2 * l + 1]

# Sixteen cells without a sign times sixteen with one, exactly.
@instr("{acc_data} = _mm256_add_epi32({acc_data}, _mm256_madd_epi16("
       "_mm256_cvtepu8_epi16(_mm_loadu_si128((const __m128i *)&{x_data})), "
       "_mm256_cvtepi8_epi16(_mm_loadu_si128((const __m128i *)&{y_data}))));")
def dot_ui8(acc: [i32][8] @ SUMS, x: [ui8][16], y: [i8][16]):
    assert stride(acc, 0) == 1
    assert stride(x, 0) == 1
    assert stride(y, 0) == 1
    for l in seq(0, 8):
        acc[l] += x[2 * l] * y[2 * l] + x[2 * l + 1] * y[2 * l + 1]

# Thirty-two cells at once, where a sum of two products that 16 bits do not hold stops at the end of their range.
@instr("{dst_data} = _mm256_loadu_si256((const __m256i *)&{src_data});")
def load_bytes(dst: [ui8][32] @ BYTES, src: [ui8][32]):
    assert stride(dst, 0) == 1
    assert stride(src, 0) == 1
    for l in seq(0, 32):
        dst[l] = src[l]

@instr("{dst_data} = _mm256_loadu_si256((const __m256i *)&{src_data});")
def load_weights(dst: [i8][32] @ WEIGHTS, src: [i8][32]):
    assert stride(dst, 0) == 1
    assert stride(src, 0) == 1
    for l in seq(0, 32):
        dst[l] = src[l]

@instr("{dst_data} = _mm256_maddubs_epi16({x_data}, {w_data});")
def multiply_pairs(dst: [i16][16] @ PAIRS, x: [ui8][32] @ BYTES, w: [i8][32] @ WEIGHTS):
    assert stride(dst, 0) == 1
    assert stride(x, 0) == 1
    assert stride(w, 0) == 1
    s : i32
    for l in seq(0, 16):
        s = x[2 * l] * w[2 * l] + x[2 * l + 1] * w[2 * l + 1]
        dst[l] = select(32767, s, 32767, select(s, -32768, -32768, s))

@instr("{acc_data} = _mm256_add_epi32({acc_data}, _mm256_madd_epi16({src_data}, _mm256_set1_epi16(1)));")
def add_pairs(acc: [i32][8] @ SUMS, src: [i16][16] @ PAIRS):
    assert stride(acc, 0) == 1
    assert stride(src, 0) == 1
    for l in seq(0, 8):
        acc[l] += src[2 * l] + src[2 * l + 1]
