from __future__ import annotations
from exo import *

@memory
class AVX2:
    ctype = "__m256i"
    lanes = 8
    cell = "i32"
    place = "stack"
    read = False
    write = False
    reduce = False
    include = "immintrin.h"

@instr("{dst_data} = _mm256_loadu_si256((const __m256i *)&{src_data});")
def load8(dst: [i32][8] @ AVX2, src: [i32][8] @ DRAM):
    assert stride(src, 0) == 1
    assert stride(dst, 0) == 1
    for l in seq(0, 8):
        dst[l] = src[l]

@instr("_mm256_storeu_si256((__m256i *)&{dst_data}, {src_data});")
def store8(dst: [i32][8] @ DRAM, src: [i32][8] @ AVX2):
    assert stride(src, 0) == 1
    assert stride(dst, 0) == 1
    for l in seq(0, 8):
        dst[l] = src[l]

@instr("{c_data} = _mm256_add_epi32({c_data}, "
       "_mm256_mullo_epi32(_mm256_set1_epi32({a_data}), {b_data}));")
def mac8(c: [i32][8] @ AVX2, a: i32 @ DRAM, b: [i32][8] @ AVX2):
    assert stride(c, 0) == 1
    assert stride(b, 0) == 1
    for l in seq(0, 8):
        c[l] += a * b[l]

@proc
def gemm(M: size, N: size, K: size, A: i32[M, K], B: i32[N, K], C: i32[M, N]):
    assert M % 12 == 0
    assert N % 8 == 0
    assert K % 256 == 0
    for i in seq(0, M):
        for j in seq(0, N):
            for k in seq(0, K):
                C[i, j] += A[i, k] * B[k, j]
