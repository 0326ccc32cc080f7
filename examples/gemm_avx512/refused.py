from __future__ import annotations
from exo import *

@memory
class AVX512:
    ctype = "__m512i"
    lanes = 16
    cell = "i32"
    place = "stack"
    read = False
    write = False
    reduce = False
    include = "immintrin.h"

@instr("{dst_data} = _mm512_loadu_si512(&{src_data});")
def load16(dst: [i32][16] @ AVX512, src: [i32][16]):
    assert stride(dst, 0) == 1
    assert stride(src, 0) == 1
    for l in seq(0, 16):
        dst[l] = src[l]

@instr("_mm512_storeu_si512(&{dst_data}, {src_data});")
def store16(dst: [i32][16], src: [i32][16] @ AVX512):
    assert stride(dst, 0) == 1
    assert stride(src, 0) == 1
    for l in seq(0, 16):
        dst[l] = src[l]

@instr("{c_data} = _mm512_add_epi32({c_data}, _mm512_mullo_epi32(_mm512_set1_epi32({a_data}), {b_data}));")
def scaled_add16(c: [i32][16] @ AVX512, a: i32, b: [i32][16] @ AVX512):
    assert stride(c, 0) == 1
    assert stride(b, 0) == 1
    for l in seq(0, 16):
        c[l] += a * b[l]

@proc
def gemm(M: size, N: size, K: size, A: i32[M, K], B: i32[N, K], C: i32[M, N]):
    assert M % 12 == 0
    assert N % 16 == 0
    assert K % 256 == 0
    for i in seq(0, M):
        for j in seq(0, N):
            for k in seq(0, K):
                C[i, j] += A[i, k] * B[k, j]
