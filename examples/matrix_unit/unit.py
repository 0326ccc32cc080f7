# A machine that multiplies tiles of 4 by 4 cells. Its two memories are touched by its instructions alone, and it has two registers:
# how many cells further a row of what it loads begins, and whether it stores what is below 0 as 0.
@config
class Unit:
    row: index
    clip: bool

@memory
class PAD:
    cell = "i8"
    read = False
    write = False
    reduce = False
    include = "unit.h"

@memory
class SUM:
    cell = "i32"
    read = False
    write = False
    reduce = False
    include = "unit.h"

# Clipping is set by an instruction of its own.
@instr("unit_clip({on});")
def set_clip(on: bool):
    Unit.clip = on

@instr("unit_clear(&{sum_data});")
def clear(sum: [i32][4, 4] @ SUM):
    assert stride(sum, 0) == 4
    assert stride(sum, 1) == 1
    for r in seq(0, 4):
        for c in seq(0, 4):
            sum[r, c] = 0

@instr("unit_load(&{dst_data}, &{src_data});")
def load(dst: [i8][4, 4] @ PAD, src: [i8][4, 4]):
    assert stride(src, 0) == Unit.row
    assert stride(src, 1) == 1
    assert stride(dst, 0) == 4
    assert stride(dst, 1) == 1
    for r in seq(0, 4):
        for c in seq(0, 4):
            dst[r, c] = src[r, c]

@instr("unit_multiply(&{sum_data}, &{a_data}, &{b_data});")
def multiply(sum: [i32][4, 4] @ SUM, a: [i8][4, 4] @ PAD, b: [i8][4, 4] @ PAD):
    assert stride(sum, 0) == 4
    assert stride(sum, 1) == 1
    assert stride(a, 0) == 4
    assert stride(a, 1) == 1
    assert stride(b, 0) == 4
    assert stride(b, 1) == 1
    for r in seq(0, 4):
        for c in seq(0, 4):
            for t in seq(0, 4):
                sum[r, c] += a[r, t] * b[t, c]

@instr("unit_store(&{dst_data}, {n}, &{sum_data});")
def store(dst: [i32][4, 4], n: size, sum: [i32][4, 4] @ SUM):
    assert stride(dst, 0) == n
    assert stride(dst, 1) == 1
    assert stride(sum, 0) == 4
    assert stride(sum, 1) == 1
    for r in seq(0, 4):
        for c in seq(0, 4):
            if Unit.clip:
                dst[r, c] = relu(sum[r, c])
            else:
                dst[r, c] = sum[r, c]

# The product of two square matrices, what is below 0 as 0.
@proc
def product(n: size, A: i8[n, n], B: i8[n, n], C: i32[n, n]):
    assert n % 4 == 0
    Unit.row = n
    for i in seq(0, n / 4):
        for j in seq(0, n / 4):
            Unit.clip = True
            sum : i32[4, 4] @ SUM
            clear(sum[0:4, 0:4])
            for k in seq(0, n / 4):
                a : i8[4, 4] @ PAD
                load(a[0:4, 0:4], A[4 * i:4 * i + 4, 4 * k:4 * k + 4])
                b : i8[4, 4] @ PAD
                load(b[0:4, 0:4], B[4 * k:4 * k + 4, 4 * j:4 * j + 4])
                multiply(sum[0:4, 0:4], a[0:4, 0:4], b[0:4, 0:4])
            store(C[4 * i:4 * i + 4, 4 * j:4 * j + 4], n, sum[0:4, 0:4])
