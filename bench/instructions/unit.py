# Templates that do what their bodies say, and templates that do not: what bin/instructions says of each is in `expected`.
@config
class Unit:
    mode: index
    wide: bool

@memory
class V4:
    ctype = "v4"
    lanes = 4
    cell = "i32"
    place = "stack"
    read = False
    write = False
    reduce = False
    include = "vectors.h"

# Right ones.

@instr("{dst_data} = load_v4(&{src_data});")
def load4(dst: [i32][4] @ V4, src: [i32][4]):
    assert stride(src, 0) == 1
    for l in seq(0, 4):
        dst[l] = src[l]

@instr("store_v4(&{dst_data}, {src_data});")
def store4(dst: [i32][4], src: [i32][4] @ V4):
    assert stride(dst, 0) == 1
    for l in seq(0, 4):
        dst[l] = src[l]

@instr("{c_data} = mac_v4({c_data}, {a_data}, {b_data});")
def mac4(c: [i32][4] @ V4, a: i32, b: [i32][4] @ V4):
    for l in seq(0, 4):
        c[l] += a * b[l]

@instr("{{ int64_t _n = {n}; int64_t _s = {s}; int32_t *_x = &{x_data}; for (int64_t _k = 0; _k < _n; _k++) _x[_k * _s] = 7; }}")
def fill(n: size, s: stride, x: [i32][n]):
    assert stride(x, 0) == s
    for k in seq(0, n):
        x[k] = 7

@instr("{{ for (int64_t _i = 0; _i < 2; _i++) for (int64_t _j = 0; _j < {n}; _j++) (&{x_data})[_i * {n} + _j] = (&{y_data})[_j * 2 + _i]; }}")
def turn(n: size, x: i32[2, n], y: i32[n, 2]):
    for i in seq(0, 2):
        for j in seq(0, n):
            x[i, j] = y[j, i]

@instr("Unit_mode = {m}; Unit_wide = {w}; {x_data} = {w} ? 1 : 0;")
def set_mode(m: index, w: bool, x: i8):
    assert Unit.mode == 0
    Unit.mode = m
    Unit.wide = w
    if w:
        x = 1
    else:
        x = 0

# A name of the template is met by one of the call.

@instr("for (int64_t i = 0; i < 4; i++) (&{x_data})[i] = 1;")
def ones(x: [i32][4]):
    assert stride(x, 0) == 1
    for l in seq(0, 4):
        x[l] = 1

@instr("{{ int64_t at = 3; {x_data} = (int32_t)({n} + at); }}")
def put_sum(n: index, x: i32):
    assert n == 4
    x = 7

@instr("int64_t rows = 0; {x_data} = (int32_t)rows;")
def zero(n: size, x: i32):
    x = 0

@instr("int32_t t = 1; {x_data} = t;")
def one(x: i32):
    x = 1

# Too few and too many lanes.

@instr("{{ int32_t *_d = &{dst_data}; const int32_t *_s = &{src_data}; for (int _k = 0; _k < 3; _k++) _d[_k] = _s[_k]; }}")
def copy_few(dst: [i32][4], src: [i32][4]):
    assert stride(dst, 0) == 1
    assert stride(src, 0) == 1
    for l in seq(0, 4):
        dst[l] = src[l]

@instr("store_v4(&{dst_data}, {src_data});")
def store_two(dst: [i32][2], src: [i32][4] @ V4):
    assert stride(dst, 0) == 1
    for l in seq(0, 2):
        dst[l] = src[l]

@instr("(&{dst_data})[1] = {dst_data} = load_v4(&{src_data});")
def load_twice(dst: [i32][4] @ V4, src: [i32][4]):
    assert stride(src, 0) == 1
    for l in seq(0, 4):
        dst[l] = src[l]

# One off.

@instr("{{ for (int64_t _k = 0; _k <= {n}; _k++) (&{x_data})[_k] = 5; }}")
def fives(n: size, x: i32[n]):
    for k in seq(0, n):
        x[k] = 5

@instr("{dst_data} = load_v4(&{src_data} + 1);")
def load_next(dst: [i32][4] @ V4, src: [i32][4]):
    assert stride(src, 0) == 1
    for l in seq(0, 4):
        dst[l] = src[l]

@instr("{{ volatile int8_t _v = (&{x_data})[{n}]; (void)_v; {y_data} = 3; }}")
def read_past(n: size, x: i8[n], y: i8):
    y = 3

# More than the assertions say is relied on.

@instr("{dst_data} = load_v4(&{src_data});")
def load_column(dst: [i32][4] @ V4, src: [i32][4]):
    for l in seq(0, 4):
        dst[l] = src[l]

@instr("{dst_data} = *(const v4 *)__builtin_assume_aligned(&{src_data}, 16);")
def load_aligned(dst: [i32][4] @ V4, src: [i32][4]):
    assert stride(src, 0) == 1
    for l in seq(0, 4):
        dst[l] = src[l]

@instr("{x_data} = {x_data} + {y_data};")
def add(x: i32, y: i32):
    x += y

@instr("{{ int32_t _s = {x_data} + {y_data}; {x_data} = (int16_t)(_s > 32767 ? 32767 : _s < -32768 ? -32768 : _s); }}")
def add_ends(x: i16, y: i16):
    x += y

# What is no cell.

@instr("Unit_mode = {m} + 1;")
def set_other(m: index):
    Unit.mode = m

@instr("{x_data} = {w} ? 1 : 0;")
def forget_mode(w: bool, x: i8):
    Unit.wide = w
    if w:
        x = 1
    else:
        x = 0

# No C, no header, no input.

@instr("{x_data} = 1; /*")
def open_end(x: i32):
    x = 1

@instr("_mm_no_such_word(&{x_data});")
def no_such_word(x: i32):
    x = 1

@instr("{x_data} = 1;")
def never(n: size, x: i32):
    assert n == 7
    assert n == 8
    x = 1

# A type without room for its lanes, and one that malloc has no place for.

@memory
class NARROW:
    ctype = "int32_t"
    lanes = 8
    cell = "i32"
    place = "stack"
    read = False
    write = False
    reduce = False
    include = "string.h"

@memory
class HEAP:
    ctype = "v8"
    lanes = 8
    cell = "i32"
    read = False
    write = False
    reduce = False
    include = "vectors.h"

@instr("memcpy(&{dst_data}, &{src_data}, 32);")
def load_narrow(dst: [i32][8] @ NARROW, src: [i32][8]):
    assert stride(src, 0) == 1
    for l in seq(0, 8):
        dst[l] = src[l]

@instr("__builtin_memcpy(&{dst_data}, &{src_data}, 32);")
def load_heap(dst: [i32][8] @ HEAP, src: [i32][8]):
    assert stride(src, 0) == 1
    for l in seq(0, 8):
        dst[l] = src[l]
