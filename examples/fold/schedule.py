p = divide_loop(fold, 'i', 4, ['io', 'ii'], tail='cut')
p = unroll_loop(p, 'ii')
emit(p)
