p = unroll_loop(dot, 'l')
emit(p)
