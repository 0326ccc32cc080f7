# All three loops go by 32, and the loops over tiles go outside.
p = divide_loop(gemm, 'i', 32, ['io', 'ii'], perfect=True)
p = divide_loop(p, 'j', 32, ['jo', 'ji'], perfect=True)
p = divide_loop(p, 'k', 32, ['ko', 'ki'], perfect=True)
p = reorder_loops(p, 'ii jo')
p = reorder_loops(p, 'ji ko')
p = reorder_loops(p, 'ii ko')
# Neighbouring columns are innermost.
p = reorder_loops(p, 'ji ki')
# Tiles of A and B are copied before they are used; a tile of C is summed up by itself.
p = stage_mem(p, 'ii', 'A[32 * io:32 * io + 32, 32 * ko:32 * ko + 32]', 'a')
p = stage_mem(p, 'ii', 'B[32 * ko:32 * ko + 32, 32 * jo:32 * jo + 32]', 'b')
p = stage_mem(p, 'ko', 'C[32 * io:32 * io + 32, 32 * jo:32 * jo + 32]', 'c', accum=True)
p = set_memory(p, 'c : _', STACK)
p = set_memory(p, 'a : _', STACK)
p = set_memory(p, 'b : _', STACK)
emit(p)
