# The zeros get loops of their own: out of the loop over j, then out of that over i.
p = fission(gemm, find(gemm, 'C[_] = _').after())
p = fission(p, find(p, 'j').after())
# Columns go by 64. What is left of a row gets a nest of its own, too.
p = divide_loop(p, 'j #1', 64, ['jo', 'ji'], tail='cut')
p = fission(p, find(p, 'jo').after())
# Neighbouring columns are innermost, in both nests.
p = reorder_loops(p, 'ji k')
p = reorder_loops(p, 'ji k')
# Rows of B go by 64, the last of them guarded; a block of 64 by 64 stays while all rows of A go by.
p = divide_loop(p, 'k', 64, ['ko', 'ki'])
p = reorder_loops(p, 'i jo')
p = reorder_loops(p, 'i ko')
emit(p)
