p = commute_expr(add3, 'x[_] = _', '_ + _')
emit(p)
