b = commute_expr(blur, 'y[_] = _', '_ * _')
emit(b)
