emit(scale)
