emit(dot)
