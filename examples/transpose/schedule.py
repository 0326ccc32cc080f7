emit(transpose)
