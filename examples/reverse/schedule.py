emit(reverse)
