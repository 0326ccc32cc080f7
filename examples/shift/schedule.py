emit(shift)
