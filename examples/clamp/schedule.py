emit(clamp)
