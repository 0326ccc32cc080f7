emit(smooth)
