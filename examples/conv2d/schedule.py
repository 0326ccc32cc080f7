emit(conv2d)
