emit(tiled)
