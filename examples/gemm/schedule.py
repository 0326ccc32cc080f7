emit(gemm)
