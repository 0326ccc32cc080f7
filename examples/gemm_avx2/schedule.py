emit(gemm_avx2)
