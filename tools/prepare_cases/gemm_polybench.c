/* gemm as benchmark suites write it: macros for sizes, types and loop bounds, a local in a block, other functions around. */
#define DATA_TYPE double
#define _PB_NI NI
#define _PB_NJ NJ
#define _PB_NK NK
#define TABLE(name, rows, columns) name[restrict rows][columns]

static double start(int i, int j) { return (double) (i * j % 7) / 7; }

#pragma GCC optimize("O2")
static
void kernel_gemm(int NI, int NJ, int NK, DATA_TYPE alpha, DATA_TYPE beta,
                 DATA_TYPE TABLE(C, NI, NJ), const DATA_TYPE TABLE(A, NI, NK), const DATA_TYPE TABLE(B, NK, NJ))
{
#pragma scop
  for (int i = 0; i < _PB_NI; i++)
    for (int j = 0; j < _PB_NJ; j++) {
      C[i][j] *= beta;
      int k;
      for (k = 0; k < _PB_NK; ++k)
        C[i][j] += alpha * A[i][k] * B[k][j];
    }
#pragma endscop
}

int main(void) { return start(1, 2) > 1; }
