/* Each element of B is a mean of three elements of A, as benchmark suites write a kernel:
   sizes and types are macros, the function is static, and a local is declared in a block. */
#define DATA_TYPE double
#define SCALAR_VAL(x) x
#define _PB_N n
#define _PB_M m
#define ARRAY_2D(var, d1, d2) var[restrict d1][d2]

static
void kernel_smooth(int n, int m, DATA_TYPE ARRAY_2D(A, n, m), DATA_TYPE ARRAY_2D(B, n, m))
{
  int i, j;

#pragma scop
  for (i = 1; i < _PB_N - 1; i++)
    for (j = 0; j < _PB_M; ++j) {
      DATA_TYPE ends = A[i - 1][j] + A[i + 1][j];
      B[i][j] = SCALAR_VAL(0.5) * A[i][j] + SCALAR_VAL(0.25) * ends;
    }
#pragma endscop
}
