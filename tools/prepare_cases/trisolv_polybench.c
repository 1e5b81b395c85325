/* trisolv as benchmark suites write it. */
#define DATA_TYPE double
#define _PB_N N
#define SQUARE(name, size) name[size + 0][size + 0]
static void kernel_trisolv(int N, DATA_TYPE SQUARE(L, N), DATA_TYPE x[N + 0], DATA_TYPE b[N + 0]) {
  int i, j;
#pragma scop
  for (i = 0; i < _PB_N; i++)
    {
      x[i] = b[i];
      for (j = 0; j <i; j++)
        x[i] -= L[i][j] * x[j];
      x[i] = x[i] / L[i][i];
    }
#pragma endscop
}
