/* atax as benchmark suites write it, with a scalar in place of the row of sums. */
#define DATA_TYPE double
#define SCALAR_VAL(x) x
#define _PB_M M
#define _PB_N N
static
void kernel_atax(int M, int N, DATA_TYPE A[M][N], DATA_TYPE x[N], DATA_TYPE y[N])
{
#pragma scop
  for (int i = 0; i < _PB_N; i++)
    y[i] = SCALAR_VAL(0.0);
  for (int i = 0; i < _PB_M; i++)
    {
      DATA_TYPE sum = SCALAR_VAL(0.0);
      for (int j = 0; j < _PB_N; j++)
        sum = sum + A[i][j] * x[j];
      for (int j = 0; j < _PB_N; j++)
        y[j] = y[j] + A[i][j] * sum;
    }
#pragma endscop
}
