/* jacobi-1d as benchmark suites write it. */
typedef double real;
#define SCALAR_VAL(x) x
#define _PB_TSTEPS T
#define _PB_N N
#define ROW(name, size) name[restrict static size]
#pragma affine context T >= 0 && N >= 3
static inline
void kernel_jacobi_1d(int T, int N, real ROW(A, N), real ROW(B, N))
{
  register int t, i;
#pragma scop
  for (t = 0; t < _PB_TSTEPS; t++)
    {
      for (i = 1; i < _PB_N - 1; i++)
        B[i] = SCALAR_VAL(0.33333) * (A[i-1] + A[i] + A[i + 1]);
      for (i = 1; i < _PB_N - 1; i++)
        A[i] = SCALAR_VAL(0.33333) * (B[i-1] + B[i] + B[i + 1]);
    }
#pragma endscop
  return;
}
