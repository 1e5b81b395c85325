// maximum: the greatest of 2*N + 1 numbers.
// The two numbers of a turn first.
// Equal with fmax.
#include <math.h>

void maximum(int N, const double x[2 * N + 1], double m[1]) {
  m[0] = x[0];
  for (int i = 0; i < N; i++)
    m[0] = fmax(fmax(x[2 * i + 2], x[2 * i + 1]), m[0]);
}
