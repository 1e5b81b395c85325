// maximum: the greatest of 2*N + 1 numbers.
// The original: one number after the other.
#include <math.h>

void maximum(int N, const double x[2 * N + 1], double m[1]) {
  m[0] = x[0];
  for (int i = 0; i < N; i++)
    m[0] = fmax(fmax(m[0], x[2 * i + 1]), x[2 * i + 2]);
}
