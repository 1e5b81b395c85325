// maximum: the greatest of 2*N + 1 numbers.
// Wrong: the number of the last turn is read in place of the next one.
// Unmatched from N = 1 on.
#include <math.h>

void maximum(int N, const double x[2 * N + 1], double m[1]) {
  m[0] = x[0];
  for (int i = 0; i < N; i++)
    m[0] = fmax(m[0], fmax(x[2 * i], x[2 * i + 1]));
}
