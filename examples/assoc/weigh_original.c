// weigh: a weighted sum of three numbers.
// The original: the weight behind the sum.
void weigh(int N, const double a[N], const double b[N], const double c[N], const double w[N], double y[N]) {
  for (int i = 0; i < N; i++)
    y[i] = (a[i] + b[i] + c[i]) * w[i];
}
