// weigh: a weighted sum of three numbers.
// Each number is weighed, and then they are added.
// Unmatched: products are not distributed over sums.
void weigh(int N, const double a[N], const double b[N], const double c[N], const double w[N], double y[N]) {
  for (int i = 0; i < N; i++)
    y[i] = a[i] * w[i] + b[i] * w[i] + c[i] * w[i];
}
