// durbin: the solution y of the Yule-Walker system with the autocorrelations r, by Durbin's recursion.
// The original: in turn k the solution of size k grows to size k + 1; z holds the new first part.
#pragma affine context N >= 1
void durbin(int N, double r[N], double y[N]) {
  double z[N], alpha, beta, sum;
  int i, k;
  y[0] = -r[0];
  beta = 1.0;
  alpha = -r[0];
  for (k = 1; k < N; k++) {
    beta = (1.0 - alpha * alpha) * beta;
    sum = 0.0;
    for (i = 0; i < k; i++)
      sum += r[k - i - 1] * y[i];
    alpha = -(r[k] + sum) / beta;
    for (i = 0; i < k; i++)
      z[i] = y[i] + alpha * y[k - i - 1];
    for (i = 0; i < k; i++)
      y[i] = z[i];
    y[k] = alpha;
  }
}
