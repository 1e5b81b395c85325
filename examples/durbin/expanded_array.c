// durbin: the solution y of the Yule-Walker system with the autocorrelations r, by Durbin's recursion.
// The solutions of all sizes are kept, one row of s for each (array expansion), and z with its copy loop is gone.
// Equal: row k reads row k - 1 where the original read y before the copy; the last row is the result.
#pragma affine context N >= 1
void durbin(int N, double r[N], double y[N]) {
  double s[N][N], alpha, beta, sum;
  int i, k;
  s[0][0] = -r[0];
  beta = 1.0;
  alpha = -r[0];
  for (k = 1; k < N; k++) {
    beta = (1.0 - alpha * alpha) * beta;
    sum = 0.0;
    for (i = 0; i < k; i++)
      sum += r[k - i - 1] * s[k - 1][i];
    alpha = -(r[k] + sum) / beta;
    for (i = 0; i < k; i++)
      s[k][i] = s[k - 1][i] + alpha * s[k - 1][k - i - 1];
    s[k][k] = alpha;
  }
  for (i = 0; i < N; i++)
    y[i] = s[N - 1][i];
}
