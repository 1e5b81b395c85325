// durbin: the solution y of the Yule-Walker system with the autocorrelations r, by Durbin's recursion.
// The loop over k starts at 0, with k + 1 in place of k in every bound and subscript.
// Equal: each turn does what the turn before it did.
#pragma affine context N >= 1
void durbin(int N, double r[N], double y[N]) {
  double z[N], alpha, beta, sum;
  int i, k;
  y[0] = -r[0];
  beta = 1.0;
  alpha = -r[0];
  for (k = 0; k < N - 1; k++) {
    beta = (1.0 - alpha * alpha) * beta;
    sum = 0.0;
    for (i = 0; i <= k; i++)
      sum += r[k - i] * y[i];
    alpha = -(r[k + 1] + sum) / beta;
    for (i = 0; i <= k; i++)
      z[i] = y[i] + alpha * y[k - i];
    for (i = 0; i <= k; i++)
      y[i] = z[i];
    y[k + 1] = alpha;
  }
}
