// durbin: the solution y of the Yule-Walker system with the autocorrelations r, by Durbin's recursion.
// The scalars alpha, beta and sum become arrays with one element per turn.
// Equal: a turn reads the elements of the turn before where it read the scalars' old values.
#pragma affine context N >= 1
void durbin(int N, double r[N], double y[N]) {
  double z[N], alpha[N], beta[N], sum[N];
  int i, k;
  y[0] = -r[0];
  beta[0] = 1.0;
  alpha[0] = -r[0];
  for (k = 1; k < N; k++) {
    beta[k] = (1.0 - alpha[k - 1] * alpha[k - 1]) * beta[k - 1];
    sum[k] = 0.0;
    for (i = 0; i < k; i++)
      sum[k] += r[k - i - 1] * y[i];
    alpha[k] = -(r[k] + sum[k]) / beta[k];
    for (i = 0; i < k; i++)
      z[i] = y[i] + alpha[k] * y[k - i - 1];
    for (i = 0; i < k; i++)
      y[i] = z[i];
    y[k] = alpha[k];
  }
}
