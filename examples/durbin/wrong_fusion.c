// durbin: the solution y of the Yule-Walker system, with the copy of z fused into the loop that forms it.
// Wrong: y[i] and y[k - i - 1] read each other's old values, and the copy overwrites the first one too early.
// Different at [1] for N = 3, and for a greater N from [0] on, since the next alpha is another one.
#pragma affine context N >= 1
void durbin(int N, double r[N], double y[N]) {
  double z[N], alpha, beta, sum;
  int i, k;
  y[0] = -r[0];
  beta = 1.0;
  alpha = -r[0];
  for (k = 1; k < N; k++) {
    beta = (1.0 - alpha * alpha) * beta;
    sum = 0.0;
    for (i = 0; i < k; i++)
      sum += r[k - i - 1] * y[i];
    alpha = -(r[k] + sum) / beta;
    for (i = 0; i < k; i++) {
      z[i] = y[i] + alpha * y[k - i - 1];
      y[i] = z[i];
    }
    y[k] = alpha;
  }
}
