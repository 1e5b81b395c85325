// durbin: the solution y of the Yule-Walker system, by Durbin's recursion.
// Wrong: sum starts at 0.0 before the loop over k alone, and from turn 2 on the sum of the turn before is still in it.
// Different at the first element where N is 3 or more, since every element takes the newest alpha.
#pragma affine context N >= 1
void durbin(int N, double r[N], double y[N]) {
  double z[N], alpha, beta, sum;
  int i, k;
  y[0] = -r[0];
  beta = 1.0;
  alpha = -r[0];
  sum = 0.0;
  for (k = 1; k < N; k++) {
    beta = (1.0 - alpha * alpha) * beta;
    for (i = 0; i < k; i++)
      sum += r[k - i - 1] * y[i];
    alpha = -(r[k] + sum) / beta;
    for (i = 0; i < k; i++)
      z[i] = y[i] + alpha * y[k - i - 1];
    for (i = 0; i < k; i++)
      y[i] = z[i];
    y[k] = alpha;
  }
}
