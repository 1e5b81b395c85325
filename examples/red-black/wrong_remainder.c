// red-black: T sweeps of a mean over a row, in place.
// Wrong: the remainders are exchanged, so that the odd elements come first.
// Different where T is 1 or more and N is 4 or more, first at [1]: it reads the old [2].
void red_black(int T, int N, double A[N]) {
  int t, i;
  for (t = 0; t < T; t++) {
    for (i = 1; i < N - 1; i++)
      if ((i + 1) % 2 == 0)
        A[i] = 0.5 * (A[i - 1] + A[i + 1]);
    for (i = 1; i < N - 1; i++)
      if (i % 2 == 0)
        A[i] = 0.5 * (A[i - 1] + A[i + 1]);
  }
}
