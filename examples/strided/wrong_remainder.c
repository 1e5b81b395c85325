// strided: of the elements from M on C takes every third one from B.
// Wrong: the test asks for another remainder, so that the elements behind the multiples are assigned.
// Different at the first element from M on, and not before [0], whose index leaves the remainder 0 or 1.
void strided(int M, int N, double B[N], double C[N]) {
  for (int i = M; i < N; i++)
    if ((i - 1) % 3 == 0)
      C[i] = g(B[i]);
}
