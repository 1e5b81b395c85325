void f(int B[3], int C[2]) {
  C[1] = h(C[0], B[2]);
  C[0] = g(B[0], B[1]);
}
