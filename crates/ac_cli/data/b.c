void f(int B[2], int C[1]) { C[0] = g(B[0], B[1]); }
