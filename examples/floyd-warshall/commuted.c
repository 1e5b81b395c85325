// floyd-warshall: the lengths of the shortest paths between all pairs of N nodes, in place; min is a function.
// The arguments of min and the parts of the sum are exchanged; the line above declares both as commutative.
// Equal by this declaration.
#pragma affine commutative min +
void floyd_warshall(int N, int path[N][N]) {
  int i, j, k;
  for (k = 0; k < N; k++)
    for (i = 0; i < N; i++)
      for (j = 0; j < N; j++)
        path[i][j] = min(path[k][j] + path[i][k], path[i][j]);
}
