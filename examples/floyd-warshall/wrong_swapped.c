// floyd-warshall: the lengths of the shortest paths between all pairs of N nodes, in place; min is a function.
// Wrong: the arguments of min are exchanged, and nothing says that min is commutative.
// Different at the first element.
void floyd_warshall(int N, int path[N][N]) {
  int i, j, k;
  for (k = 0; k < N; k++)
    for (i = 0; i < N; i++)
      for (j = 0; j < N; j++)
        path[i][j] = min(path[i][k] + path[k][j], path[i][j]);
}
