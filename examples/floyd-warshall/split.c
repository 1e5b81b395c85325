// floyd-warshall: the lengths of the shortest paths between all pairs of N nodes, in place; min is a function.
// The columns are split at k: those before it, column k itself, and those after it.
// Equal: the three parts come in the order of j.
void floyd_warshall(int N, int path[N][N]) {
  int i, j, k;
  for (k = 0; k < N; k++)
    for (i = 0; i < N; i++) {
      for (j = 0; j < k; j++)
        path[i][j] = min(path[i][j], path[i][k] + path[k][j]);
      path[i][k] = min(path[i][k], path[i][k] + path[k][k]);
      for (j = k + 1; j < N; j++)
        path[i][j] = min(path[i][j], path[i][k] + path[k][j]);
    }
}
