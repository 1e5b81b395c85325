// floyd-warshall: the lengths of the shortest paths between all pairs of N nodes, in place; min is a function.
// The original: in turn k each path may also go through node k.
void floyd_warshall(int N, int path[N][N]) {
  int i, j, k;
  for (k = 0; k < N; k++)
    for (i = 0; i < N; i++)
      for (j = 0; j < N; j++)
        path[i][j] = min(path[i][j], path[i][k] + path[k][j]);
}
