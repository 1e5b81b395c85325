// floyd-warshall: the lengths of the shortest paths between all pairs of N nodes, in place; min is a function.
// The loops over i and j are interchanged.
// Equal: (i, k) comes before (i, j) exactly where k < j, and (k, j) exactly where k < i, in both orders.
void floyd_warshall(int N, int path[N][N]) {
  int i, j, k;
  for (k = 0; k < N; k++)
    for (j = 0; j < N; j++)
      for (i = 0; i < N; i++)
        path[i][j] = min(path[i][j], path[i][k] + path[k][j]);
}
