// floyd-warshall: the lengths of the shortest paths between all pairs of N nodes, with each row taken backwards.
// Wrong: in turn k the columns after k then read path[i][k] before it goes through k, those before k after it.
// Different at [0][0] where N is 2 or more: in turn 1 it reads path[0][1], which took the old path[0][0] in turn 0.
void floyd_warshall(int N, int path[N][N]) {
  int i, j, k;
  for (k = 0; k < N; k++)
    for (i = 0; i < N; i++)
      for (j = N - 1; j >= 0; j--)
        path[i][j] = min(path[i][j], path[i][k] + path[k][j]);
}
