// The same questions, made by the same generator, asked of isl. For each family a line: its name, columns, how many questions are
// empty, and the microseconds that all of them took.
#include <isl/ctx.h>
#include <isl/options.h>
#include <isl/set.h>
#include <isl/map.h>
#include <isl/space.h>
#include <isl/local_space.h>
#include <isl/constraint.h>
#include <isl/val.h>
#include <stdint.h>
#include <stdio.h>
#include <stdlib.h>
#include <string.h>
#include <time.h>

static uint64_t state;
static uint64_t draw(void) {
  state = state * 6364136223846793005u + 1442695040888963407u;
  return state >> 33;
}
static long between(long low, long high) { return low + (long)(draw() % (uint64_t)(high - low + 1)); }

static isl_ctx *ctx;
static isl_local_space *space;
static isl_basic_set *set;
static int columns;

static void row(int equality, long constant, const long *coefs) {
  isl_constraint *c = equality ? isl_constraint_alloc_equality(isl_local_space_copy(space)) : isl_constraint_alloc_inequality(isl_local_space_copy(space));
  c = isl_constraint_set_constant_si(c, (int)constant);
  for (int k = 0; k < columns; k++) c = isl_constraint_set_coefficient_si(c, isl_dim_set, k, (int)coefs[k]);
  set = isl_basic_set_add_constraint(set, c);
}
static void open_question(void) {
  isl_space *s = isl_space_set_alloc(ctx, 0, columns);
  set = isl_basic_set_universe(isl_space_copy(s));
  space = isl_local_space_from_space(s);
}
// each column from 0 to `width`, then `rows` rows with coefficients from -`size` to `size`, the last an equality
static void dense(int rows, long size, long width) {
  long coefs[32];
  for (int k = 0; k < columns; k++) {
    memset(coefs, 0, sizeof coefs);
    coefs[k] = 1; row(0, 0, coefs);
    coefs[k] = -1; row(0, width, coefs);
  }
  for (int r = 0; r < rows; r++) {
    for (int k = 0; k < columns; k++) coefs[k] = between(-size, size);
    row(r == rows - 1, between(-3 * size, 3 * size), coefs);
  }
}
// `rows` rows s - t + c >= 0 with c from -1 to 20, every twelfth an equality
static void difference(int rows) {
  long coefs[32];
  for (int r = 0; r < rows; r++) {
    memset(coefs, 0, sizeof coefs);
    long s = between(0, columns), t = between(0, columns);
    if (s < columns) coefs[s] += 1;
    if (t < columns) coefs[t] -= 1;
    row(r % 12 == 11, between(-1, 20), coefs);
  }
}
// two elements i and j below N in tiles t and u: the columns are t, u, i, j and N; the distances of the elements and of the tiles are drawn
static void tiles(long tile) {
  row(0, 0, (long[]){-tile, 0, 1, 0, 0});
  row(0, tile - 1, (long[]){tile, 0, -1, 0, 0});
  row(0, 0, (long[]){0, -tile, 0, 1, 0});
  row(0, tile - 1, (long[]){0, tile, 0, -1, 0});
  row(0, 0, (long[]){0, 0, 1, 0, 0});
  row(0, -1, (long[]){0, 0, -1, 0, 1});
  row(0, 0, (long[]){0, 0, 0, 1, 0});
  row(0, -1, (long[]){0, 0, 0, -1, 1});
  row(0, between(-2 * tile, 2 * tile), (long[]){0, 0, 1, -1, 0});
  row(1, between(-1, 1), (long[]){1, -1, 0, 0, 0});
}
static double now(void) { struct timespec t; clock_gettime(CLOCK_MONOTONIC, &t); return t.tv_sec * 1e6 + t.tv_nsec / 1e3; }

static void family(const char *name, int n, int questions, int rows, long size, long width, long tile) {
  columns = n;
  state = (uint64_t)n * 1000u + (uint64_t)rows;
  double total = 0; int empty = 0;
  char *answers = malloc(questions + 1);
  for (int q = 0; q < questions; q++) {
    open_question();
    if (tile) tiles(tile); else if (size) dense(rows, size, width); else difference(rows);
    double start = now();
    int is = isl_basic_set_is_empty(set) == isl_bool_true;
    total += now() - start;
    empty += is;
    answers[q] = is ? 'e' : 'p';
    isl_basic_set_free(set); isl_local_space_free(space);
  }
  answers[questions] = 0;
  printf("%s %d %d %s %.0f\n", name, n, rows, answers, total * 1000);
  free(answers);
}
int main(void) {
  ctx = isl_ctx_alloc();
  isl_options_set_on_error(ctx, ISL_ON_ERROR_ABORT);
  for (int n = 4; n <= 8; n++) family("dense", n, 32, 4, 3, 12, 0);
  for (int n = 4; n <= 7; n++) family("steep", n, 32, 4, 9, 12, 0);
  for (int n = 10; n <= 25; n += 5) family("difference", n, 32, 3 * n, 0, 0, 0);
  family("tiles-of-4", 5, 32, 10, 0, 0, 4);
  family("tiles-of-16", 5, 32, 10, 0, 0, 16);
  family("tiles-of-64", 5, 32, 10, 0, 0, 64);
  isl_ctx_free(ctx);
}
