// Asks isl the questions of standard input, one by one. For each a line: `e` if it has no point, else `p`, and the nanoseconds from the matrices of its rows to
// the answer, the least of three runs. A divisibility `m divides e` is asked as `e = m q` with a column q of its own. With a word behind its name it prints
// the version of isl instead.
#include <isl/ctx.h>
#include <isl/mat.h>
#include <isl/options.h>
#include <isl/set.h>
#include <isl/space.h>
#include <isl/val.h>
#include <isl/version.h>
#include <stdio.h>
#include <stdlib.h>
#include <string.h>
#include <time.h>

enum { RUNS = 3, MOST_ROWS = 4096, MOST_NUMBERS = 512, MOST_BYTES = 1 << 16 };

typedef struct {
  char kind; // the first letter of `eq`, `ge` and `div`
  long modulus, numbers[MOST_NUMBERS];
} Row;

static isl_ctx *ctx;
static Row rows[MOST_ROWS];
static int row_count, columns, divisibilities;
static char line[MOST_BYTES];

static void refuse(const char *why) {
  fprintf(stderr, "%s\n", why);
  exit(2);
}

static isl_mat *set(isl_mat *mat, int row, int column, long number) {
  return isl_mat_set_element_val(mat, row, column, isl_val_int_from_si(ctx, number));
}

// The rows of a kind, or all but those of bounds: a constant, the columns, and a column for each divisibility.
static isl_mat *matrix(int of_bounds) {
  int count = 0, next = 0, quotient = 0;
  for (int r = 0; r < row_count; r++) count += (rows[r].kind == 'g') == of_bounds;
  isl_mat *mat = isl_mat_alloc(ctx, count, 1 + columns + divisibilities);
  for (int r = 0; r < row_count; r++) {
    int own = rows[r].kind == 'd' ? quotient++ : -1;
    if ((rows[r].kind == 'g') != of_bounds) continue;
    for (int k = 0; k <= columns; k++) mat = set(mat, next, k, rows[r].numbers[k]);
    for (int q = 0; q < divisibilities; q++) mat = set(mat, next, 1 + columns + q, q == own ? -rows[r].modulus : 0);
    next++;
  }
  return mat;
}

static double nanoseconds(void) {
  struct timespec now;
  clock_gettime(CLOCK_MONOTONIC, &now);
  return now.tv_sec * 1e9 + now.tv_nsec;
}

static void answer(void) {
  isl_mat *equalities = matrix(0), *bounds = matrix(1);
  isl_space *space = isl_space_set_alloc(ctx, 0, columns + divisibilities);
  double least = 0;
  isl_bool empty = isl_bool_error;
  for (int run = 0; run < RUNS; run++) {
    isl_space *own_space = isl_space_copy(space);
    isl_mat *eq = isl_mat_copy(equalities), *ge = isl_mat_copy(bounds);
    double start = nanoseconds();
    isl_basic_set *all = isl_basic_set_from_constraint_matrices(own_space, eq, ge, isl_dim_cst, isl_dim_param, isl_dim_set, isl_dim_div);
    empty = isl_basic_set_is_empty(all);
    double spent = nanoseconds() - start;
    isl_basic_set_free(all);
    if (run == 0 || spent < least) least = spent;
  }
  isl_mat_free(equalities);
  isl_mat_free(bounds);
  isl_space_free(space);
  if (empty == isl_bool_error) refuse("isl gives no answer");
  printf("%c %.0f\n", empty == isl_bool_true ? 'e' : 'p', least);
}

// Takes a line `KIND modulus constant coefficient..` as the next row.
static void take_row(void) {
  if (row_count == MOST_ROWS) refuse("too many rows");
  Row *row = &rows[row_count++];
  char *word = strtok(line, " \n");
  row->kind = word[0];
  row->modulus = strtol(strtok(NULL, " \n"), NULL, 10);
  divisibilities += row->kind == 'd';
  for (int k = 0; k <= columns; k++) {
    word = strtok(NULL, " \n");
    row->numbers[k] = word ? strtol(word, NULL, 10) : 0;
  }
}

int main(int words, char **unused) {
  (void)unused;
  if (words > 1) return fputs(isl_version(), stdout) < 0;
  int is_open = 0;
  ctx = isl_ctx_alloc();
  isl_options_set_on_error(ctx, ISL_ON_ERROR_ABORT);
  while (fgets(line, sizeof line, stdin)) {
    if (line[0] != 'Q') {
      take_row();
      continue;
    }
    if (is_open) answer();
    is_open = 1;
    row_count = divisibilities = 0;
    if (sscanf(line, "Q %*s %*s %d", &columns) != 1 || columns < 0 || columns >= MOST_NUMBERS) refuse("a line is no question");
  }
  if (is_open) answer();
  isl_ctx_free(ctx);
  return 0;
}
