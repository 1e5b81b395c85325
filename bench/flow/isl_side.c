// Exact dataflow of a kernel by isl, from the relations of model.py.
//
// isl_side MODEL          computes it and prints it, then, on the error output, the microseconds of the computation alone
// isl_side MODEL FLOW     compares it with the relations of flowtext.py: prints a line for each that differs, and then how many relations were compared;
//                         the status is 1 where some differ, 2 where something was not understood
//
// Each read is a statement of its own, which happens at the time of its assignment before the write, so that what is found for it is told apart.
#define _POSIX_C_SOURCE 200809L
#include <isl/ctx.h>
#include <isl/flow.h>
#include <isl/id.h>
#include <isl/map.h>
#include <isl/options.h>
#include <isl/set.h>
#include <isl/space.h>
#include <isl/union_map.h>
#include <isl/union_set.h>
#include <stdio.h>
#include <stdlib.h>
#include <string.h>
#include <time.h>

static isl_ctx *ctx;
static isl_union_map *reads, *writes, *times, *sources, *initial;
static isl_union_set *domains, *turns;

static void stop(const char *what, const char *line) {
  fprintf(stderr, "%s: %s\n", what, line);
  exit(2);
}

static isl_union_map *joined(isl_union_map *all, const char *text) {
  isl_union_map *one = isl_union_map_read_from_str(ctx, text);
  if (!one) stop("not understood", text);
  return all ? isl_union_map_union(all, one) : one;
}

static isl_union_set *joined_set(isl_union_set *all, const char *text) {
  isl_union_set *one = isl_union_set_read_from_str(ctx, text);
  if (!one) stop("not understood", text);
  return all ? isl_union_set_union(all, one) : one;
}

// The text behind a word and a blank at the start of the line, or null.
static const char *behind(const char *line, const char *word) {
  size_t length = strlen(word);
  return strncmp(line, word, length) == 0 && line[length] == ' ' ? line + length + 1 : NULL;
}

static void read_model(const char *name) {
  FILE *file = fopen(name, "r");
  char *line = NULL;
  size_t room = 0;
  const char *rest;
  if (!file) stop("not read", name);
  while (getline(&line, &room, file) >= 0) {
    if ((rest = behind(line, "read"))) reads = joined(reads, rest);
    else if ((rest = behind(line, "write"))) writes = joined(writes, rest);
    else if ((rest = behind(line, "schedule"))) times = joined(times, rest);
    else stop("not understood", line);
  }
  free(line);
  fclose(file);
}

static double now(void) {
  struct timespec t;
  clock_gettime(CLOCK_PROCESS_CPUTIME_ID, &t);
  return t.tv_sec * 1e6 + t.tv_nsec / 1e3;
}

// Last writes before each read, and the reads that none precedes; where it is checked, no write may be uncertain.
static double compute(int checked) {
  double start = now();
  if (!reads) {
    sources = isl_union_map_empty(isl_space_params_alloc(ctx, 0));
    initial = isl_union_map_copy(sources);
    return 0;
  }
  isl_union_access_info *info = isl_union_access_info_from_sink(isl_union_map_copy(reads));
  info = isl_union_access_info_set_must_source(info, isl_union_map_copy(writes));
  info = isl_union_access_info_set_schedule_map(info, isl_union_map_copy(times));
  isl_union_flow *flow = isl_union_access_info_compute_flow(info);
  sources = isl_union_flow_get_must_dependence(flow);
  initial = isl_union_flow_get_must_no_source(flow);
  double took = now() - start;
  if (!sources || !initial) stop("isl gives no dataflow", "");
  if (checked) {
    isl_union_map *may = isl_union_flow_get_may_dependence(flow);
    if (isl_union_map_is_subset(may, sources) != isl_bool_true) stop("isl gives no exact dataflow", "");
    isl_union_map_free(may);
  }
  isl_union_flow_free(flow);
  return took;
}

static int compared, differing;

static void show(const char *head, isl_union_map *relation) {
  relation = isl_union_map_coalesce(relation);
  char *text = isl_union_map_to_str(relation);
  printf("  %s: %s\n", head, text ? text : "an error");
  free(text);
  isl_union_map_free(relation);
}

static void say(const char *what, isl_union_map *ours, isl_union_map *theirs) {
  compared++;
  if (isl_union_map_is_equal(ours, theirs) == isl_bool_true) return;
  differing++;
  printf("%s\n", what);
  show("of flow only", isl_union_map_subtract(isl_union_map_copy(ours), isl_union_map_copy(theirs)));
  show("of isl only", isl_union_map_subtract(isl_union_map_copy(theirs), isl_union_map_copy(ours)));
}

// Takes away from a union of relations those of a statement that reads, and of one that writes where one is named.
static const char *wanted_reader, *wanted_writer;
static isl_union_map *taken, *left;

static isl_stat sort(isl_map *map, void *user) {
  (void)user;
  const char *writer = isl_map_get_tuple_name(map, isl_dim_in);
  const char *reader = isl_map_get_tuple_name(map, isl_dim_out);
  isl_union_map *one = isl_union_map_from_map(map);
  if (strcmp(writer, wanted_writer) == 0 && strcmp(reader, wanted_reader) == 0) taken = isl_union_map_union(taken, one);
  else left = isl_union_map_union(left, one);
  return isl_stat_ok;
}

// What is left of the union in `all` once the relations from writer to reader are taken; these stand in `taken`.
static isl_union_map *without(isl_union_map *all, const char *writer, const char *reader) {
  isl_space *space = isl_union_map_get_space(all);
  wanted_writer = writer;
  wanted_reader = reader;
  taken = isl_union_map_empty(isl_space_copy(space));
  left = isl_union_map_empty(space);
  isl_union_map_foreach_map(all, sort, NULL);
  isl_union_map_free(all);
  return left;
}

// A set of reads as a relation from the initial contents.
static isl_union_map *from_contents(isl_union_set *set) {
  isl_union_set *contents = isl_union_set_read_from_str(ctx, "{ Initial[] }");
  return isl_union_map_from_domain_and_range(contents, set);
}

// Compares each line of the file with isl's relation, then what no line is for.
static void compare(const char *name) {
  FILE *file = fopen(name, "r");
  char *line = NULL;
  size_t room = 0;
  if (!file) stop("not read", name);
  isl_union_map *theirs = isl_union_map_union(isl_union_map_copy(sources), from_contents(isl_union_map_domain(isl_union_map_copy(initial))));
  while (getline(&line, &room, file) >= 0) {
    char reader[32], writer[32] = "Initial", what[100];
    const char *rest;
    int length = 0;
    isl_union_map *ours;
    if ((rest = behind(line, "domain"))) {
      domains = joined_set(domains, rest);
      continue;
    }
    if ((rest = behind(line, "turns"))) {
      turns = joined_set(turns, rest);
      continue;
    }
    if (sscanf(line, "from %31s %31s %n", reader, writer, &length) == 2 && length) ours = joined(NULL, line + length);
    else if (sscanf(line, "initial %31s %n", reader, &length) == 1 && length) ours = from_contents(joined_set(NULL, line + length));
    else stop("not understood", line);
    snprintf(what, sizeof what, "%s, from %s", reader, writer);
    theirs = without(theirs, writer, reader);
    say(what, ours, taken);
    if (isl_union_map_is_empty(ours) == isl_bool_true) {
      differing++;
      printf("%s: printed, and nowhere the source\n", what);
    }
    isl_union_map_free(ours);
    isl_union_map_free(taken);
  }
  isl_union_map *none = isl_union_map_empty(isl_union_map_get_space(theirs));
  say("no line", none, theirs);
  isl_union_map_free(none);
  isl_union_map_free(theirs);
  free(line);
  fclose(file);
  compared++;
  if (domains && isl_union_set_is_equal(domains, turns) != isl_bool_true) {
    differing++;
    printf("the turns of the loops\n");
    show("by their bounds", isl_union_set_identity(isl_union_set_copy(domains)));
    show("one by one", isl_union_set_identity(isl_union_set_copy(turns)));
  }
  printf("compared %d\n", compared);
}

int main(int words, char **word) {
  if (words < 2 || words > 3) return 2;
  ctx = isl_ctx_alloc();
  isl_options_set_on_error(ctx, ISL_ON_ERROR_WARN);
  read_model(word[1]);
  double took = compute(words == 3);
  if (words == 3) {
    compare(word[2]);
  } else {
    char *text = isl_union_map_to_str(sources), *rest = isl_union_map_to_str(initial);
    printf("%s\n%s\n", text, rest);
    free(text);
    free(rest);
    fprintf(stderr, "%.0f\n", took);
  }
  isl_union_map_free(reads);
  isl_union_map_free(writes);
  isl_union_map_free(times);
  isl_union_map_free(sources);
  isl_union_map_free(initial);
  isl_union_set_free(domains);
  isl_union_set_free(turns);
  isl_ctx_free(ctx);
  return differing > 0;
}
