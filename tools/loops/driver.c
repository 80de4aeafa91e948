// driver KIND SIZE WHO: one call of one form on a pattern, inside `measured`; WHO is `bare` (without proofs) or `ours`, or a number of rounds in which both are timed.
// KIND is `grid` (SIZE by SIZE, five points) or `random` (SIZE columns, eight entries a row); both triangles stored, no diagonal, the least room.
#include <stdint.h>
#include <stdio.h>
#include <stdlib.h>
#include <string.h>
#include <time.h>

typedef struct { void *at; uint64_t length; } slice;
typedef void order(int32_t, slice *, slice *, slice *, slice *, slice *, slice *, double, _Bool, slice *);
extern order order_bare, order_ours;

static uint64_t state = 1;
static uint64_t draw(void) { state ^= state << 13; state ^= state >> 7; state ^= state << 17; return state; }

static int64_t *pairs;
static size_t count, room;
static void pair(int64_t n, int64_t i, int64_t j) {
  if (count + 2 > room) pairs = realloc(pairs, 8 * (room = 2 * room + 1024));
  pairs[count++] = i * n + j;
  pairs[count++] = j * n + i;
}
static int by_number(const void *a, const void *b) { int64_t x = *(int64_t *)a, y = *(int64_t *)b; return (x > y) - (x < y); }
static int by_time(const void *a, const void *b) { double x = *(double *)a, y = *(double *)b; return (x > y) - (x < y); }

typedef struct { slice permutation, inverse, out; } result;
static slice zeros(uint64_t n, size_t size) { return (slice){ calloc(n + 1, size), n }; }
static result fresh(uint64_t n) { return (result){ zeros(n, 4), zeros(n, 4), zeros(8, 8) }; }

// callgrind counts inside this function alone
__attribute__((noinline)) void measured(order *f, int32_t n, slice *pointers, slice *rows, slice *lists, slice *scratch, result *r) {
  f(n, pointers, rows, &r->permutation, &r->inverse, lists, scratch, 10.0, 1, &r->out);
}
static double now(void) { struct timespec t; clock_gettime(CLOCK_THREAD_CPUTIME_ID, &t); return t.tv_sec * 1e3 + t.tv_nsec / 1e6; }

int main(int argc, char **argv) {
  if (argc != 4) return 2;
  int64_t size = atoll(argv[2]), n = size;
  if (!strcmp(argv[1], "grid")) {
    n = size * size;
    for (int64_t v = 0; v < n; v++) {
      if ((v + 1) % size) pair(n, v, v + 1);
      if (v + size < n) pair(n, v, v + size);
    }
  } else
    for (int64_t t = 0; t < 4 * n; t++) {
      int64_t i = draw() % n, j = draw() % n;
      if (i != j) pair(n, i, j);
    }
  qsort(pairs, count, 8, by_number);
  slice pointers = zeros(n + 1, 4), rows = zeros(count, 4);
  int32_t *start = pointers.at, *row = rows.at;
  uint64_t nnz = 0;
  for (size_t t = 0; t < count; t++)
    if (t == 0 || pairs[t] != pairs[t - 1]) { start[pairs[t] / n + 1]++; row[nnz++] = pairs[t] % n; }
  for (int64_t i = 0; i < n; i++) start[i + 1] += start[i];
  rows.length = nnz;
  slice lists = zeros(2 * nnz + n, 8), scratch = zeros(17 * n + 16 + nnz, 8);
  result bare = fresh(n), ours = fresh(n);
  if (!strcmp(argv[3], "bare")) { measured(order_bare, n, &pointers, &rows, &lists, &scratch, &bare); return 0; }
  if (!strcmp(argv[3], "ours")) { measured(order_ours, n, &pointers, &rows, &lists, &scratch, &ours); return 0; }
  int rounds = atoi(argv[3]);
  double *tb = calloc(rounds, 8), *to = calloc(rounds, 8);
  for (int r = 0; r < rounds; r++) {
    double a = now();
    measured(order_bare, n, &pointers, &rows, &lists, &scratch, &bare);
    double b = now();
    measured(order_ours, n, &pointers, &rows, &lists, &scratch, &ours);
    tb[r] = b - a, to[r] = now() - b;
    if (memcmp(bare.permutation.at, ours.permutation.at, 4 * n) || memcmp(bare.inverse.at, ours.inverse.at, 4 * n) || memcmp(bare.out.at, ours.out.at, 64)) {
      puts("the two orderings differ");
      return 1;
    }
  }
  qsort(tb, rounds, 8, by_time), qsort(to, rounds, 8, by_time);
  printf("| %s, %s | %.1f | %.1f | %.2f |\n", argv[1], argv[2], tb[rounds / 2], to[rounds / 2], to[rounds / 2] / tb[rounds / 2]);
}
