/* What pages fetched ahead save: a sweep by ivy_read of many pages that the other process has, which waits, or computes; and a
 * product of matrices, of which one operand's pages come from the other process, while both compute. By turns in two memories
 * of the same two processes, in one of which none is fetched. */
#include "bindings_ahead.h"

enum { N = 1024, ROW = N * sizeof(double), BLOCK = 32, RIGHT = 8, SWEPT = 256, PAGES = 1 + N * ROW / PAGE, ROUNDS = 21, PRODUCTS = 7 };
enum { OFF, ON, WAITS = 0, COMPUTES };

typedef struct { double took[2][ROUNDS]; ivy_counts counts[2]; } samples;

static ivy_process *form[2];
static uint64_t meetings[2];
static double block[BLOCK][N], own[N / NODES][N], sums[N / NODES][N];
static uint8_t bytes[SWEPT * PAGE];

/* ---- A sweep ----------------------------------------------------------------------------------------------------------- */

/* Node 0 has written all pages, and waits for the end in a call, or looks for it now and then. */
static void let_sweep(ivy_process *ivy, uint64_t last, int how) {
  static volatile double sum;
  while (how == COMPUTES && ivy_count(ivy, 0) + 1 < last)
    for (double until = now_us() + 1000; now_us() < until;) sum += 1;
}

static void sweep(int k, int round, int how, samples *s) {
  ivy_process *ivy = form[k];
  memset(bytes, round, me ? 0 : sizeof bytes);
  if (!me) ivy_write(ivy, PAGE, bytes, sizeof bytes);
  meet(ivy, &meetings[k]);
  if (me) {
    ivy_counts before = ivy_counts_of(ivy);
    double begun = now_us();
    ivy_read(ivy, PAGE, bytes, sizeof bytes);
    s->took[k][round] = now_us() - begun;
    s->counts[k] = ivy_counts_of(ivy);
    s->counts[k].sent -= before.sent;
    s->counts[k].misses -= before.misses;
    for (size_t i = 0; i < sizeof bytes; i++)
      if (bytes[i] != round) wrong("a byte of a sweep is wrong");
  } else {
    let_sweep(ivy, NODES * (meetings[k] + 1), how);
  }
  meet(ivy, &meetings[k]);
}

static void tell(const char *what, samples *s, int many) {
  double off = median_of(s->took[OFF], many), on = median_of(s->took[ON], many);
  printf("%s: %s %.2f ms, with none fetched ahead %.2f, ratio %.2f; strings sent %llu and %llu, waits %llu and %llu\n", by, what, on / 1e3,
         off / 1e3, on / off, (unsigned long long)s->counts[ON].sent, (unsigned long long)s->counts[OFF].sent,
         (unsigned long long)s->counts[ON].misses, (unsigned long long)s->counts[OFF].misses);
}

/* ---- A product ---------------------------------------------------------------------------------------------------------- */

static double left_at(uint32_t i, uint32_t j) { return (i * 7 + j * 3) % 10; }
static double right_at(uint32_t i, uint32_t j, int round) { return (i * 5 + j * 11 + (uint32_t)round) % 10; }
static uint64_t place_of(uint32_t row) { return PAGE + (uint64_t)row * ROW; }

/* Node 0 has all of the right operand. */
static void fill(ivy_process *ivy, int round) {
  for (uint32_t i = 0; i < N; i++) {
    for (uint32_t j = 0; j < N; j++) block[0][j] = right_at(i, j, round);
    ivy_put(ivy, place_of(i), block[0], ROW);
  }
}

/* One row of the product, by some rows of the right operand. */
static void add_row(double *restrict to, const double *left, const double (*restrict right)[N]) {
  const double a = left[0], b = left[1], c = left[2], d = left[3], e = left[4], f = left[5], g = left[6], h = left[7];
  for (uint32_t j = 0; j < N; j++)
    to[j] += a * right[0][j] + b * right[1][j] + c * right[2][j] + d * right[3][j] + e * right[4][j] + f * right[5][j] + g * right[6][j] + h * right[7][j];
}

/* A process's rows of the product, by blocks of rows of the right operand, of which the next one comes meanwhile. */
static void multiply(ivy_process *ivy) {
  memset(sums, 0, sizeof sums);
  for (uint32_t from = 0; from < N; from += BLOCK) {
    ivy_get(ivy, place_of(from), block, sizeof block);
    for (uint32_t i = 0; i < N / NODES; i++) {
      if (i % BLOCK == 0 && from + BLOCK < N) ivy_prefetch(ivy, place_of(from + BLOCK), sizeof block);
      for (uint32_t k = 0; k < BLOCK; k += RIGHT) add_row(sums[i], &own[i][from + k], (const double(*)[N]) & block[k]);
    }
  }
}

static void check(int round) {
  for (uint32_t i = 0; i < N / NODES; i += 101)
    for (uint32_t j = 0; j < N; j += 97) {
      double sum = 0;
      for (uint32_t k = 0; k < N; k++) sum += own[i][k] * right_at(k, j, round);
      if (sums[i][j] != sum) wrong("a number of the product is wrong");
    }
}

static void multiply_both(int k, int round, samples *s) {
  ivy_process *ivy = form[k];
  if (!me) fill(ivy, round);
  meet(ivy, &meetings[k]);
  ivy_counts before = ivy_counts_of(ivy);
  double begun = now_us();
  multiply(ivy);
  s->took[k][round] = now_us() - begun;
  s->counts[k] = ivy_counts_of(ivy);
  s->counts[k].sent -= before.sent;
  s->counts[k].misses -= before.misses;
  meet(ivy, &meetings[k]);
  check(round);
}

int main(int argc, char **argv) {
  static samples swept[2], multiplied;
  begin_both(argc, argv);
  form[OFF] = join_with("0", PAGES);
  form[ON] = join_with("7", PAGES);
  for (uint32_t i = 0; i < N / NODES; i++)
    for (uint32_t j = 0; j < N; j++) own[i][j] = left_at(me * N / NODES + i, j);
  for (int i = 0; i < 2 * ROUNDS; i++) sweep(i % 2, i / 2, WAITS, &swept[WAITS]);
  for (int i = 0; i < 2 * ROUNDS; i++) sweep(i % 2, i / 2, COMPUTES, &swept[COMPUTES]);
  for (int i = 0; i < 2 * PRODUCTS; i++) multiply_both(i % 2, i / 2, &multiplied);
  if (me) {
    tell("a sweep of 256 pages, whose owner waits", &swept[WAITS], ROUNDS);
    tell("a sweep of 256 pages, whose owner computes", &swept[COMPUTES], ROUNDS);
    tell("a product of 1,024 by blocks, of which one operand comes from the other process, which computes too", &multiplied, PRODUCTS);
  }
  fflush(stdout);
  for (int i = 0; i < 2; i++) ivy_leave(form[i]);
  return end_both();
}
