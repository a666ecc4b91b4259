/* A red-black relaxation of numbers: each node has rows of a grid, gets the rows beside them, and puts its own. The result is
 * that of one process alone, bit by bit. */
#include "example.h"
#include "ivy_native.h"

enum { PAGE = 512, N = 64, SWEEPS = 12, GRID = PAGE };

static double grid[N][N], alone[N][N];

static void fill(double to[N][N]) {
  for (int i = 0; i < N; i++)
    for (int j = 0; j < N; j++) to[i][j] = i == 0 ? 100 : j == 0 ? 50 : 0;
}

/* The points of one colour in some rows, each to the middle of those around it and a half more. */
static void relax(double g[N][N], int from, int to, int colour) {
  for (int i = from < 1 ? 1 : from; i < to && i < N - 1; i++)
    for (int j = 1 + (i + colour + 1) % 2; j < N - 1; j += 2)
      g[i][j] += 1.5 * ((g[i - 1][j] + g[i + 1][j] + g[i][j - 1] + g[i][j + 1]) / 4 - g[i][j]);
}

static uint64_t row(int i) { return GRID + (uint64_t)i * sizeof grid[0]; }

int main(int argc, char **argv) {
  example e;
  begin_example(&e, argc, argv, 1 + sizeof grid / PAGE, PAGE);
  int from = (int)(e.me * N / e.nodes), to = (int)((e.me + 1) * N / e.nodes);
  fill(grid);
  fill(alone);
  ivy_put(e.ivy, row(from), grid[from], (size_t)(to - from) * sizeof grid[0]);
  barrier(&e);
  for (int half = 0; half < 2 * SWEEPS; half++) {
    if (from > 0) ivy_get(e.ivy, row(from - 1), grid[from - 1], sizeof grid[0]);
    if (to < N) ivy_get(e.ivy, row(to), grid[to], sizeof grid[0]);
    relax(grid, from, to, half % 2);
    barrier(&e);
    ivy_put(e.ivy, row(from), grid[from], (size_t)(to - from) * sizeof grid[0]);
    barrier(&e);
    relax(alone, 0, N, half % 2);
  }
  ivy_get(e.ivy, row(0), grid, sizeof grid);
  expect(&e, "whether the grid is another one", memcmp(grid, alone, sizeof grid) != 0, 0);
  barrier(&e);
  if (e.me == 0) printf("relaxation: %.6f\n", grid[2][N / 2]);
  end_example(&e);
  return 0;
}
