/* A relaxation of a grid, red and black by turns: each process has a band of rows, and reads the rows beside it. */
#include "pointers.h"

enum { N = 256, SWEEPS = 10 };

typedef double grid[N][N];

static void fill(double (*g)[N]) {
  for (int i = 0; i < N; i++)
    for (int j = 0; j < N; j++) g[i][j] = i == 0 ? 100 : (double)((i * 7 + j * 3) % 11);
}

/* The cells of one colour in some rows. */
static void relax(double (*g)[N], int first, int last, int colour) {
  for (int i = first; i < last; i++)
    for (int j = 1 + (i + colour) % 2; j < N - 1; j += 2)
      g[i][j] += 0.4 * (g[i - 1][j] + g[i + 1][j] + g[i][j - 1] + g[i][j + 1] - 4 * g[i][j]);
}

int main(int argc, char **argv) {
  static grid alone;
  begin(argc, argv);
  double(*g)[N] = (double(*)[N])shared(sizeof(grid));
  if (me == 0) fill(g);
  ivy_map_barrier(ivy);
  int first = 1 + (int)((N - 2) * me / nodes), last = 1 + (int)((N - 2) * (me + 1) / nodes);
  for (int half = 0; half < 2 * SWEEPS; half++) {
    relax(g, first, last, half % 2);
    ivy_map_barrier(ivy);
  }
  fill(alone);
  for (int half = 0; half < 2 * SWEEPS; half++) relax(alone, 1, N - 1, half % 2);
  expect("the grid", !memcmp(g, alone, sizeof alone));
  return end();
}
