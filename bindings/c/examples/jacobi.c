/* A sweep of a grid, whose upper edge is hot: each number becomes the mean of its four neighbours. The picture, jacobi.pgm,
 * is the grid after the last sweep, which node 0 compares with its own. */
#include "example.h"

enum { N = 64, SWEEPS = 40, PAGE = 1024, HOT = 1000000, GRID = PAGE, ROW = 4 * N };

static uint64_t place(uint32_t sweep, uint32_t i, uint32_t j) {
  return GRID + (uint64_t)(sweep % 2) * N * ROW + (uint64_t)i * ROW + 4u * j;
}

static int is_edge(uint32_t i, uint32_t j) { return i == 0 || j == 0 || i == N - 1 || j == N - 1; }

static uint32_t own[2][N][N];

static void sweep_alone(void) {
  memset(own, 0, sizeof own);
  for (uint32_t j = 0; j < N; j++) own[0][0][j] = own[1][0][j] = HOT;
  for (uint32_t s = 0; s < SWEEPS; s++)
    for (uint32_t i = 1; i < N - 1; i++)
      for (uint32_t j = 1; j < N - 1; j++) {
        uint32_t(*from)[N] = own[s % 2];
        own[(s + 1) % 2][i][j] = (from[i - 1][j] + from[i + 1][j] + from[i][j - 1] + from[i][j + 1]) / 4;
      }
}

static uint32_t at(example *e, uint32_t sweep, uint32_t i, uint32_t j) {
  return (uint32_t)ivy_load(e->ivy, 4, place(sweep, i, j));
}

static void sweep(example *e, uint32_t s, uint32_t from, uint32_t to) {
  for (uint32_t i = from; i < to; i++)
    for (uint32_t j = 0; j < N; j++)
      if (!is_edge(i, j))
        ivy_store(e->ivy, 4, place(s + 1, i, j),
                  (at(e, s, i - 1, j) + at(e, s, i + 1, j) + at(e, s, i, j - 1) + at(e, s, i, j + 1)) / 4);
}

static void draw(example *e) {
  FILE *picture = fopen("jacobi.pgm", "w");
  sweep_alone();
  if (picture) fprintf(picture, "P2\n%d %d\n255\n", N, N);
  for (uint32_t i = 0; i < N; i++)
    for (uint32_t j = 0; j < N; j++) {
      uint32_t number = at(e, SWEEPS, i, j);
      expect(e, "a number of the grid", number, own[SWEEPS % 2][i][j]);
      if (picture) fprintf(picture, "%u%c", (unsigned)((uint64_t)number * 255 / HOT), j == N - 1 ? '\n' : ' ');
    }
  if (picture) fclose(picture);
}

int main(int argc, char **argv) {
  example e;
  begin_example(&e, argc, argv, 40, PAGE);
  for (uint32_t j = e.me; j < N; j += e.nodes) {
    ivy_store(e.ivy, 4, place(0, 0, j), HOT);
    ivy_store(e.ivy, 4, place(1, 0, j), HOT);
  }
  barrier(&e);
  for (uint32_t s = 0; s < SWEEPS; s++) {
    sweep(&e, s, e.me * N / e.nodes, (e.me + 1) * N / e.nodes);
    barrier(&e);
  }
  if (e.me == 0) draw(&e);
  if (e.me == 0) printf("jacobi: %d sweeps\n", SWEEPS);
  end_example(&e);
  return 0;
}
