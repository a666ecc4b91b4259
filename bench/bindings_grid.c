/* A grid of numbers, each of which becomes the mean of its four neighbours, by two processes beside one without Ivy, by turns. A
 * process has half of the rows. It gets those of the other one that are next to its own, as many as it makes sweeps with them, in
 * one block; and then puts as many of its own. What is got and put lies on other pages by turns, so that nobody has to wait
 * before they write. */
#include "bindings_ahead.h"

enum { N = 512, ROW = N * sizeof(double), HALF = N / NODES, EDGE = 32, BLOCKS = 4, ROUNDS = 11 };
enum { PAGES = 1 + 2 * NODES * EDGE * ROW / PAGE };
enum { OFF, ON, ALONE, WAYS };

static double grid[2][N][N], first[N][N], result[N][N];
static ivy_process *form[2];
static uint64_t meetings[2];

/* So many sweeps, of which each needs one row less at its ends, where these are none of the grid's. */
static void sweep(int from, int to, int many) {
  for (int s = 0; s < many; s++) {
    double(*old)[N] = grid[s % 2], (*new)[N] = grid[!(s % 2)];
    int low = from ? from - many + s + 1 : 1, high = to < N ? to + many - s - 1 : N - 1;
    for (int i = low; i < high; i++)
      for (int j = 1; j < N - 1; j++) new[i][j] = (old[i - 1][j] + old[i + 1][j] + old[i][j - 1] + old[i][j + 1]) / 4;
  }
}

/* The rows of a process that are next to the other one's, of one turn or the other. */
static uint64_t place_of(uint32_t node, int turn) { return PAGE + ((uint64_t)(turn % 2) * NODES + node) * EDGE * ROW; }

static void by_two(int k) {
  ivy_process *ivy = form[k];
  int from = (int)me * HALF, own = me ? HALF : HALF - EDGE, other = me ? HALF - EDGE : HALF;
  for (int turn = 0; turn < BLOCKS; turn++) {
    ivy_put(ivy, place_of(me, turn), grid[0][own], EDGE * ROW);
    meet(ivy, &meetings[k]);
    ivy_get(ivy, place_of(!me, turn), grid[0][other], EDGE * ROW);
    sweep(from, from + HALF, EDGE);
  }
  meet(ivy, &meetings[k]);
}

static void by_one(void) {
  for (int block = 0; block < BLOCKS && !me; block++) sweep(0, N, EDGE);
}

static double time_of(int way) {
  memcpy(grid[0], first, sizeof first);
  memcpy(grid[1], first, sizeof first);
  meet(form[ON], &meetings[ON]);
  double begun = now_us();
  if (way == ALONE) by_one();
  else by_two(way);
  double took = now_us() - begun;
  if (way == ALONE) memcpy(result, grid[0], sizeof result);
  meet(form[ON], &meetings[ON]);
  return took;
}

int main(int argc, char **argv) {
  static double took[WAYS][ROUNDS];
  begin_both(argc, argv);
  form[OFF] = join_with("0", PAGES);
  form[ON] = join_with("7", PAGES);
  for (int j = 0; j < N; j++) first[0][j] = 100 + j % 7;
  for (int i = 0; i < ROUNDS; i++) {
    took[ALONE][i] = time_of(ALONE);
    for (int way = OFF; way <= ON; way++) {
      took[way][i] = time_of(way);
      if (!me && memcmp(grid[0], result, HALF * ROW)) wrong("the grid is another one");
    }
  }
  if (!me) {
    double alone = median_of(took[ALONE], ROUNDS), off = median_of(took[OFF], ROUNDS), on = median_of(took[ON], ROUNDS);
    printf("%s: a grid of %d by %d, %d sweeps by two processes %.2f ms, with none fetched ahead %.2f, by one process %.2f, ratio %.2f\n", by, N,
           N, BLOCKS * EDGE, on / 1e3, off / 1e3, alone / 1e3, on / alone);
  }
  fflush(stdout);
  for (int i = 0; i < 2; i++) ivy_leave(form[i]);
  return end_both();
}
