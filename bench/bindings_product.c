/* The product of bindings/c/examples/product.c, and the same by MPI alone, by turns in the same processes: the same numbers,
 * the same loop, and the whole product at process 0 at the end. */
#define WITH_MPI
#define main example_main
#include "../bindings/c/examples/product.c"
#undef main

#ifndef MANAGER
#define MANAGER IVY_DYNAMIC
#endif

enum { ROUNDS = 21 };

static const char *const managers[] = { "fixed", "dynamic", "steady" };
static MPI_Comm beside; /* what is sent without Ivy, apart */
static uint8_t plain_right[N][N];
static uint16_t plain_product[N][N];

static void fill_plainly(uint32_t from, uint32_t to) {
  for (uint32_t i = from; i < to; i++)
    for (uint32_t j = 0; j < N; j++) {
      plain_product[i][j] = (uint16_t)left_at(i, j);
      plain_right[i][j] = (uint8_t)right_at(i, j);
    }
}

static void multiply_plainly(uint32_t from, uint32_t to) {
  uint16_t row[N];
  uint32_t sums[N];
  for (uint32_t i = from; i < to; i++) {
    memcpy(row, plain_product[i], sizeof row);
    memset(sums, 0, sizeof sums);
    for (uint32_t k = 0; k < N; k++)
      for (uint32_t j = 0; j < N; j++) sums[j] += (uint32_t)row[k] * plain_right[k][j];
    for (uint32_t j = 0; j < N; j++) plain_product[i][j] = (uint16_t)sums[j];
  }
}

static void multiply_all_plainly(uint32_t me, uint32_t nodes) {
  uint32_t from = me * N / nodes, to = (me + 1) * N / nodes;
  int part = (int)(N / nodes * N);
  fill_plainly(from, to);
  MPI_Allgather(MPI_IN_PLACE, 0, MPI_DATATYPE_NULL, plain_right, part, MPI_UINT8_T, beside);
  multiply_plainly(from, to);
  MPI_Gather(me ? (void *)plain_product[from] : MPI_IN_PLACE, part, MPI_UINT16_T, plain_product, part, MPI_UINT16_T, 0,
             beside);
}

/* Nobody goes on before all are here, and all serve until then. */
static void settle(example *e) {
  MPI_Request all;
  int is_over = 0;
  MPI_Ibarrier(beside, &all);
  while (!is_over) {
    ivy_progress_now(e->ivy);
    MPI_Test(&all, &is_over, MPI_STATUS_IGNORE);
  }
}

static int compare(const void *a, const void *b) {
  double x = *(const double *)a, y = *(const double *)b;
  return x < y ? -1 : x > y;
}

static double median(double *seconds) {
  qsort(seconds, ROUNDS, sizeof seconds[0], compare);
  return seconds[ROUNDS / 2];
}

int main(int argc, char **argv) {
  example e;
  double ours[ROUNDS], plainly[ROUNDS];
  char *words[] = { argv[0], argv[argc - 1], (char *)managers[MANAGER] };
  begin_example(&e, 3, words, 256, PAGE);
  MPI_Comm_dup(MPI_COMM_WORLD, &beside);
  if (N % e.nodes) MPI_Abort(MPI_COMM_WORLD, 2);
  for (int round = 0; round < ROUNDS; round++) {
    settle(&e);
    double begun = MPI_Wtime();
    multiply_all_plainly(e.me, e.nodes);
    plainly[round] = MPI_Wtime() - begun;
    settle(&e);
    begun = MPI_Wtime();
    multiply_all(&e);
    ours[round] = MPI_Wtime() - begun;
  }
  if (e.me == 0) check(&e);
  if (memcmp(product, plain_product, e.me == 0 ? sizeof product : 0)) MPI_Abort(MPI_COMM_WORLD, 1);
  double own = median(ours), other = median(plainly);
  if (e.me == 0)
    printf("MPI, a product of %d by %d by %u processes: %.2f ms, by MPI alone %.2f, ratio %.2f\n", N, N, e.nodes, own * 1e3,
           other * 1e3, own / other);
  end_example(&e);
  return 0;
}
