/* A product of matrices by blocks: 512 by 512 numbers. The heap of 255 pages of 4,096 bytes has no room for three matrices,
 * so the product takes the place of the left one, of numbers of 16 bits; the right one is of digits of 8 bits. They are read
 * and written in blocks alone, so their bytes lie as this machine has them. */
#include "example.h"

enum { N = 512, PAGE = 4096, RIGHT = PAGE, LEFT = RIGHT + N * N, ROW = 2 * N };

static uint32_t left_at(uint32_t i, uint32_t j) { return (i * 7 + j * 3) % 10; }
static uint32_t right_at(uint32_t i, uint32_t j) { return (i * 5 + j * 11) % 10; }

static uint8_t right[N][N];
static uint16_t product[N][N];

static void write_block(example *e, uint64_t at, const void *from, size_t len) {
  expect(e, "a block that is written", ivy_write(e->ivy, at, from, len), IVY_DONE);
}

static void read_block(example *e, uint64_t at, void *into, size_t len) {
  expect(e, "a block that is read", ivy_read(e->ivy, at, into, len), IVY_DONE);
}

/* The rows of both matrices that this node has to give. */
static void fill(example *e, uint32_t from, uint32_t to) {
  for (uint32_t i = from; i < to; i++)
    for (uint32_t j = 0; j < N; j++) {
      product[i][j] = (uint16_t)left_at(i, j);
      right[i][j] = (uint8_t)right_at(i, j);
    }
  write_block(e, LEFT + ROW * from, product[from], ROW * (to - from));
  write_block(e, RIGHT + N * from, right[from], N * (to - from));
}

/* Each node begins elsewhere, so not all ask the same one at once. */
static void read_right(example *e, uint32_t from) {
  read_block(e, RIGHT + N * from, right[from], N * (N - from));
  read_block(e, RIGHT, right[0], N * from);
}

static void multiply(example *e, uint32_t from, uint32_t to) {
  uint16_t row[N];
  uint32_t sums[N];
  for (uint32_t i = from; i < to; i++) {
    read_block(e, LEFT + ROW * i, row, sizeof row);
    memset(sums, 0, sizeof sums);
    for (uint32_t k = 0; k < N; k++)
      for (uint32_t j = 0; j < N; j++) sums[j] += (uint32_t)row[k] * right[k][j];
    for (uint32_t j = 0; j < N; j++) row[j] = (uint16_t)sums[j];
    write_block(e, LEFT + ROW * i, row, sizeof row);
    ivy_progress_now(e->ivy);
  }
}

static void check(example *e) {
  for (uint32_t i = 0; i < N; i++) {
    for (uint32_t j = 0; j < N; j++) {
      uint32_t sum = 0;
      for (uint32_t k = 0; k < N; k++) sum += left_at(i, k) * right_at(k, j);
      expect(e, "a number of the product", product[i][j], sum);
    }
    ivy_progress_now(e->ivy);
  }
}

/* At the end node 0 has the whole product. */
static void multiply_all(example *e) {
  uint32_t from = e->me * N / e->nodes, to = (e->me + 1) * N / e->nodes;
  fill(e, from, to);
  barrier(e);
  read_right(e, from);
  multiply(e, from, to);
  barrier(e);
  if (e->me == 0) read_block(e, LEFT, product, sizeof product);
}

int main(int argc, char **argv) {
  example e;
  begin_example(&e, argc, argv, 256, PAGE);
  multiply_all(&e);
  if (e.me == 0) check(&e);
  if (e.me == 0) printf("product: %d by %d\n", N, N);
  end_example(&e);
  return 0;
}
