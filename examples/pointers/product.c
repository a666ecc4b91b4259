/* The product of two matrices: each process has some rows, and reads all of the second one. */
#include "pointers.h"

enum { N = 256 };

typedef struct { double a[N][N], b[N][N], c[N][N]; } matrices;

static double element(int i, int j) { return (double)((i * 31 + j * 17) % 23) - 11; }

/* Row by row, as a compiler makes it quick. */
static void multiply(double *row, const double *a, double b[N][N]) {
  memset(row, 0, N * sizeof *row);
  for (int k = 0; k < N; k++)
    for (int j = 0; j < N; j++) row[j] += a[k] * b[k][j];
}

int main(int argc, char **argv) {
  static double a[N], b[N][N], row[N];
  begin(argc, argv);
  matrices *m = (matrices *)shared(sizeof *m);
  int first = (int)(N * me / nodes), last = (int)(N * (me + 1) / nodes);
  for (int i = first; i < last; i++)
    for (int j = 0; j < N; j++) m->a[i][j] = element(i, j), m->b[i][j] = element(j, i);
  ivy_map_barrier(ivy);
  for (int i = first; i < last; i++) multiply(m->c[i], m->a[i], m->b);
  ivy_map_barrier(ivy);
  for (int i = 0; i < N; i++)
    for (int j = 0; j < N; j++) b[i][j] = element(j, i);
  for (int i = (int)me; i < N; i += (int)nodes) {
    for (int j = 0; j < N; j++) a[j] = element(i, j);
    multiply(row, a, b);
    expect("a row of the product", !memcmp(row, m->c[i], sizeof row));
  }
  return end();
}
