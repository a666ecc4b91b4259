/* FFTW in mapped memory: a transform in two dimensions, of rows by processes, and then of columns in place. */
#include "../../examples/pointers/pointers.h"
#include <complex.h>
#include <fftw3.h>
#include <math.h>

enum { N = 64 };

static double _Complex element(int i, int j) { return (double)((i * 7 + j * 13) % 17) + I * (double)((i * 3 + j) % 5); }

int main(int argc, char **argv) {
  static fftw_complex alone[N * N];
  begin(argc, argv);
  fftw_complex *grid = (fftw_complex *)shared(N * N * sizeof *grid);
  int first = (int)(N * me / nodes), last = (int)(N * (me + 1) / nodes);
  for (int i = first; i < last; i++)
    for (int j = 0; j < N; j++) grid[i * N + j] = element(i, j);
  fftw_plan row = fftw_plan_dft_1d(N, alone, alone, FFTW_FORWARD, FFTW_ESTIMATE | FFTW_UNALIGNED);
  int n[] = { N };
  fftw_plan column = fftw_plan_many_dft(1, n, 1, alone, NULL, N, 0, alone, NULL, N, 0, FFTW_FORWARD, FFTW_ESTIMATE | FFTW_UNALIGNED);
  for (int i = first; i < last; i++) fftw_execute_dft(row, grid + i * N, grid + i * N);
  ivy_map_barrier(ivy);
  for (int j = first; j < last; j++) fftw_execute_dft(column, grid + j, grid + j);
  ivy_map_barrier(ivy);
  for (int i = 0; i < N * N; i++) alone[i] = element(i / N, i % N);
  for (int i = 0; i < N; i++) fftw_execute_dft(row, alone + i * N, alone + i * N);
  for (int j = 0; j < N; j++) fftw_execute_dft(column, alone + j, alone + j);
  for (int i = 0; i < N * N; i++) expect("a number of the transform", cabs(grid[i] - alone[i]) <= 1e-9 * (1 + cabs(alone[i])));
  fftw_destroy_plan(row);
  fftw_destroy_plan(column);
  return end();
}
