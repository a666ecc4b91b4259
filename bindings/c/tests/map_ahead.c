/* Pages that come ahead: LAPS, by two processes. Node 0 writes, and node 1 loads upwards, then stores upwards: most pages come ahead of
 * a fault. Where faults leave out pages, or run downwards, none comes; and behind short rows that are used in each lap, where node 0
 * alone writes, hardly any. */
#include "map_test.h"

enum { PAGES = 128, ROW = 4, BEHIND = 12, LEAST = 64 };

typedef struct { uint64_t words[512]; } page;

static uint64_t ahead(void) { return ivy_map_counts_of(ivy).ahead; }

/* Whatever else the machine does, some pages come ahead in one of these laps. */
static void upwards(page *pages, uint64_t laps) {
  for (uint64_t lap = 1; lap <= laps; lap++) {
    for (int i = 0; me == 0 && i < PAGES; i++) pages[i].words[i] = lap;
    ivy_map_barrier(ivy);
    for (int i = 0; me == 1 && i < PAGES; i++) must("a word that node 0 wrote", pages[i].words[i], lap);
    for (int i = 0; me == 1 && i < PAGES; i++) pages[i].words[i + 1] = lap + (uint64_t)i;
    ivy_map_barrier(ivy);
    for (int i = 0; me == 0 && i < PAGES; i++) must("a word that node 1 wrote", pages[i].words[i + 1], lap + (uint64_t)i);
    ivy_map_barrier(ivy);
  }
  if (me == 1) must("whether pages came ahead of faults that run upwards", ahead() >= LEAST, 1);
}

static void otherwise(page *pages) {
  uint64_t before = ahead();
  for (int i = 0; me == 1 && i < PAGES / 2; i += 2) must("a word of every other page", pages[i].words[0], 0);
  for (int i = PAGES - 1; me == 1 && i > PAGES / 2; i--) must("a word downwards", pages[i].words[0], 0);
  must("pages that came ahead of other faults", ahead() - before, 0);
}

static void short_rows(page *pages, uint64_t laps) {
  uint64_t before = ivy_map_counts_of(ivy).asked;
  for (uint64_t lap = 1; lap <= laps; lap++) {
    for (int i = 0; me == 0 && i < ROW + BEHIND; i++) pages[i].words[i] = lap;
    ivy_map_barrier(ivy);
    for (int i = 0; me == 1 && i < ROW; i++) must("a word of a short row", pages[i].words[i], lap);
    ivy_map_barrier(ivy);
  }
  if (me == 1) must("whether pages behind a row were asked for again and again", ivy_map_counts_of(ivy).asked - before > ROW * laps + 2 * BEHIND, 0);
}

int main(int argc, char **argv) {
  uint64_t laps = argc > 1 ? strtoull(argv[1], NULL, 10) : 12;
  begin_test_of(1024, 0);
  page *pages = (page *)shared_pages(4 * PAGES * sizeof *pages);
  upwards(pages, laps);
  otherwise(pages + PAGES);
  ivy_map_barrier(ivy);
  short_rows(pages + 2 * PAGES + PAGES / 2, laps);
  tell_counts("ahead", laps);
  return ivy_finalize(ivy);
}
