/* Pages that come to be written behind a store, where they could be read before: [ROUNDS]. One node writes numbers to pages, each to the
 * next page downwards, and tells of it; of three another one tells on. Node 1 hears so, and finds no older number than that on any page,
 * between stores that run upwards: what it gave back to have it to be written is not seen meanwhile. All meet ROUNDS times. */
#include "map_test.h"

enum { PAGES = 16, BEHIND = 7, NUMBERS = 20 * PAGES, TOLD = PAGES, TOLD_ON };

typedef struct { volatile uint64_t number, stored; uint64_t others[510]; } page;

static page *pages;

static void write_all(uint64_t before) {
  for (uint64_t n = before + 1; n <= before + NUMBERS; n++) {
    pages[PAGES - 1 - (n - 1) % PAGES].number = n;
    pages[TOLD].number = n;
  }
}

static void tell_on(uint64_t before) {
  for (uint64_t n = before; n < before + NUMBERS;) pages[TOLD_ON].number = n = pages[TOLD].number;
}

static uint64_t heard(void) { return pages[nodes > 2 ? TOLD_ON : TOLD].number; }

/* The last number of a page that was written before another one, or at that time. */
static uint64_t least_at(int page, uint64_t last) {
  uint64_t first = (uint64_t)(PAGES - page);
  return last < first ? 0 : last - (last - first) % PAGES;
}

static void look(int first, int most) {
  uint64_t last = heard();
  for (int i = first; i < most && i < PAGES; i++) must("whether a number is not older", pages[i].number >= least_at(i, last), 1);
}

static void store_all(uint64_t before) {
  for (uint64_t sweep = 1; heard() < before + NUMBERS; sweep++) {
    look(0, PAGES);
    for (int i = 0; i < PAGES; i++) {
      pages[i].stored = sweep;
      look(i + 1, i + BEHIND);
      must("what was stored", pages[i].stored, sweep);
    }
  }
}

int main(int argc, char **argv) {
  uint64_t rounds = argc > 1 ? strtoull(argv[1], NULL, 10) : 20;
  begin_test_of(256, 0);
  pages = (page *)shared_pages((TOLD_ON + 1) * sizeof *pages);
  for (uint64_t before = 0; before < rounds * NUMBERS; before += NUMBERS) {
    if (me == 1) store_all(before);
    else if (nodes == 2 || me == 2) write_all(before);
    else if (me == 0) tell_on(before);
    ivy_map_barrier(ivy);
    look(0, PAGES);
    ivy_map_barrier(ivy);
  }
  tell_counts("raised", rounds);
  return ivy_finalize(ivy);
}
