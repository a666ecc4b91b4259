/* Hints and blocks on mapped memory, by two processes: LAPS. Pages of which a process told that it may ask for them come by a hint, and
 * then an access to them has no fault; others do not. A block of many pages has those behind come ahead, and finds what node 0 wrote
 * by pointers, as others find what it writes. With IVY_AHEAD=0 none comes so. */
#include "map_test.h"

enum { PAGES = 24, HINTED = 5, REST_US = 2000 };

typedef struct { uint64_t words[512]; } page;

static uint64_t place_of(const void *at) { return (uint64_t)((const uint8_t *)at - (uint8_t *)ivy_map_base(ivy)); }
static ivy_map_counts counts(void) { return ivy_map_counts_of(ivy); }

/* What others took just now is not asked for, so it rests first for longer than a window. */
static void hint(page *pages, uint64_t lap, int is_told) {
  usleep(REST_US);
  uint64_t most = is_told && !getenv("IVY_AHEAD") ? HINTED : 0, asked = counts().asked;
  must("a hint", ivy_prefetch(ivy, place_of(pages) + 5, HINTED * sizeof *pages - 9), IVY_DONE);
  must("how many pages a hint asks for", counts().asked - asked, most);
  for (uint64_t i = 0; i < most; i++)
    while (!ivy_is_here(ivy, place_of(pages + i))) usleep(200);
  uint64_t faults = counts().faults;
  for (uint64_t i = 0; i < most; i++) must("a word of a page that was hinted at", pages[i].words[i], lap);
  must("faults at pages that came", counts().faults - faults, 0);
}

static void read_all(const page *pages, uint64_t lap) {
  static page copy[PAGES];
  must("a block that is read", ivy_read(ivy, place_of(pages), copy, sizeof copy), IVY_DONE);
  for (int i = 0; i < PAGES; i++) must("a word of a block", copy[i].words[i], lap);
}

static void write_all(const page *pages, uint64_t number) {
  static page copy[PAGES];
  for (int i = 0; i < PAGES; i++) copy[i].words[i + 1] = number;
  must("a block that is written", ivy_write(ivy, place_of(pages), copy, sizeof copy), IVY_DONE);
}

int main(int argc, char **argv) {
  uint64_t laps = argc > 1 ? strtoull(argv[1], NULL, 10) : 20;
  begin_test_of(256, 0);
  page *pages = (page *)shared_pages(PAGES * sizeof *pages);
  for (uint64_t lap = 1; lap <= laps; lap++) {
    for (int i = 0; me == 0 && i < PAGES; i++) pages[i].words[i] = lap;
    ivy_map_barrier(ivy);
    if (me == 1 && lap % 2) hint(pages, lap, lap > 2);
    if (me == 1) read_all(pages, lap);
    ivy_map_barrier(ivy);
    if (me == 1) write_all(pages, lap);
    ivy_map_barrier(ivy);
    for (int i = 0; i < PAGES; i++) must("a word that a block wrote", pages[i].words[i + 1], lap);
    ivy_map_barrier(ivy);
  }
  if (me == 1) must("whether pages came ahead of blocks", counts().ahead >= (getenv("IVY_AHEAD") ? 0 : laps), 1);
  if (me == 1 && getenv("IVY_AHEAD")) must("pages that came ahead", counts().ahead, 0);
  must("a hint past the memory", ivy_prefetch(ivy, 255 * 4096, 4097), IVY_OUT_OF_RANGE);
  must("a hint on pages of the runtime", ivy_prefetch(ivy, 4096, 4096), IVY_DONE);
  tell_counts("hints", laps);
  return ivy_finalize(ivy);
}
