/* Litmus tests by plain loads and stores, of 4 processes: [LAPS]. No lap may end as sequential consistency forbids, whether the
 * words are on one page or on two, and whether copies of them are at the nodes at first. */
#include "map_test.h"

enum { MOST_LAPS = 2000, APART = 512 };

/* What a lap had: two words, and what was seen. The words of a lap are its own, so none is ever set back. */
typedef struct { uint64_t seen[4]; } outcome;
typedef struct { volatile uint64_t near[2 * MOST_LAPS]; volatile uint64_t x[MOST_LAPS], y[MOST_LAPS]; outcome outcomes[MOST_LAPS]; } words;

typedef enum { SB, MP, LB, IRIW, S, R, WW, TESTS } test;
static const char *const names[] = { "SB", "MP", "LB", "IRIW", "S", "R", "2+2W" };

static void play(test it, uint32_t role, volatile uint64_t *x, volatile uint64_t *y, uint64_t *seen) {
  switch (it) {
    case SB:
      if (role == 0) { *x = 1; seen[0] = *y; }
      if (role == 1) { *y = 1; seen[1] = *x; }
      break;
    case MP:
      if (role == 0) { *x = 1; *y = 1; }
      if (role == 1) { seen[0] = *y; seen[1] = *x; }
      break;
    case LB:
      if (role == 0) { seen[0] = *x; *y = 1; }
      if (role == 1) { seen[1] = *y; *x = 1; }
      break;
    case IRIW:
      if (role == 0) *x = 1;
      if (role == 1) *y = 1;
      if (role == 2) { seen[0] = *x; seen[1] = *y; }
      if (role == 3) { seen[2] = *y; seen[3] = *x; }
      break;
    case S:
      if (role == 0) { *x = 2; *y = 1; }
      if (role == 1) { seen[0] = *y; *x = 1; }
      break;
    case R:
      if (role == 0) { *x = 1; *y = 1; }
      if (role == 1) { *y = 2; seen[0] = *x; }
      break;
    default:
      if (role == 0) { *x = 1; *y = 2; }
      if (role == 1) { *y = 1; *x = 2; }
      break;
  }
}

static int is_forbidden(test it, uint64_t x, uint64_t y, const uint64_t *r) {
  switch (it) {
    case SB: return r[0] == 0 && r[1] == 0;
    case MP: return r[0] == 1 && r[1] == 0;
    case LB: return r[0] == 1 && r[1] == 1;
    case IRIW: return r[0] == 1 && r[1] == 0 && r[2] == 1 && r[3] == 0;
    case S: return r[0] == 1 && x == 2;
    case R: return r[0] == 0 && y == 2;
    default: return x == 1 && y == 1;
  }
}

/* Each role in turn is played by each process. Where words are apart, those of one lap are on two pages. */
static void run(test it, int is_near, uint32_t laps, words *w) {
  uint64_t seed = 88172645463325252u + me * 7919 + it, seen[4];
  for (uint32_t lap = 0; lap < laps; lap++) {
    volatile uint64_t *x = is_near ? &w->near[2 * lap] : &w->x[lap], *y = is_near ? &w->near[2 * lap + 1] : &w->y[lap];
    uint32_t role = (me + lap) % nodes;
    memset(seen, 0, sizeof seen);
    if (lap % 2) (void)(*x + *y);
    ivy_map_barrier(ivy);
    for (uint64_t wait = draw_next(&seed) % 3000; wait; wait--) __asm__ volatile("" ::: "memory");
    play(it, role, x, y, seen);
    for (uint32_t i = 0; i < 4; i++)
      if (seen[i]) w->outcomes[lap].seen[i] = seen[i];
  }
  ivy_map_barrier(ivy);
  for (uint32_t lap = 0; lap < laps && me == 0; lap++) {
    uint64_t x = is_near ? w->near[2 * lap] : w->x[lap], y = is_near ? w->near[2 * lap + 1] : w->y[lap];
    if (!is_forbidden(it, x, y, w->outcomes[lap].seen)) continue;
    fprintf(stderr, "litmus: %s, words %s, lap %u ended as is forbidden\n", names[it], is_near ? "on one page" : "apart", lap);
    _exit(1);
  }
  ivy_map_barrier(ivy);
  if (me == 0) memset((void *)(uintptr_t)w, 0, sizeof *w);
  ivy_map_barrier(ivy);
}

int main(int argc, char **argv) {
  uint32_t laps = argc > 1 ? (uint32_t)atoi(argv[1]) : 100;
  begin_test_of(256, 0);
  if (laps > MOST_LAPS) laps = MOST_LAPS;
  words *w = (words *)shared_pages(sizeof *w);
  for (int it = SB; it < TESTS; it++)
    for (int is_near = 0; is_near < 2; is_near++) run((test)it, is_near, laps, w);
  tell_counts("litmus", laps);
  return ivy_finalize(ivy);
}
