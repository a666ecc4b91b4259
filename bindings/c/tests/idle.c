/* A node that waits for long takes little of a processor: as an example is called, by two processes. With `word` at the end it waits for
 * a word, by looks, else it awaits a count. Where there is a log the other one writes beside that word meanwhile, which must not make
 * it look at each time. */
#define _POSIX_C_SOURCE 200809L
#include "../examples/example.h"
#include <time.h>

enum { PAGE = 256, WORD_AT = 2 * PAGE, OVER = 1, SECONDS = 2, MOST_PERCENT = 5, FIRST_MS = 20, NAP_NS = 200000 };

static double milliseconds(clockid_t by) {
  struct timespec t;
  clock_gettime(by, &t);
  return (double)t.tv_sec * 1e3 + (double)t.tv_nsec / 1e6;
}

/* Waits until the other is done, or for a time. */
static uint32_t wait_for(example *e, int is_word, long wait_us) {
  uint64_t found;
  return is_word ? ivy_wait_until(e->ivy, 8, WORD_AT, IVY_NE, 0, wait_us, &found) : ivy_await_for(e->ivy, OVER, 1, wait_us, &found);
}

/* What the other one does until that time. */
static void do_something(example *e, int is_word) {
  const struct timespec nap = { 0, NAP_NS };
  if (!e->log) wait_for(e, is_word, 10000);
  else ivy_fetch_add(e->ivy, 8, WORD_AT + 8, 1);
  if (e->log) nanosleep(&nap, NULL);
}

int main(int argc, char **argv) {
  example e;
  int is_word = argc > 1 && !strcmp(argv[argc - 1], "word");
  begin_example(&e, argc, argv, 4, PAGE);
  barrier(&e);
  double begun = milliseconds(CLOCK_MONOTONIC), used = milliseconds(CLOCK_PROCESS_CPUTIME_ID);
  if (e.me == 0) {
    if (is_word) wait_for(&e, is_word, -1);
    else ivy_await(e.ivy, OVER, 1);
    double took = milliseconds(CLOCK_MONOTONIC) - begun;
    used = milliseconds(CLOCK_PROCESS_CPUTIME_ID) - used;
    printf("idle: %.0f ms of %.0f\n", used, took);
    expect(&e, "whether it took little", e.log || used <= took * MOST_PERCENT / 100 + FIRST_MS, 1);
  } else {
    while (milliseconds(CLOCK_MONOTONIC) - begun < SECONDS * 1000) do_something(&e, is_word);
    if (is_word) ivy_store(e.ivy, 8, WORD_AT, 1);
    else ivy_advance(e.ivy, OVER);
  }
  end_example(&e);
  return 0;
}
