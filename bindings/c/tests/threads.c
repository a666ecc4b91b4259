/* Threads of a program that share a process: each adds, one awaits what another one advances, and waits for a time; all calls count. */
#include "channel.h"
#include <limits.h>

enum { PAGE = CHANNEL_PAGE, THREADS = 4, EACH = 200, ROUNDS = 50, SHORT_US = 2000 };
enum { MET = 0, THERE = 1, BACK = 2, NEVER = 3 };

static void *add(void *argument) {
  for (int i = 0; i < EACH; i++) ivy_fetch_add((ivy_process *)argument, 8, PAGE, 1);
  return NULL;
}

static void *answer(void *argument) {
  for (uint64_t i = 1; i <= ROUNDS; i++) {
    ivy_await((ivy_process *)argument, THERE, i);
    ivy_advance((ivy_process *)argument, BACK);
  }
  return NULL;
}

/* Two threads of node 0 go to and fro by counts, and the other node may have the page. */
static void exchange(ivy_process *ivy) {
  pthread_t other;
  uint64_t found = 1;
  pthread_create(&other, NULL, answer, ivy);
  for (uint64_t i = 1; i <= ROUNDS; i++) {
    ivy_advance(ivy, THERE);
    if (i % 2) should_be("an await for the longest time", ivy_await_for(ivy, BACK, i, LONG_MAX, &found), IVY_DONE);
    else should_be("what is waited for", ivy_await(ivy, BACK, i) >= i, 1);
  }
  pthread_join(other, NULL);
  should_be("an await for a time", ivy_await_for(ivy, NEVER, 1, SHORT_US, &found), IVY_TIMEOUT);
  should_be("a look", ivy_await_for(ivy, NEVER, 1, 0, &found), IVY_TIMEOUT);
  should_be("what was seen", found, 0);
  should_be("an await that is over", ivy_await_for(ivy, BACK, ROUNDS, 0, &found), IVY_DONE);
}

static void work(ivy_process *ivy, uint32_t me) {
  pthread_t threads[THREADS];
  ivy_use_threads(ivy);
  for (int i = 0; i < THREADS; i++) pthread_create(&threads[i], NULL, add, ivy);
  if (me == 0) exchange(ivy);
  for (int i = 0; i < THREADS; i++) pthread_join(threads[i], NULL);
  should_be("whether all calls were counted", ivy_counts_of(ivy).calls >= THREADS * EACH, 1);
  ivy_advance(ivy, MET);
  ivy_await(ivy, MET, 2);
  should_be("the sum", ivy_load(ivy, 8, PAGE), 2 * THREADS * EACH);
  should_be("the status", ivy_error(ivy), IVY_DONE);
}

int main(void) {
  for (int progress = IVY_IN_CALLS; progress <= IVY_BY_THREAD; progress++)
    channel_run_two((ivy_progress)progress, LONG_MAX, work, work);
  puts("done");
  return 0;
}
