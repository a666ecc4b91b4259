/* Who waits looks for a time after the last string before it sleeps, and receives by itself: over UDP, from a port on, node 1
 * asks for one page after another of node 0, which is in an await. */
#define _POSIX_C_SOURCE 200809L
#include "ivy_runtime.h"
#include <pthread.h>
#include <stdlib.h>
#include <sys/wait.h>
#include <time.h>
#include <unistd.h>

enum { PAGE = 256, MISSES = 200, FIRST = 2, ASKED = 1, DONE = 2, LEAST_NS = 100000 };

static ivy_transport inner;
static pthread_t own;
static uint32_t early, by_own, by_others; /* sleeps too soon; strings that the program's thread got, and others */
static int64_t last;                      /* when the program's thread got a string last */

static int64_t nanoseconds(void) {
  struct timespec t;
  clock_gettime(CLOCK_MONOTONIC, &t);
  return (int64_t)t.tv_sec * 1000000000 + t.tv_nsec;
}

static const uint8_t *receive(void *state, size_t *len, long wait_us) {
  int is_own = pthread_equal(pthread_self(), own);
  if (is_own && wait_us && nanoseconds() - last < LEAST_NS) early++;
  const uint8_t *bytes = inner.receive(state, len, wait_us);
  if (bytes) __atomic_add_fetch(is_own ? &by_own : &by_others, 1, __ATOMIC_RELAXED);
  if (bytes && is_own) last = nanoseconds();
  return bytes;
}

/* One process of two: whether all was as it is to be. */
static int run(uint32_t me, uint16_t port, ivy_progress progress) {
  const ivy_config config = { 2, FIRST + MISSES, PAGE, IVY_DYNAMIC };
  inner = ivy_udp(me, 2, port, 0, 0, 0);
  const ivy_transport counted = { inner.state, inner.room, inner.send, receive, inner.close };
  own = pthread_self();
  ivy_process *ivy = ivy_join(&config, me, counted, progress, 10000, 5000);
  int is_right = ivy != NULL;
  if (!is_right) return 0;
  for (uint64_t k = 0; k < MISSES && me == 0; k++) ivy_store(ivy, 8, (FIRST + k) * PAGE, k);
  if (me == 0) ivy_advance(ivy, ASKED);
  else ivy_await(ivy, ASKED, 1);
  early = 0;
  __atomic_store_n(&by_own, 0, __ATOMIC_RELAXED);
  __atomic_store_n(&by_others, 0, __ATOMIC_RELAXED);
  for (uint64_t k = 0; k < MISSES && me == 1; k++) is_right &= ivy_load(ivy, 8, (FIRST + k) * PAGE) == k;
  if (me == 0) ivy_await(ivy, DONE, 1);
  else ivy_advance(ivy, DONE);
  uint32_t mine = __atomic_load_n(&by_own, __ATOMIC_RELAXED), others = __atomic_load_n(&by_others, __ATOMIC_RELAXED);
  if (early > MISSES / 20 || others > mine / 2) {
    fprintf(stderr, "looks: node %u slept too soon %u times, got %u strings itself, and %u by others\n", me, early, mine, others);
    is_right = 0;
  }
  return ivy_leave(ivy) == IVY_DONE && is_right;
}

int main(int argc, char **argv) {
  uint16_t port = (uint16_t)(argc > 1 ? atoi(argv[1]) : 9000);
  for (int progress = IVY_IN_CALLS; progress <= IVY_BY_THREAD; progress++) {
    int its = 0;
    pid_t other = fork();
    if (other == 0) _exit(!run(1, port, (ivy_progress)progress));
    if (!run(0, port, (ivy_progress)progress) || waitpid(other, &its, 0) != other || its) return 1;
  }
  puts("done");
  return 0;
}
