/* What a call that hits costs by the runtime, beside ivy_begin alone: at node 0 of two over UDP, while the other waits, with
 * progress in calls and by a thread. Called with a port, of which it and one more are taken. */
#define _POSIX_C_SOURCE 200809L
#include "ivy_runtime.h"
#include <stdlib.h>
#include <sys/wait.h>
#include <time.h>
#include <unistd.h>

enum { PAGE = 256, MANY = 2000000, TRIES = 5, KINDS = 3 };

static const uint32_t kinds[KINDS] = { IVY_LOAD, IVY_STORE, IVY_FETCH_AND_ADD };
static const char *const names[KINDS] = { "load", "store", "fetch and add" };

/* Seconds of this thread. */
static double now(void) {
  struct timespec t;
  clock_gettime(CLOCK_THREAD_CPUTIME_ID, &t);
  return (double)t.tv_sec + (double)t.tv_nsec / 1e9;
}

static void wrong(const char *what) {
  fprintf(stderr, "bindings: %s\n", what);
  exit(1);
}

static void by_begin(ivy_node *node, uint32_t kind) {
  uint64_t value = 0;
  for (uint64_t i = 0; i < MANY; i++)
    if (ivy_begin(node, kind, 8, PAGE, i, 0, &value) != IVY_DONE) wrong("a call does not hit");
}

static void by_runtime(ivy_process *ivy, uint32_t kind) {
  uint64_t sum = 0;
  for (uint64_t i = 0; i < MANY; i++) {
    if (kind == IVY_LOAD) sum += ivy_load(ivy, 8, PAGE);
    else if (kind == IVY_STORE) ivy_store(ivy, 8, PAGE, i);
    else sum += ivy_fetch_add(ivy, 8, PAGE, i);
  }
  if (ivy_error(ivy) != IVY_DONE || (kind == IVY_LOAD && !sum)) wrong("a call fails");
}

/* Nanoseconds a call: the least of some tries, of both by turns. */
static void compare(ivy_node *node, ivy_process *ivy, int kind, const char *how) {
  double begin = 1e9, runtime = 1e9;
  for (int i = 0; i < TRIES; i++) {
    double begun = now();
    by_begin(node, kinds[kind]);
    double between = now();
    by_runtime(ivy, kinds[kind]);
    double took = now() - between;
    if (between - begun < begin) begin = between - begun;
    if (took < runtime) runtime = took;
  }
  printf("a %s that hits, %s: %.1f ns, by ivy_begin %.1f, ratio %.2f\n", names[kind], how, runtime * 1e9 / MANY,
         begin * 1e9 / MANY, runtime / begin);
}

static int run(uint32_t me, uint16_t port, ivy_progress progress) {
  const ivy_config config = { 2, 4, PAGE, IVY_DYNAMIC };
  ivy_node node = IVY_NONE;
  ivy_process *ivy = ivy_join(&config, me, ivy_udp(me, 2, port, 0, 0, 0), progress, 10000, 0);
  if (!ivy || ivy_open(&node, 2, 4, PAGE, IVY_DYNAMIC, 0) != IVY_DONE) return 2;
  if (me == 0) {
    ivy_store(ivy, 8, PAGE, 1);
    for (int kind = 0; kind < KINDS; kind++) compare(&node, ivy, kind, progress == IVY_BY_THREAD ? "by thread" : "in calls");
    ivy_advance(ivy, 0);
  } else {
    ivy_await(ivy, 0, 1);
  }
  ivy_close(&node);
  return ivy_leave(ivy) != IVY_DONE;
}

int main(int argc, char **argv) {
  uint16_t port = (uint16_t)(argc > 1 ? atoi(argv[1]) : 9000);
  for (int progress = IVY_IN_CALLS; progress <= IVY_BY_THREAD; progress++) {
    int its = 0, me = fork() == 0, mine = run((uint32_t)me, port, (ivy_progress)progress);
    fflush(stdout);
    if (me) _exit(mine);
    wait(&its);
    if (mine || its) return 1;
  }
  return 0;
}
