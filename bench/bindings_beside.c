/* What calls that hit and hand-overs cost under two managers, the dynamic one and MANAGER, in one process, by turns of about a
 * millisecond, since the machine may do other work: blocks and pages by two nodes, and calls by the runtime at node 0 of two
 * over UDP, while the other waits. Called with a port, of which it and three more are taken. */
#define _POSIX_C_SOURCE 200809L
#include "ivy_runtime.h"
#include <stdlib.h>
#include <sys/wait.h>
#include <time.h>
#include <unistd.h>

enum { TURNS = 401, AGAIN = 10, SMALL = 64, PAGE = 256, BLOCK = 4096, CALLS = 10000, BLOCKS = 4000, HANDED = 1000, EVERY = 16 };

static const uint32_t managers[2] = { IVY_DYNAMIC, MANAGER };
static ivy_node node[2][2];
static ivy_process *process[2];
static uint64_t handed[2], sum;
static uint8_t bytes[BLOCK];

static void wrong(const char *what) {
  fprintf(stderr, "bindings: %s\n", what);
  exit(1);
}

/* ---- What is timed: so much of it under one of the two managers ---------------------------------------------------------- */

static void loads(int by) {
  uint64_t value;
  for (int i = 0; i < CALLS; i++)
    if (ivy_begin(&node[by][0], IVY_LOAD, 8, BLOCK, 0, 0, &value) != IVY_DONE) wrong("a load does not hit");
}

static void reads(int by) {
  size_t words;
  for (int i = 0; i < BLOCKS; i++)
    if (ivy_load_block(&node[by][0], BLOCK, bytes, BLOCK, &words) != IVY_DONE) wrong("a block is not read");
}

static void writes(int by) {
  size_t words;
  for (int i = 0; i < BLOCKS; i++)
    if (ivy_store_block(&node[by][0], BLOCK, bytes, BLOCK, &words) != IVY_DONE) wrong("a block is not written");
}

static void carry(ivy_node *both) {
  static uint8_t frame[IVY_FRAME_MOST(BLOCK)];
  size_t len;
  uint32_t dest, verdict;
  for (int moved = 1; moved;) {
    moved = 0;
    for (int i = 0; i < 2; i++)
      while (ivy_next_frame(&both[i], frame, sizeof frame, &len, &dest) == IVY_DONE) {
        if (ivy_deliver(&both[dest], frame, len, &verdict) != IVY_DONE) wrong("a string is refused");
        moved = 1;
      }
  }
}

/* By turns each node adds to one word, so the page goes over each time. */
static void hands(int by) {
  ivy_node *both = node[by];
  for (int i = 0; i < HANDED; i++) {
    uint64_t value = 0;
    uint32_t status = ivy_begin(&both[i % 2], IVY_FETCH_AND_ADD, 8, BLOCK, 1, 0, &value);
    while (status == IVY_PENDING) {
      carry(both);
      status = ivy_reply(&both[i % 2], &value);
    }
    if (status != IVY_DONE || value != handed[by]++) wrong("the count is wrong");
    if (i % EVERY) continue;
    ivy_pulse(&both[0], 1);
    ivy_pulse(&both[1], 0);
    carry(both);
  }
}

static void runtime_loads(int by) {
  for (int i = 0; i < CALLS; i++) sum += ivy_load(process[by], 8, PAGE);
}

static void runtime_stores(int by) {
  for (uint64_t i = 0; i < CALLS; i++) ivy_store(process[by], 8, PAGE, i);
}

static void runtime_adds(int by) {
  for (uint64_t i = 0; i < CALLS; i++) sum += ivy_fetch_add(process[by], 8, PAGE, i);
}

/* Opens all nodes anew, now those of one manager first and now those of the other, each behind some bytes that stay: where
 * pages lie has to say nothing. */
static void open_all(uint32_t page_size, int first) {
  for (int at = 0; at < 2; at++)
    for (uint32_t i = 0; i < 2; i++) {
      int by = at ^ first;
      ivy_close(&node[by][i]);
      if (!malloc(1 + (size_t)rand() % BLOCK)) wrong("no memory");
      if (ivy_open_by(&node[by][i], 2, 128, page_size, managers[by], i)) wrong("a node is not opened");
    }
  handed[0] = handed[1] = 0;
}

/* ---- By turns ------------------------------------------------------------------------------------------------------------ */

static int compare(const void *a, const void *b) {
  double x = *(const double *)a, y = *(const double *)b;
  return x < y ? -1 : x > y;
}

static double median(double *of) {
  qsort(of, TURNS, sizeof of[0], compare);
  return of[TURNS / 2];
}

/* Nanoseconds of this thread for each of so many. */
static double time_of(void (*work)(int), int by, int many) {
  struct timespec from, to;
  clock_gettime(CLOCK_THREAD_CPUTIME_ID, &from);
  work(by);
  clock_gettime(CLOCK_THREAD_CPUTIME_ID, &to);
  return ((double)(to.tv_sec - from.tv_sec) * 1e9 + (double)(to.tv_nsec - from.tv_nsec)) / many;
}

static int is_over;

/* Medians of all turns, and of the ratios of two that follow each other. Each manager is the first one in half of them. With a
 * size of pages the nodes are opened anew before each tenth. */
static void beside(const char *what, void (*work)(int), int many, uint32_t page_size) {
  static double took[2][TURNS], ratios[TURNS];
  for (int i = 0; i < TURNS; i++) {
    if (page_size && i % AGAIN == 0) {
      open_all(page_size, i / AGAIN % 2);
      work(0), work(1);
    }
    took[i % 2][i] = time_of(work, i % 2, many);
    took[!(i % 2)][i] = time_of(work, !(i % 2), many);
    ratios[i] = took[1][i] / took[0][i];
  }
  double ratio = median(ratios);
  printf("%s %.1f ns, %.1f, ratio %.2f%s\n", what, median(took[0]), median(took[1]), ratio, ratio > 1.1 ? " OVER" : "");
  is_over |= ratio > 1.1;
}

static void by_nodes(void) {
  beside("a load that hits:", loads, CALLS, BLOCK);
  beside("a block of 4096 bytes that hits: read in", reads, BLOCKS, BLOCK);
  beside("a block of 4096 bytes that hits: written in", writes, BLOCKS, BLOCK);
  beside("a page of 64 bytes handed over:", hands, HANDED, SMALL);
  beside("a page of 4096 bytes handed over:", hands, HANDED, BLOCK);
}

static void by_runtime(uint32_t me, uint16_t port, ivy_progress progress) {
  for (int by = 0; by < 2; by++) {
    const ivy_config config = { 2, 4, PAGE, managers[by] };
    process[by] = ivy_join(&config, me, ivy_udp(me, 2, (uint16_t)(port + 2 * by), 0, 0, 0), progress, 20000, 0);
    if (!process[by]) wrong("a process does not join");
  }
  const char *const names[2][3] = {
    { "a load that hits, in calls:", "a store that hits, in calls:", "a fetch and add that hits, in calls:" },
    { "a load that hits, by thread:", "a store that hits, by thread:", "a fetch and add that hits, by thread:" }
  };
  void (*const works[3])(int) = { runtime_loads, runtime_stores, runtime_adds };
  for (int i = 0; i < 3 && !me; i++) beside(names[progress == IVY_BY_THREAD][i], works[i], CALLS, 0);
  for (int by = 0; by < 2; by++) {
    if (me) ivy_await(process[by], 0, 1);
    else ivy_advance(process[by], 0);
    if (ivy_leave(process[by]) != IVY_DONE) wrong("a call fails");
  }
}

int main(int argc, char **argv) {
  uint16_t port = (uint16_t)(argc > 1 ? atoi(argv[1]) : 9000);
  by_nodes();
  fflush(stdout);
  for (int progress = IVY_IN_CALLS; progress <= IVY_BY_THREAD; progress++) {
    int its = 0, me = fork() == 0;
    by_runtime((uint32_t)me, port, (ivy_progress)progress);
    fflush(stdout);
    if (me) _exit(0);
    wait(&its);
    if (its) return 2;
  }
  return is_over;
}
