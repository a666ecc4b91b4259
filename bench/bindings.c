/* What a call costs from C, in one process: a load that hits, a block that hits beside a plain copy, a page handed over
 * between two nodes, and the memory after many hand-overs. Linked with --wrap=malloc --wrap=realloc, to count growths. */
#define _POSIX_C_SOURCE 200809L
#include "ivy.h"
#include <stdio.h>
#include <stdlib.h>
#include <string.h>
#include <time.h>

enum { HITS = 10000000, BLOCKS = 1000000, TRIES = 5, BLOCK = 4096, HANDED = 200000, LONG = 1000000, EVERY = 16 };

void *__real_malloc(size_t size);
void *__real_realloc(void *at, size_t size);
static long grown;
void *__wrap_malloc(size_t size) { grown++; return __real_malloc(size); }
void *__wrap_realloc(void *at, size_t size) { grown++; return __real_realloc(at, size); }

static ivy_node node[2];
static uint32_t page;

/* Seconds of the processor. */
static double now(void) {
  struct timespec t;
  clock_gettime(CLOCK_PROCESS_CPUTIME_ID, &t);
  return (double)t.tv_sec + (double)t.tv_nsec / 1e9;
}

static void fail(const char *what) {
  fprintf(stderr, "bindings: %s\n", what);
  exit(1);
}

static void open_both(uint32_t page_size) {
  page = page_size;
  for (uint32_t i = 0; i < 2; i++)
    if (ivy_open(&node[i], 2, 4, page_size, IVY_DYNAMIC, i)) fail("a node is not opened");
}

static void close_both(void) {
  ivy_close(&node[0]);
  ivy_close(&node[1]);
}

static void carry(void) {
  static uint8_t bytes[IVY_FRAME_MOST(4096)];
  size_t len;
  uint32_t dest, verdict;
  for (int moved = 1; moved;) {
    moved = 0;
    for (int i = 0; i < 2; i++)
      while (ivy_next_frame(&node[i], bytes, sizeof bytes, &len, &dest) == IVY_DONE) {
        if (ivy_deliver(&node[dest], bytes, len, &verdict) != IVY_DONE) fail("a string is refused");
        moved = 1;
      }
  }
}

static uint64_t call(int i, uint32_t kind, uint64_t place, uint64_t operand) {
  uint64_t value = 0;
  uint32_t status = ivy_begin(&node[i], kind, 8, place, operand, 0, &value);
  while (status == IVY_PENDING) {
    carry();
    status = ivy_reply(&node[i], &value);
  }
  if (status != IVY_DONE) fail(ivy_status_text(status));
  return value;
}

static void hits(void) {
  uint64_t value, sum = 0;
  open_both(256);
  call(0, IVY_STORE, page, 1);
  long before = grown;
  double begun = now();
  for (long k = 0; k < HITS; k++) {
    if (ivy_begin(&node[0], IVY_LOAD, 8, page, 0, 0, &value) != IVY_DONE) fail("a load does not hit");
    sum += value;
  }
  double took = now() - begun;
  if (sum != HITS) fail("the loads are wrong");
  printf("a load that hits: %.1f ns, %.2f growths\n", took * 1e9 / HITS, (double)(grown - before) / HITS);
  close_both();
}

static uint8_t there[BLOCK], here[BLOCK];

static void read_block(void) {
  size_t words;
  if (ivy_load_block(&node[0], page, here, BLOCK, &words) != IVY_DONE || words != BLOCK / 8) fail("a block is not read");
}

static void write_block(void) {
  size_t words;
  if (ivy_store_block(&node[0], page, here, BLOCK, &words) != IVY_DONE || words != BLOCK / 8) fail("a block is not written");
}

/* What the compiler neither leaves out nor puts in place. */
static void *(*volatile plain_copy)(void *, const void *, size_t) = memcpy;
static void copy_plainly(void) { plain_copy(there, here, BLOCK); }

/* The least nanoseconds of some tries. */
static double time_of(void (*work)(void)) {
  double least = 1e9;
  for (int i = 0; i < TRIES; i++) {
    double begun = now();
    for (long k = 0; k < BLOCKS; k++) work();
    double took = (now() - begun) * 1e9 / BLOCKS;
    if (took < least) least = took;
  }
  return least;
}

static void blocks(void) {
  open_both(BLOCK);
  call(0, IVY_STORE, page, 1);
  long before = grown;
  double plain = time_of(copy_plainly), read = time_of(read_block), written = time_of(write_block);
  printf("a block of %d bytes that hits: read in %.1f ns, %.2f times a plain copy (%.1f ns), written in %.1f ns, %.2f times, "
         "where at most %.1f ns are asked for (1.5 times and 40); %ld growths\n",
         BLOCK, read, read / plain, plain, written, written / plain, 1.5 * plain + 40, grown - before);
  close_both();
}

static long resident(void) {
  char line[128];
  long pages = 0;
  FILE *file = fopen("/proc/self/statm", "r");
  if (file && fgets(line, sizeof line, file)) pages = strtol(strchr(line, ' '), NULL, 10);
  if (file) fclose(file);
  return pages * 4;
}

/* By turns each node adds to one word: the page is handed over each time. */
static void hand_over(long times) {
  for (long k = 0; k < times; k++) {
    if (call((int)(k % 2), IVY_FETCH_AND_ADD, page, 1) != (uint64_t)k) fail("the count is wrong");
    if (k % EVERY == 0) {
      ivy_pulse(&node[0], 1);
      ivy_pulse(&node[1], 0);
      carry();
    }
  }
}

/* The least of some tries, beside a plain copy of as many bytes. */
static void handed(uint32_t page_size) {
  double least = 1e9, plain = 1e9;
  for (int i = 0; i < TRIES; i++) {
    open_both(page_size);
    double begun = now();
    hand_over(HANDED);
    double took = (now() - begun) * 1e9 / HANDED;
    if (took < least) least = took;
    begun = now();
    for (long k = 0; k < BLOCKS; k++) plain_copy(there, here, page_size);
    took = (now() - begun) * 1e9 / BLOCKS;
    if (took < plain) plain = took;
    close_both();
  }
  printf("a page of %u bytes handed over: %.0f ns, a plain copy %.1f, ratio %.1f\n", page_size, least, plain, least / plain);
}

static void flat(void) {
  open_both(256);
  hand_over(10000);
  close_both();
  open_both(256);
  hand_over(LONG / 10);
  long before = resident();
  for (long k = 0; k < LONG; k++) {
    call((int)(k % 2), IVY_FETCH_AND_ADD, page, 1);
    if (k % EVERY == 0) {
      ivy_pulse(&node[0], 1);
      ivy_pulse(&node[1], 0);
      carry();
    }
  }
  printf("%d hand-overs more: %ld KiB more\n", LONG, resident() - before);
  close_both();
}

int main(void) {
  hits();
  blocks();
  handed(64);
  handed(4096);
  flat();
  return 0;
}
