/* The n-th growth is refused, for each n in turn: each call that is refused leaves the node as it was, and goes on when it is
 * made again. Linked with --wrap=malloc --wrap=realloc. */
#include "ivy.h"
#include <stdio.h>
#include <stdlib.h>

enum { NODES = 3, PAGE = 256, ROUNDS = 6 };

void *__real_malloc(size_t size);
void *__real_realloc(void *at, size_t size);
static long until = -1;
static long grown;
static int refuses(void) { grown++; return until >= 0 && until-- == 0; }
void *__wrap_malloc(size_t size) { return refuses() ? NULL : __real_malloc(size); }
void *__wrap_realloc(void *at, size_t size) { return refuses() ? NULL : __real_realloc(at, size); }

static ivy_node node[NODES];

/* Takes the strings of all nodes to where they go. */
static int carry(void) {
  uint8_t bytes[IVY_FRAME_MOST(PAGE)];
  size_t len;
  uint32_t dest, what, status;
  int moved = 0;
  for (int i = 0; i < NODES; i++)
    while (ivy_next_frame(&node[i], bytes, sizeof bytes, &len, &dest) == IVY_DONE) {
      while ((status = ivy_deliver(&node[dest], bytes, len, &what)) == IVY_MEMORY) { }
      if (status != IVY_DONE) return -1;
      moved = 1;
    }
  return moved;
}

static int call(int i, uint32_t kind, uint64_t place, uint64_t operand, uint64_t *value) {
  uint32_t status;
  while ((status = ivy_begin(&node[i], kind, 8, place, operand, 0, value)) == IVY_MEMORY) { }
  while (status == IVY_PENDING || status == IVY_MEMORY) {
    if (carry() < 0) return -1;
    status = ivy_reply(&node[i], value);
  }
  return status == IVY_DONE ? 0 : -1;
}

/* A page is asked for ahead, and not where that is refused. */
static int fetch(int i, uint32_t page, uint32_t to) {
  uint32_t status, begun = 2;
  while ((status = ivy_fetch(&node[i], page, to, &begun)) == IVY_MEMORY)
    if (begun != 2) return -1;
  return status == IVY_DONE && begun < 2 ? 0 : -1;
}

static int run(void) {
  uint64_t value = 0;
  for (uint32_t i = 0; i < NODES; i++) {
    uint32_t status;
    while ((status = ivy_open(&node[i], NODES, 4, PAGE, IVY_DYNAMIC, i)) == IVY_MEMORY) { }
    if (status) return 1;
  }
  for (uint64_t k = 0; k < ROUNDS * NODES; k++) {
    if (call((int)(k % NODES), IVY_FETCH_AND_ADD, PAGE + 8 * (k % 2), 1, &value) || value != k / 2) return 2;
    if (call((int)(k % NODES), IVY_ADVANCE, 1, 0, &value)) return 3;
  }
  for (uint32_t k = 0; k < NODES; k++)
    if (fetch((int)k, 2, IVY_TO_READ) || fetch((int)k, 3, IVY_TO_WRITE) || carry() < 0) return 11;
  if (call(0, IVY_AWAIT, 1, ROUNDS * NODES, &value) || value != ROUNDS * NODES) return 4;
  if (call(1, IVY_ALLOC, 0, 16, &value) || call(2, IVY_FREE, value, 0, &value)) return 5;
  for (int i = 0; i < NODES; i++) ivy_close(&node[i]);
  return 0;
}

/* Of more than 256 pages one that is lent to be written is made then; where that is refused it is not lent. Nothing else of
 * lending takes memory. */
static int lend(void) {
  ivy_node own = IVY_NONE;
  uint32_t taken, on;
  if (ivy_open(&own, 2, 300, PAGE, IVY_FIXED, 0)) return 6;
  until = 0;
  if (ivy_lend(&own, 2, IVY_TO_WRITE) != IVY_MEMORY || ivy_give_back(&own, 2, IVY_UNLENT) != IVY_BAD_ARGUMENT) return 7;
  if (ivy_lend(&own, 2, IVY_TO_WRITE) != IVY_DONE) return 8;
  until = 0;
  if (ivy_lend(&own, 4, IVY_TO_READ) != IVY_DONE || ivy_wanted(&own, NULL, 0, &taken, &on) != IVY_DONE) return 9;
  if (ivy_give_back(&own, 2, IVY_TO_READ) != IVY_DONE || ivy_go_on(&own, 1, &taken, &on) != IVY_DONE || until) return 10;
  until = -1;
  ivy_close(&own);
  return 0;
}

int main(void) {
  int status = lend();
  if (!status) status = run();
  long most = grown;
  for (long n = 0; !status && n < most; n++) {
    until = n;
    status = run();
  }
  until = -1;
  if (status) printf("refused: %d\n", status);
  return status;
}
