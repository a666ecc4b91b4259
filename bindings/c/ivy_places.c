/* Roots, and which page an address is on. Not proved. */
#define _POSIX_C_SOURCE 200809L
#include "ivy_inside.h"

enum { WORD = 8 };

enum { BYTES = IVY_ROOTS * WORD };

/* A call of the heap, which node 0 has at once. */
static int ask_heap(ivy_process *p, uint32_t kind, uint64_t place, uint64_t bytes) {
  const call c = { kind, 0, place, bytes, 0 };
  uint64_t address;
  return ivy_in_call(p, &c, &address) == IVY_DONE;
}

/* The heap of a run is empty at its start, and gives the least address: once the rest of it is a block, its end is the next. */
void ivy_in_make_roots(ivy_process *p) {
  uint64_t heap = p->config.page_size, end = (uint64_t)p->config.pages * heap, rest = end - heap - BYTES;
  if (end - heap < BYTES) return;
  p->roots = end - BYTES;
  if (p->me != 0) return;
  int is_made = (!rest || ask_heap(p, IVY_ALLOC, 0, rest)) && ask_heap(p, IVY_ALLOC, 0, BYTES);
  if (rest && is_made) ask_heap(p, IVY_FREE, heap, 0);
  if (!is_made) p->roots = 0;
}

static int is_root(const ivy_process *p, uint32_t root) { return p->roots && root < IVY_ROOTS; }

uint32_t ivy_give_root(ivy_process *p, uint32_t root, uint64_t number) {
  if (!is_root(p, root) || number == 0) return IVY_BAD_ARGUMENT;
  ivy_store(p, WORD, p->roots + WORD * (uint64_t)root, number);
  return ivy_error(p);
}

uint32_t ivy_root_for(ivy_process *p, uint32_t root, long wait_us, uint64_t *number) {
  if (!is_root(p, root)) return IVY_BAD_ARGUMENT;
  return ivy_wait_until(p, WORD, p->roots + WORD * (uint64_t)root, IVY_NE, 0, wait_us, number);
}

uint64_t ivy_root(ivy_process *p, uint32_t root) {
  uint64_t number = 0;
  uint32_t status = ivy_root_for(p, root, -1, &number);
  if (status == IVY_DONE) return number;
  ivy_in_refuse(p, IVY_LOAD, p->roots + WORD * (uint64_t)root, status);
  return 0;
}

uint64_t ivy_page_of(const ivy_process *p, uint64_t address) { return address / p->config.page_size; }

/* A load that has not to wait: in a log it is one. */
int ivy_is_here(ivy_process *p, uint64_t address) {
  const call c = { IVY_LOAD, WORD, address - address % WORD, 0, 0 };
  uint8_t bytes[WORD];
  size_t words = 0;
  if (ivy_in_enter(p) == IVY_DONE) {
    ivy_load_block(&p->node, c.place, bytes, sizeof bytes, &words);
    if (words && p->log) {
      uint64_t value = ivy_in_get64(bytes);
      ivy_in_log_call(p, &c);
      ivy_in_log_reply(p, &c, IVY_DONE, &value);
    }
  }
  ivy_in_leave(p);
  return words == 1;
}
