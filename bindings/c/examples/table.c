/* A table of keys: all nodes put keys into it at the same time, some of them the same, by compare-and-swap. */
#include "example.h"

enum { PAGE = 256, PLACES = 256, FIRST = 2 * PAGE, EACH = 60, SHARED = 20 };

/* 1 where the key is new. A place that is free has 0. */
static int put(example *e, uint64_t key) {
  for (uint64_t i = key * 0x9e3779b97f4a7c15u >> 56;; i = (i + 1) % PLACES) {
    uint64_t was = ivy_compare_and_swap(e->ivy, 8, FIRST + 8 * i, 0, key);
    if (was == 0 || was == key) return was == 0;
  }
}

static int has(example *e, uint64_t key) {
  for (uint64_t i = key * 0x9e3779b97f4a7c15u >> 56;; i = (i + 1) % PLACES) {
    uint64_t found = ivy_load(e->ivy, 8, FIRST + 8 * i);
    if (found == 0 || found == key) return found == key;
  }
}

/* Of the keys of a node the first are those of all. */
static uint64_t key_of(uint32_t node, uint32_t i) { return i < SHARED ? 1 + i : 1000 * (uint64_t)(node + 1) + i; }

int main(int argc, char **argv) {
  example e;
  begin_example(&e, argc, argv, 2 + 8 * PLACES / PAGE, PAGE);
  uint32_t each = SHARED + 180 / e.nodes;
  if (each > EACH) each = EACH;
  for (uint32_t i = 0; i < each; i++)
    if (put(&e, key_of(e.me, i))) ivy_fetch_add(e.ivy, 8, PAGE, 1);
  barrier(&e);
  expect(&e, "new keys", ivy_load(e.ivy, 8, PAGE), SHARED + (uint64_t)(each - SHARED) * e.nodes);
  for (uint32_t i = 0; i < each; i++) expect(&e, "a key", (uint64_t)has(&e, key_of((e.me + 1) % e.nodes, i)), 1);
  expect(&e, "a key that nobody put", (uint64_t)has(&e, 999), 0);
  barrier(&e);
  if (e.me == 0) printf("table: %u keys\n", SHARED + (each - SHARED) * e.nodes);
  end_example(&e);
  return 0;
}
