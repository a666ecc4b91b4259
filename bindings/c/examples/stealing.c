/* Work that is stolen: each node has a list of tasks, takes from its end, and, once it is empty, from the head of others. Head
 * and end are halves of one word, which is changed by compare-and-swap. Each task is done once. */
#include "example.h"

enum { PAGE = 256, TASKS = 24, LISTS = 2 * PAGE, DONE_FIRST = PAGE, MOST_NODES = 8 };

/* The word of a node's list, and its tasks behind it; one list a page. */
static uint64_t list_of(uint32_t node) { return LISTS + (uint64_t)node * PAGE; }

/* A task of a node's list, from its end or its head; or no task, TASKS. */
static uint64_t take(example *e, uint32_t node, int from_end) {
  uint64_t word = list_of(node), was = ivy_load(e->ivy, 8, word);
  for (;;) {
    uint64_t head = was >> 32, end = was & 0xffffffffu, taken = from_end ? end - 1 : head;
    if (head >= end) return TASKS;
    uint64_t then = from_end ? head << 32 | taken : (head + 1) << 32 | end;
    uint64_t found = ivy_compare_and_swap(e->ivy, 8, word, was, then);
    if (found == was) return ivy_load(e->ivy, 8, word + 8 + 8 * taken);
    was = found;
  }
}

static void do_task(example *e, uint32_t node, uint64_t task) {
  ivy_fetch_add(e->ivy, 8, DONE_FIRST + 8 * ((uint64_t)node * TASKS + task) % PAGE, 1 + task);
}

int main(int argc, char **argv) {
  example e;
  begin_example(&e, argc, argv, 2 + MOST_NODES, PAGE);
  if (e.nodes > MOST_NODES) exit(2);
  for (uint64_t i = 0; i < TASKS && e.me % 2 == 0; i++) ivy_store(e.ivy, 8, list_of(e.me) + 8 + 8 * i, i);
  if (e.me % 2 == 0) ivy_store(e.ivy, 8, list_of(e.me), TASKS);
  barrier(&e);
  for (uint32_t k = 0; k < e.nodes; k++) {
    uint32_t node = (e.me + k) % e.nodes;
    uint64_t task;
    while ((task = take(&e, node, node == e.me)) < TASKS) do_task(&e, node, task);
  }
  barrier(&e);
  uint64_t sum = 0, lists = (e.nodes + 1) / 2;
  for (uint64_t k = 0; k < PAGE / 8; k++) sum += ivy_load(e.ivy, 8, DONE_FIRST + 8 * k);
  expect(&e, "what was done", sum, lists * TASKS * (TASKS + 1) / 2);
  barrier(&e);
  if (e.me == 0) printf("stealing: %llu tasks\n", (unsigned long long)(lists * TASKS));
  end_example(&e);
  return 0;
}
