/* Calls that hit, to be counted by callgrind: PAGES KIND TIMES, at node 0 of two, on a word of page 1. */
#include "ivy.h"
#include <stdlib.h>

enum { PAGE = 256 };

int main(int argc, char **argv) {
  static ivy_node node;
  uint64_t value = 0;
  if (argc < 4) return 2;
  uint32_t pages = (uint32_t)atoi(argv[1]), kind = (uint32_t)atoi(argv[2]);
  long times = atol(argv[3]);
  if (ivy_open(&node, 2, pages, PAGE, IVY_DYNAMIC, 0) != IVY_DONE) return 1;
  if (ivy_begin(&node, IVY_STORE, 8, PAGE, 1, 0, &value) != IVY_DONE) return 1; /* the page is made */
  for (long i = 0; i < times; i++)
    if (ivy_begin(&node, kind, 8, PAGE, (uint64_t)i, 0, &value) != IVY_DONE) return 1;
  return 0;
}
