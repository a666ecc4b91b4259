/* What ivy.h gives a program to write: a status of its own type, also in C++, and a node that is nothing again. */
#include "ivy.h"

int main(void) {
  ivy_node node = IVY_NONE;
  uint64_t value;
  ivy_status status = ivy_open(&node, 2, 4, 256, IVY_DYNAMIC, 0);
  if (status != IVY_DONE) return 1;
  ivy_close(&node);
  node = ivy_none();
  return ivy_reply(&node, &value) != IVY_CLOSED;
}
