/* uthash in mapped memory: one hash table of plain pointers, grown and looked up by all processes under a lock. */
#include "../../examples/pointers/pointers.h"
static void *get(size_t bytes);
static void give(void *block);
#define uthash_malloc(size) get(size)
#define uthash_free(block, size) give(block)
#include <uthash.h>

enum { EACH = 60 };

typedef struct { int key; uint32_t by; UT_hash_handle hh; } item;

static void *get(size_t bytes) { return ivy_map_malloc(ivy, bytes); }
static void give(void *block) { ivy_map_free(ivy, block); }

int main(int argc, char **argv) {
  begin(argc, argv);
  item **head = (item **)shared(4096), *found;
  for (int i = 0; i < EACH; i++) {
    int key = i * (int)nodes + (int)me;
    ivy_map_lock_acquire(ivy, 3);
    item *own = (item *)get(sizeof *own);
    memset(own, 0, sizeof *own);
    own->key = key;
    own->by = me;
    HASH_ADD_INT(*head, key, own);
    int before = key - (int)nodes;
    if (i % 3 == 2) {
      HASH_FIND_INT(*head, &before, found);
      expect("a key of its own", found && found->by == me);
      HASH_DEL(*head, found);
      give(found);
    }
    ivy_map_lock_release(ivy, 3);
  }
  ivy_map_barrier(ivy);
  for (int key = 0; key < EACH * (int)nodes; key++) {
    HASH_FIND_INT(*head, &key, found);
    expect("a key", ((key / (int)nodes) % 3 != 1) == (found != NULL) && (!found || found->by == (uint32_t)key % nodes));
  }
  expect("how many keys there are", HASH_COUNT(*head) == EACH * nodes * 2 / 3);
  return end();
}
