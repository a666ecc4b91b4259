/* Calls beside pointers: words of each width and kind, bytes in the native family, rows, buffers that are mapped themselves, the
 * blocks of the allocator, the root, eventcounts. */
#include "map_test.h"
#include "ivy_native.h"
#include "ivy_sync.h"

static uint64_t place_of(const volatile void *at) { return (uint64_t)((const volatile uint8_t *)at - (uint8_t *)ivy_map_base(ivy)); }

/* What one process writes by pointers another one finds by calls, and the other way round. */
static void words(volatile uint8_t *area) {
  uint64_t at = place_of(area), seen = 0;
  if (me == 0) for (int i = 0; i < 8; i++) area[i] = (uint8_t)(i + 1);
  ivy_map_barrier(ivy);
  must("a word of 8", ivy_load(ivy, 8, at), 0x0102030405060708u);
  must("a word of 4", ivy_load(ivy, 4, at + 4), 0x05060708u);
  must("a word of 2", ivy_load(ivy, 2, at + 2), 0x0304u);
  must("a word of 1", ivy_load(ivy, 1, at + 7), 8);
  ivy_map_barrier(ivy);
  if (me == 0) {
    must("swap", ivy_swap(ivy, 2, at, 0xabcd), 0x0102u);
    must("compare and swap", ivy_compare_and_swap(ivy, 4, at + 4, 0x05060708u, 0x11223344u), 0x05060708u);
    must("compare and swap of another", ivy_compare_and_swap(ivy, 4, at + 4, 0x05060708u, 9), 0x11223344u);
    must("fetch and add", ivy_fetch_add(ivy, 1, at + 3, 0xff), 4);
    must("pages for which there is no number", ivy_map_malloc_pages(ivy, SIZE_MAX - 1) == NULL, 1);
    must("a misaligned word", ivy_call(ivy, IVY_LOAD, 4, at + 2, 0, 0, &seen), IVY_MISALIGNED);
    must("a width of 3", ivy_call(ivy, IVY_LOAD, 3, at, 0, 0, &seen), IVY_BAD_ARGUMENT);
  }
  ivy_map_barrier(ivy);
  must("bytes after calls", area[0] == 0xab && area[1] == 0xcd && area[3] == 3 && area[4] == 0x11 && area[7] == 0x44, 1);
  ivy_map_barrier(ivy);
  for (int i = 0; i < 50; i++) ivy_fetch_add(ivy, 8, at + 16, 1);
  ivy_map_barrier(ivy);
  must("a sum by calls", ivy_load(ivy, 8, at + 16), 50u * nodes);
  must("the last byte of the sum", area[23], (50 * nodes) & 0xff);
}

/* The native family has the bytes of pointers; a buffer may be mapped. */
static void native(volatile uint8_t *area) {
  volatile double *number = (volatile double *)(volatile void *)(area + 4096);
  uint64_t at = place_of(number);
  if (me == nodes - 1) *number = 2.5;
  ivy_map_barrier(ivy);
  must("a double", ivy_get_double(ivy, at) == 2.5, 1);
  ivy_map_barrier(ivy);
  ivy_add_double(ivy, at, 1);
  ivy_map_barrier(ivy);
  must("a sum of doubles", *number == 2.5 + nodes, 1);
  uint8_t *bytes = (uint8_t *)(uintptr_t)area + 2 * 4096;
  for (int i = 0; i < 3000 && me == 0; i++) bytes[i] = (uint8_t)(7 * i);
  ivy_map_barrier(ivy);
  if (me == nodes - 1) must("a copy within", ivy_get(ivy, place_of(bytes) + 3, bytes + 4096 - 77, 2000), IVY_DONE);
  ivy_map_barrier(ivy);
  for (int i = 0; i < 2000; i++) must("a byte of a copy", bytes[4096 - 77 + i], (uint8_t)(7 * (i + 3)));
  ivy_map_barrier(ivy);
  if (me == 0) must("a copy from it", ivy_put(ivy, place_of(bytes) + 8192 + 1, bytes, 3000), IVY_DONE);
  ivy_map_barrier(ivy);
  for (int i = 0; i < 3000; i++) must("a byte of a row", bytes[8192 + 1 + i], (uint8_t)(7 * i));
  uint64_t *value = (uint64_t *)(void *)(bytes + 4 * 4096) + me;
  must("a value that is mapped", ivy_call(ivy, IVY_LOAD, 8, at, 0, 0, value), IVY_DONE);
  must("a row in the runtime's pages", ivy_read(ivy, 8192, bytes + 5 * 4096, 8), IVY_DONE);
  must("a row past the memory", ivy_read(ivy, 256 * 4096, value, 8), IVY_OUT_OF_RANGE);
}

static void blocks(void) {
  void *many[20];
  for (int i = 0; i < 20; i++) {
    many[i] = i % 2 ? ivy_map_malloc(ivy, (size_t)(1 + 37 * i)) : ivy_map_malloc_pages(ivy, (size_t)(1 + 300 * i));
    must("a block", many[i] != NULL, 1);
    must("where it lies", (uintptr_t)many[i] % (i % 2 ? 16 : 4096), 0);
    memset(many[i], (int)(me + 1), (size_t)(1 + 37 * i));
  }
  ivy_map_barrier(ivy);
  for (int i = 0; i < 20; i++) {
    must("a byte of a block", ((uint8_t *)many[i])[37 * i], me + 1);
    ivy_map_free(ivy, many[i]);
  }
  must("a block without room", ivy_map_malloc(ivy, (size_t)1 << 40) == NULL, 1);
}

static void counts(volatile uint8_t *area) {
  volatile uint64_t *number = (volatile uint64_t *)(volatile void *)(area + 9 * 4096);
  for (uint64_t round = 1; round <= 20; round++) {
    if (me == 0) *number = round;
    if (me == 0) ivy_advance(ivy, 3);
    ivy_await(ivy, 3, round);
    must("a number behind an await", *number, round);
    ivy_advance(ivy, 4);
    ivy_await(ivy, 4, round * nodes);
  }
}

int main(void) {
  begin_test_of(256, 0);
  volatile uint8_t *area = (volatile uint8_t *)shared_pages(10 * 4096);
  words(area);
  native(area);
  blocks();
  ivy_map_barrier(ivy);
  counts(area);
  ivy_map_barrier(ivy);
  tell_counts("calls", 0);
  return ivy_finalize(ivy);
}
