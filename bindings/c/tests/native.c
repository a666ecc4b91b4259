/* Bytes and numbers in the machine's own form: by turns a node puts drawn bytes anywhere, and all find them; all add to
 * numbers, and change them to the least, the greatest and by bits. */
#include "../examples/example.h"
#include "ivy_sync.h"

enum { PAGES = 6, PAGE = 256, FIRST = 2 * PAGE, BYTES = (PAGES - 2) * PAGE, ROUNDS = 60, EACH = 50 };

static uint8_t should[BYTES];

/* All nodes draw the same. */
static uint64_t seed = 88172645463325252ull;
static uint32_t draw(uint32_t n) {
  seed ^= seed << 13;
  seed ^= seed >> 7;
  seed ^= seed << 17;
  return (uint32_t)(seed >> 33) % n;
}

/* Two nodes put bytes that lie side by side at the same time, also in one word. */
static void put_bytes(example *e, uint32_t round) {
  uint32_t first = draw(BYTES), len = draw(BYTES - first + 1), middle = draw(len + 1);
  for (uint32_t k = first; k < first + len; k++) should[k] = (uint8_t)draw(256);
  if (round % e->nodes == e->me)
    expect(e, "a put", ivy_put(e->ivy, FIRST + first, should + first, middle), IVY_DONE);
  if ((round + 1) % e->nodes == e->me)
    expect(e, "a put", ivy_put(e->ivy, FIRST + first + middle, should + first + middle, len - middle), IVY_DONE);
}

static void get_bytes(example *e) {
  uint8_t found[BYTES];
  uint32_t first = draw(BYTES), len = draw(BYTES - first + 1);
  expect(e, "a get", ivy_get(e->ivy, FIRST + first, found, len), IVY_DONE);
  expect(e, "whether other bytes were found", memcmp(found, should + first, len) != 0, 0);
}

static void add_up(example *e) {
  uint32_t own = 1u << e->me;
  for (int i = 0; i < EACH; i++) {
    ivy_add_double(e->ivy, PAGE, 0.5);
    ivy_add_int32(e->ivy, PAGE + 8, -3);
    ivy_add_float(e->ivy, PAGE + 12, 2);
    ivy_min_int64(e->ivy, PAGE + 16, -(int64_t)i * (e->me + 1));
    ivy_max_double(e->ivy, PAGE + 24, i + e->me);
    ivy_xor_uint64(e->ivy, PAGE + 32, own);
  }
  ivy_or_uint32(e->ivy, PAGE + 40, own);
  ivy_and_uint32(e->ivy, PAGE + 44, ~own);
}

static void check_sums(example *e) {
  double sum = 0;
  expect(e, "a get of a double", ivy_get(e->ivy, PAGE, &sum, sizeof sum), IVY_DONE);
  expect(e, "the sum of doubles", (uint64_t)(2 * sum), EACH * (uint64_t)e->nodes);
  expect(e, "the sum of int32", (uint64_t)-ivy_get_int32(e->ivy, PAGE + 8), 3 * EACH * (uint64_t)e->nodes);
  expect(e, "the sum of floats", (uint64_t)ivy_get_float(e->ivy, PAGE + 12), 2 * EACH * (uint64_t)e->nodes);
  expect(e, "the least", (uint64_t)-ivy_get_int64(e->ivy, PAGE + 16), (EACH - 1) * (uint64_t)e->nodes);
  expect(e, "the greatest", (uint64_t)ivy_get_double(e->ivy, PAGE + 24), EACH - 1 + e->nodes - 1);
  expect(e, "what is turned twice", ivy_get_uint64(e->ivy, PAGE + 32), 0);
  expect(e, "bits that were set", ivy_get_uint32(e->ivy, PAGE + 40), (1u << e->nodes) - 1);
  expect(e, "bits that were cleared", ivy_get_uint32(e->ivy, PAGE + 44), 0xffffffffu << e->nodes);
}

/* Vectors of all nodes, and a word for which all wait. */
static void work_together(example *e) {
  double values[3] = { e->me + 1.0, -1.0 * e->me, 2.0 };
  uint64_t found = 0;
  ivy_barrier meet = { 1, e->nodes, 0 };
  const ivy_reduction vectors = { FIRST + 8, &meet };
  expect(e, "a sum of vectors", ivy_reduction_doubles(e->ivy, &vectors, e->me, values, 3, ivy_sum_of_doubles), IVY_DONE);
  expect(e, "its first", (uint64_t)values[0], e->nodes * (uint64_t)(e->nodes + 1) / 2);
  expect(e, "its last", (uint64_t)values[2], 2 * (uint64_t)e->nodes);
  barrier(e);
  if (e->me == 0) ivy_store(e->ivy, 8, FIRST, 9);
  expect(e, "a wait", ivy_wait_until(e->ivy, 8, FIRST, IVY_EQ, 9, -1, &found), IVY_DONE);
  expect(e, "a wait for a time", ivy_wait_until(e->ivy, 8, FIRST, IVY_GT, 9, 2000, &found), IVY_TIMEOUT);
  expect(e, "what was seen", found, 9);
}

/* A block that was used before, and then is 0 or aligned. The heap has nothing else in it. */
static void allocate(example *e) {
  uint8_t bytes[40];
  memset(bytes, 1, sizeof bytes);
  uint64_t block = ivy_alloc(e->ivy, sizeof bytes);
  ivy_put(e->ivy, block, bytes, sizeof bytes);
  ivy_free(e->ivy, block);
  uint64_t again = ivy_calloc(e->ivy, sizeof bytes);
  ivy_get(e->ivy, again, bytes, sizeof bytes);
  for (size_t i = 0; i < sizeof bytes; i++) expect(e, "a byte of a new block", bytes[i], 0);
  uint64_t page = ivy_alloc_aligned(e->ivy, PAGE, PAGE);
  expect(e, "a block of a page", page % PAGE, 0);
  ivy_free_aligned(e->ivy, page);
  ivy_exit_on_error(e->ivy, 0);
  expect(e, "a block for which there is no number", ivy_alloc_aligned(e->ivy, UINT64_MAX - PAGE + 1, PAGE), 0);
  expect(e, "what is forgotten", ivy_forget(e->ivy), IVY_NO_ROOM);
  ivy_exit_on_error(e->ivy, 1);
  ivy_free(e->ivy, again);
  ivy_counts counts = ivy_counts_of(e->ivy);
  expect(e, "whether calls waited", counts.waits > 0 && counts.calls >= counts.waits && counts.sent && counts.heard, 1);
}

int main(int argc, char **argv) {
  example e;
  begin_example(&e, argc, argv, PAGES, PAGE);
  for (uint32_t round = 0; round < ROUNDS; round++) {
    put_bytes(&e, round);
    barrier(&e);
    get_bytes(&e);
    barrier(&e);
  }
  if (e.me == 0) ivy_put_uint32(e.ivy, PAGE + 44, 0xffffffffu);
  barrier(&e);
  add_up(&e);
  barrier(&e);
  check_sums(&e);
  barrier(&e);
  work_together(&e);
  barrier(&e);
  if (e.me == e.nodes - 1) allocate(&e);
  if (e.me == 0) printf("native: %u nodes\n", e.nodes);
  end_example(&e);
  return 0;
}
