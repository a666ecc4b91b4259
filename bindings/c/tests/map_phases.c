/* Random programs in phases beside an array: PHASES SEED. In each phase each byte of five pages belongs to a process, drawn down to
 * the bytes of a word, which writes it by bytes, unaligned words, copies or calls, or leaves it; then all compare all bytes with an
 * array of their own. Meanwhile a counter goes on by atomic additions. */
#include "map_test.h"
#include "ivy_native.h"

enum { PAGES = 5, BYTES = PAGES * 4096, MOST = 40 };

typedef struct { uint8_t bytes[BYTES]; uint64_t counter; } area;

static uint8_t should[BYTES], value[BYTES], owner[BYTES];

/* Who has which bytes: stretches of drawn lengths, some of them of whole pages. */
static void draw_owners(uint64_t *seed) {
  for (uint32_t at = 0, len; at < BYTES; at += len) {
    uint64_t kind = draw_next(seed) % 8;
    len = kind == 0 ? 4096 : 1 + (uint32_t)(draw_next(seed) % (kind < 3 ? 600 : MOST));
    if (len > BYTES - at) len = BYTES - at;
    memset(owner + at, (int)(draw_next(seed) % (nodes + 1)), len);
  }
  for (uint32_t i = 0; i < BYTES; i++) {
    value[i] = (uint8_t)draw_next(seed);
    if (owner[i] < nodes) should[i] = value[i];
  }
}

/* A stretch of own bytes is written in one of the ways. */
static void write_stretch(area *a, uint32_t at, uint32_t end, uint64_t *own) {
  uint8_t *to = a->bytes + at;
  uint64_t how = draw_next(own) % 5;
  uint32_t len = end - at, i = 0;
  if (how == 0) memcpy(to, value + at, len);
  for (; how == 1 && i + 8 <= len; i += 8) memcpy(to + i, value + at + i, 8);
  if (how == 2) ivy_put(ivy, (uint64_t)(to - (uint8_t *)ivy_map_base(ivy)), value + at, len);
  if (how == 3) {
    const uint8_t *from = value + at;
    uint8_t *into = to;
    size_t many = len;
    __asm__ volatile("rep movsb" : "+S"(from), "+D"(into), "+c"(many) : : "memory");
  }
  for (; (how == 1 || how == 4) && i < len; i++) ((volatile uint8_t *)to)[i] = value[at + i];
}

int main(int argc, char **argv) {
  int phases = argc > 1 ? atoi(argv[1]) : 8;
  uint64_t seed = argc > 2 ? strtoull(argv[2], NULL, 10) * 2654435761u + 88172645463325252u : 88172645463325252u;
  begin_test_of(64, 0);
  area *a = (area *)shared_pages(sizeof *a);
  uint64_t own = seed + 977 * (me + 1), added = 0;
  if (me == 0) memset(a, 0, sizeof *a);
  ivy_map_barrier(ivy);
  for (int phase = 0; phase < phases; phase++) {
    draw_owners(&seed);
    for (uint32_t at = 0, end; at < BYTES; at = end) {
      for (end = at + 1; end < BYTES && owner[end] == owner[at]; end++) continue;
      if (owner[at] == me) write_stretch(a, at, end, &own);
      if (draw_next(&own) % 16 == 0) added += __atomic_fetch_add(&a->counter, 1, __ATOMIC_SEQ_CST) < UINT64_MAX;
    }
    ivy_map_barrier(ivy);
    for (uint32_t i = 0; i < BYTES; i++)
      if (a->bytes[i] != should[i]) {
        fprintf(stderr, "node %u: phase %d, byte %u is %u and not %u, which node %u had\n", me, phase, i, a->bytes[i], should[i], owner[i]);
        _exit(1);
      }
    ivy_map_barrier(ivy);
  }
  ivy_call(ivy, IVY_FETCH_AND_ADD, 8, 4096 + 64, added, 0, &own);
  ivy_map_barrier(ivy);
  must("the counter", a->counter, ivy_load(ivy, 8, 4096 + 64));
  tell_counts("phases", added);
  return ivy_finalize(ivy);
}
