/* Blocks of many pages while others write: each node writes its own words in one block, which ends within pages of others, and all
 * read drawn blocks meanwhile, with hints of drawn ranges. Each word has where it stands, and the lap in which it was written: it is
 * never older than before. Then all read all of it. Options are those of the examples. */
#include "../examples/example.h"

enum { PAGES = 41, PAGE = 256, WORDS = (PAGES - 1) * PAGE / 8, LAPS = 25, READS = 6, SHIFT = 5 };

static uint8_t bytes[8 * WORDS];
static uint64_t seen[WORDS]; /* the lap of each word, as it was read last */

static uint64_t seed;
static uint32_t draw(uint32_t n) {
  seed ^= seed << 13;
  seed ^= seed >> 7;
  seed ^= seed << 17;
  return (uint32_t)(seed >> 33) % n;
}

static void put_number(uint8_t *at, uint64_t number) {
  for (int i = 0; i < 8; i++) at[i] = (uint8_t)(number >> (56 - 8 * i));
}

static uint64_t number_at(const uint8_t *at) {
  uint64_t number = 0;
  for (int i = 0; i < 8; i++) number = number << 8 | at[i];
  return number;
}

/* Where the words of a node begin, which end where those of the next one begin: in the middle of a page. */
static uint32_t first_of(const example *e, uint32_t node) {
  if (node == 0 || node == e->nodes) return node / e->nodes * WORDS;
  return node * WORDS / e->nodes + SHIFT;
}

static void write_own(example *e, uint64_t lap) {
  uint32_t first = first_of(e, e->me), many = first_of(e, e->me + 1) - first;
  for (uint32_t k = 0; k < many; k++) put_number(bytes + 8 * k, (uint64_t)(first + k) << 32 | lap);
  expect(e, "a block that is written", ivy_write(e->ivy, PAGE + 8 * first, bytes, 8 * many), IVY_DONE);
}

/* Some words, none of which is older than this lap. */
static void read_block(example *e, uint32_t first, uint32_t many, uint64_t least, uint64_t most) {
  expect(e, "a block that is read", ivy_read(e->ivy, PAGE + 8 * first, bytes, 8 * many), IVY_DONE);
  for (uint32_t k = 0; k < many; k++) {
    uint64_t number = number_at(bytes + 8 * k), lap = number & 0xffffffff;
    if (lap) expect(e, "where a word stands", number >> 32, first + k);
    expect(e, "whether a word is of its time", lap >= least && lap <= most && lap >= seen[first + k], 1);
    seen[first + k] = lap;
  }
}

static void read_meanwhile(example *e, uint64_t lap) {
  uint32_t first = draw(WORDS), soon = 8 * draw(WORDS);
  expect(e, "a hint", ivy_prefetch(e->ivy, PAGE + soon + draw(8), draw(8 * WORDS - soon - 7)), IVY_DONE);
  read_block(e, first, draw(WORDS - first + 1), lap - 1, lap);
}

int main(int argc, char **argv) {
  example e;
  begin_example(&e, argc, argv, PAGES, PAGE);
  seed = 88172645463325252ull + 977 * e.me;
  for (uint64_t lap = 1; lap <= LAPS; lap++) {
    write_own(&e, lap);
    for (int i = 0; i < READS; i++) read_meanwhile(&e, lap);
    barrier(&e);
    read_block(&e, 0, WORDS, lap, lap);
    barrier(&e);
  }
  if (e.me == 0) printf("ahead: %d laps\n", LAPS);
  end_example(&e);
  return 0;
}
