/* ivy_read and ivy_write: by turns a node writes a drawn row, and all read drawn rows, of any length and over the ends of
 * pages, beside the bytes that they should find and the same words one by one. */
#include "../examples/example.h"

enum { PAGES = 6, PAGE = 256, WORDS = (PAGES - 1) * PAGE / 8, ROUNDS = 60, END = PAGES * PAGE };

static uint8_t should[8 * WORDS];

/* All nodes draw the same. */
static uint64_t seed = 88172645463325252ull;
static uint32_t draw(uint32_t n) {
  seed ^= seed << 13;
  seed ^= seed >> 7;
  seed ^= seed << 17;
  return (uint32_t)(seed >> 33) % n;
}

static uint64_t number_at(const uint8_t *bytes) {
  uint64_t number = 0;
  for (int i = 0; i < 8; i++) number = number << 8 | bytes[i];
  return number;
}

static void write_row(example *e, uint32_t first, uint32_t words, int mine) {
  for (uint32_t k = 8 * first; k < 8 * (first + words); k++) should[k] = (uint8_t)draw(256);
  if (mine) expect(e, "a row that is written", ivy_write(e->ivy, PAGE + 8 * first, should + 8 * first, 8 * words), IVY_DONE);
}

static void read_row(example *e, uint32_t first, uint32_t words) {
  uint8_t bytes[8 * WORDS];
  expect(e, "a row that is read", ivy_read(e->ivy, PAGE + 8 * first, bytes, 8 * words), IVY_DONE);
  for (uint32_t k = 0; k < words; k++)
    expect(e, "a word of a row", number_at(bytes + 8 * k), number_at(should + 8 * (first + k)));
  if (words) expect(e, "the same word", ivy_load(e->ivy, 8, PAGE + 8 * first), number_at(should + 8 * first));
}

/* A row is refused as its first word that is refused, and the words before that are carried out. */
static void refuse(example *e) {
  uint8_t bytes[32] = { 0 };
  for (uint64_t off = 1; off < 8; off++) {
    expect(e, "a misaligned read", ivy_read(e->ivy, PAGE + off, bytes, 16), IVY_MISALIGNED);
    expect(e, "a misaligned write", ivy_write(e->ivy, PAGE + off, bytes, 16), IVY_MISALIGNED);
    expect(e, "a read of part of a word", ivy_read(e->ivy, PAGE, bytes, 8 + off), IVY_BAD_ARGUMENT);
    expect(e, "a write of part of a word", ivy_write(e->ivy, PAGE, bytes, 8 + off), IVY_BAD_ARGUMENT);
  }
  expect(e, "a read of the first page", ivy_read(e->ivy, PAGE - 8, bytes, 16), IVY_RESERVED);
  expect(e, "a read past the heap", ivy_read(e->ivy, END - 16, bytes, 32), IVY_OUT_OF_RANGE);
  expect(e, "a word before the end", number_at(bytes + 8), number_at(should + 8 * (WORDS - 1)));
  for (int i = 0; i < 32; i++) bytes[i] = (uint8_t)i;
  expect(e, "a write past the heap", ivy_write(e->ivy, END - 8, bytes, 32), IVY_OUT_OF_RANGE);
  expect(e, "the last word", ivy_load(e->ivy, 8, END - 8), number_at(bytes));
  expect(e, "nothing", ivy_read(e->ivy, PAGE, bytes, 0), IVY_DONE);
}

int main(int argc, char **argv) {
  example e;
  begin_example(&e, argc, argv, PAGES, PAGE);
  for (uint32_t round = 0; round < ROUNDS; round++) {
    uint32_t first = draw(WORDS), words = draw(WORDS - first + 1);
    write_row(&e, first, words, round % e.nodes == e.me);
    barrier(&e);
    first = draw(WORDS);
    read_row(&e, first, draw(WORDS - first + 1));
    barrier(&e);
  }
  read_row(&e, 0, WORDS);
  barrier(&e);
  if (e.me == 0) refuse(&e);
  barrier(&e);
  if (e.me == 0) printf("rows: %d rounds\n", ROUNDS);
  end_example(&e);
  return 0;
}
