/* Blocks against words: drawn blocks and words at two nodes, and pages fetched ahead, beside the bytes that they should find. A block that hits goes
 * as far as its page and its buffer do; one that does nothing has a word whose call waits or is refused. */
#include "ivy.h"
#include <stdio.h>
#include <string.h>

enum { NODES = 2, PAGES = 4, PAGE = 256, HEAP = PAGES * PAGE, TIMES = 200000, ROOM = 2 * PAGE };

static ivy_node node[NODES];
static uint8_t should[HEAP];
static unsigned long waited; /* so many blocks */

static uint64_t seed = 88172645463325252ull;
static uint32_t draw(uint32_t n) {
  seed ^= seed << 13;
  seed ^= seed >> 7;
  seed ^= seed << 17;
  return (uint32_t)(seed >> 33) % n;
}

static uint64_t number_at(const uint8_t *bytes) {
  uint64_t number = 0;
  for (int i = 0; i < 8; i++) number = number << 8 | bytes[i];
  return number;
}

static void put_number(uint8_t *bytes, uint64_t number) {
  for (int i = 0; i < 8; i++) bytes[i] = (uint8_t)(number >> (56 - 8 * i));
}

/* Takes the strings of both nodes to where they go, until none waits. */
static int carry(void) {
  uint8_t bytes[IVY_FRAME_MOST(PAGE)];
  size_t len;
  uint32_t dest, what;
  for (int moved = 1; moved;) {
    moved = 0;
    for (int i = 0; i < NODES; i++)
      while (ivy_next_frame(&node[i], bytes, sizeof bytes, &len, &dest) == IVY_DONE) {
        if (ivy_deliver(&node[dest], bytes, len, &what) != IVY_DONE) return 1;
        moved = 1;
      }
  }
  return 0;
}

static uint32_t call(int i, uint32_t kind, uint32_t width, uint64_t place, uint64_t operand, uint64_t *value) {
  uint32_t status = ivy_begin(&node[i], kind, width, place, operand, 0, value);
  while (status == IVY_PENDING) {
    if (carry()) return IVY_BAD_ARGUMENT;
    status = ivy_reply(&node[i], value);
  }
  carry();
  return status;
}

/* A word, and the same word of the bytes that it should find. */
static int check_word(int i, uint64_t address) {
  uint64_t value = draw(1000000), found;
  if (draw(2)) {
    put_number(should + address, value);
    return call(i, IVY_STORE, 8, address, value, &found) != IVY_DONE;
  }
  return call(i, IVY_LOAD, 8, address, 0, &found) != IVY_DONE || found != number_at(should + address);
}

/* So many words lie from an address on in its page and in so many bytes. */
static size_t words_in(uint64_t address, size_t len) {
  size_t page = (PAGE - address % PAGE) / 8;
  return len / 8 < page ? len / 8 : page;
}

static int turns_more(int i, uint64_t before, uint64_t words) {
  uint64_t turns;
  return ivy_turns(&node[i], &turns) != IVY_DONE || turns - before != words;
}

/* A block at an aligned address of the heap. `sure`: the page is here to be written. */
static int check_block(int i, uint64_t address, size_t len, int sure) {
  uint8_t bytes[ROOM];
  size_t words = 1000, most = words_in(address, len);
  uint64_t turns;
  int stores = (int)draw(2);
  for (size_t k = 0; k < len; k++) bytes[k] = (uint8_t)draw(256);
  if (ivy_turns(&node[i], &turns) != IVY_DONE) return 1;
  uint32_t status = stores ? ivy_store_block(&node[i], address, bytes, len, &words)
                           : ivy_load_block(&node[i], address, bytes, len, &words);
  if (status != IVY_DONE || (words != most && (sure || words)) || turns_more(i, turns, words)) return 2;
  if (stores) memcpy(should + address, bytes, 8 * words);
  return memcmp(should + address, bytes, 8 * words) != 0;
}

/* No strings wait, and a block carries out nothing and leaves the word's call to say why. */
static int does_nothing(int i, uint64_t address, size_t len, uint32_t why) {
  uint8_t bytes[ROOM] = { 0 };
  size_t words = 1000, frame;
  uint64_t value;
  uint32_t dest;
  if (ivy_load_block(&node[i], address, bytes, len, &words) != IVY_DONE || words) return 1;
  words = 1000;
  if (ivy_store_block(&node[i], address, bytes, len, &words) != IVY_DONE || words) return 2;
  if (ivy_next_frame(&node[i], bytes, sizeof bytes, &frame, &dest) != IVY_NO_FRAME) return 3;
  return ivy_begin(&node[i], IVY_LOAD, 8, address, 0, 0, &value) == why ? 0 : 4;
}

static int refusals(void) {
  uint64_t value;
  if (call(0, IVY_STORE, 8, PAGE, 7, &value) != IVY_DONE) return 1;
  put_number(should + PAGE, 7);
  for (uint64_t off = 1; off < 8; off++)
    if (does_nothing(0, PAGE + off, ROOM, IVY_MISALIGNED)) return 2;
  for (size_t len = 0; len < 8; len++)
    if (does_nothing(0, PAGE, len, IVY_DONE)) return 3;
  if (does_nothing(0, 0, ROOM, IVY_RESERVED) || does_nothing(0, HEAP, ROOM, IVY_OUT_OF_RANGE)) return 4;
  if (does_nothing(0, UINT64_MAX - 7, ROOM, IVY_OUT_OF_RANGE)) return 5;
  /* a page that is not here, and one that came, while the call that asked for it has no reply yet */
  if (does_nothing(1, PAGE, ROOM, IVY_PENDING) || carry() || does_nothing(1, PAGE, ROOM, IVY_BUSY)) return 6;
  if (ivy_reply(&node[1], &value) != IVY_DONE || value != 7 || carry()) return 7;
  return 0;
}

static int closed(void) {
  ivy_node none = IVY_NONE;
  uint8_t bytes[8] = { 1, 2, 3, 4, 5, 6, 7, 8 };
  size_t words;
  return ivy_load_block(&none, PAGE, bytes, 8, &words) != IVY_CLOSED || bytes[7] != 8
         || ivy_store_block(&none, PAGE, bytes, 8, &words) != IVY_CLOSED;
}

/* A block that waits, also where its page is fetched to be read: all its words come with the page. Where nothing has to wait, or
 * the page is fetched to be written, nothing is done. */
static int check_waiting(int i, uint64_t address, size_t len) {
  uint8_t bytes[ROOM] = { 0 };
  size_t words = 1000, most = words_in(address, len);
  uint32_t status = ivy_begin_load_block(&node[i], address, bytes, len, &words);
  if (status == IVY_DONE) return words ? 12 : 0;
  if (status != IVY_PENDING || words != most || carry()) return 13;
  if (ivy_take_load_block(&node[i], address, bytes, len, &words) != IVY_DONE || words != most) return 14;
  waited++;
  return memcmp(should + address, bytes, 8 * words) != 0;
}

/* A page is asked for beside what is done next. */
static int fetch(int i, uint32_t page) {
  uint32_t begun;
  return ivy_fetch(&node[i], page, 1 + draw(2), &begun) != IVY_DONE || begun > 1;
}

static int drawn(void) {
  int status = 0;
  for (int k = 0; !status && k < TIMES; k++) {
    int i = (int)draw(NODES);
    uint64_t found, address = PAGE + 8 * draw((HEAP - PAGE) / 8);
    if (draw(4) == 0 && fetch(i, draw(PAGES))) return 11;
    if (draw(4) == 0) status = check_waiting(i, address, 8 + draw(ROOM - 8));
    else if (draw(3) == 0) status = check_word(i, address);
    else if (draw(2)) status = check_block(i, address, draw(ROOM), 0);
    else {
      if (carry() || call(i, IVY_STORE, 8, address, 1, &found) != IVY_DONE) return 9; /* no fetch takes the page then */
      put_number(should + address, 1);
      status = check_block(i, address, draw(ROOM), 1);
    }
    for (uint32_t n = 0; k % 64 == 0 && n < NODES; n++) ivy_pulse(&node[n], (uint8_t)(1 - n));
    if (k % 64 == 0 && carry()) return 10;
  }
  return status;
}

int main(void) {
  for (uint32_t manager = IVY_FIXED; manager <= IVY_STEADY; manager++) {
    memset(should, 0, sizeof should);
    for (uint32_t i = 0; i < NODES; i++)
      if (ivy_open_by(&node[i], NODES, PAGES, PAGE, manager, i)) return 1;
    int status = closed();
    if (status || (status = refusals())) return printf("refusals: %d\n", status), 1;
    if ((status = drawn())) return printf("drawn: %d\n", status), 1;
    for (int i = 0; i < NODES; i++) ivy_close(&node[i]);
  }
  printf("blocks: %lu waited\n", waited);
  return 0;
}
