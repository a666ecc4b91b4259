/* Pages that are lent, by drawn moves of 2 to 5 nodes over a wire that loses, repeats and reorders: SEEDS. Loads and stores by images
 * and by calls, several calls in progress at a time, pages lent, given back, and fetched ahead: all of it beside one flat array, which is looked up or
 * changed when a call is carried out. A string is served exactly where it takes no page that is lent. */
#include "ivy.h"
#include <stdio.h>
#include <stdlib.h>
#include <string.h>

enum { SIZE = 64, FRAME = SIZE + 41, MOST_NODES = 5, MOST_PAGES = 300, USED = 3, WIRE = 1 << 16, MOVES = 600 };

typedef struct { uint8_t bytes[FRAME]; size_t len; uint32_t dest; } string;
typedef enum { NOTHING, LOADS, STORES, ASKS } work_kind;
typedef struct { work_kind kind; uint32_t page, byte, to; uint8_t value; } work; /* a call in progress */

static uint32_t nodes, pages;
static ivy_node node[MOST_NODES];
static work works[MOST_NODES];
static uint8_t image[MOST_NODES][MOST_PAGES][SIZE], lent[MOST_NODES][MOST_PAGES], flat[MOST_PAGES][SIZE];
static string wire[WIRE];
static uint32_t under_way;
static unsigned long seed_number, wanted, wanted_later, gone, refused, hits, fetched;

static uint64_t seed;
static uint32_t draw(uint32_t n) {
  seed = seed * 6364136223846793005u + 1442695040888963407u;
  return (uint32_t)(seed >> 33) % n;
}

static void must(const char *what, int is_so) {
  if (is_so) return;
  fprintf(stderr, "lent: seed %lu: %s is wrong\n", seed_number, what);
  abort();
}

static uint64_t address_of(uint32_t page) { return (uint64_t)page * SIZE; }

/* ---- Pages ------------------------------------------------------------------------------------------------------------- */

/* Before a call begins all that may have been written is kept; while it waits, nothing can be. */
static void keep(uint32_t i, uint32_t page) {
  size_t words;
  must("a page that is kept", !ivy_store_block(&node[i], address_of(page), image[i][page], SIZE, &words) && words == SIZE / 8);
}

static void give_back(uint32_t i, uint32_t page, uint32_t on) {
  must("what is given back", lent[i][page] > on);
  if (lent[i][page] == IVY_TO_WRITE && works[i].kind == NOTHING) keep(i, page);
  must("a page that is given back", ivy_give_back(&node[i], page, on) == IVY_DONE);
  lent[i][page] = (uint8_t)on;
}

/* A page came: it is lent, unless it is gone already. */
static void lend(uint32_t i, uint32_t page, uint32_t to) {
  size_t words;
  must("a load of a page", ivy_load_block(&node[i], address_of(page), image[i][page], SIZE, &words) == IVY_DONE);
  uint32_t status = ivy_lend(&node[i], page, to);
  if (status == IVY_NO_PAGE) {
    gone++;
    return;
  }
  must("a page that is lent", status == IVY_DONE && words == SIZE / 8 && !memcmp(image[i][page], flat[page], SIZE));
  lent[i][page] = (uint8_t)to;
}

/* ---- Calls ------------------------------------------------------------------------------------------------------------- */

/* What a call did is done now, in the one memory too. */
static void finish(uint32_t i, uint64_t value) {
  const work w = works[i];
  works[i].kind = NOTHING;
  if (w.kind == LOADS) must("a load", value == flat[w.page][w.byte]);
  if (w.kind == STORES) flat[w.page][w.byte] = w.value;
  if (w.kind == ASKS) lend(i, w.page, w.to);
}

static void look(uint32_t i) {
  uint64_t value;
  if (works[i].kind == NOTHING) return;
  uint32_t status = ivy_reply(&node[i], &value);
  must("a reply", status == IVY_DONE || status == IVY_PENDING);
  if (status == IVY_DONE) finish(i, value);
}

static void begin(uint32_t i, work w) {
  uint64_t value, address = address_of(w.page) + w.byte;
  uint32_t kind = w.kind == LOADS ? IVY_LOAD : w.kind == STORES ? IVY_STORE : w.to == IVY_TO_WRITE ? IVY_FETCH_AND_ADD : IVY_LOAD;
  for (uint32_t page = 1; page < pages; page++)
    if (lent[i][page] == IVY_TO_WRITE) keep(i, page);
  uint32_t status = ivy_begin(&node[i], kind, 1, address, w.kind == STORES ? w.value : 0, 0, &value);
  int is_lent = lent[i][w.page] == IVY_TO_WRITE || (lent[i][w.page] == IVY_TO_READ && kind != IVY_LOAD);
  must("a call on a page that is lent", (status == IVY_LENT) == is_lent);
  refused += status == IVY_LENT;
  if (status == IVY_LENT) return;
  must("a call", status == IVY_DONE || status == IVY_PENDING);
  works[i] = w;
  if (status == IVY_DONE) finish(i, value);
}

/* A page that is lent is not fetched. */
static void fetch(uint32_t i, uint32_t page, uint32_t to) {
  uint32_t begun = 2;
  must("a fetch", ivy_fetch(&node[i], page, to, &begun) == IVY_DONE && begun < 2);
  must("a fetch of a page that is lent", !begun || !lent[i][page]);
  fetched += begun;
}

/* ---- Strings ------------------------------------------------------------------------------------------------------------- */

static void collect(void) {
  for (uint32_t i = 0; i < nodes; i++)
    while (under_way < WIRE && !ivy_next_frame(&node[i], wire[under_way].bytes, FRAME, &wire[under_way].len, &wire[under_way].dest)) under_way++;
  must("room on the wire", under_way < WIRE);
}

static void go_on(uint32_t i) {
  uint32_t page, on, status;
  for (uint32_t peer = 0; peer < nodes; peer++)
    while (peer != i && (status = ivy_go_on(&node[i], (uint8_t)peer, &page, &on)) != IVY_DONE) {
      must("a held string that takes a page", status == IVY_WANTED && lent[i][page] > on);
      wanted_later++;
      look(i);
      if (lent[i][page] > on) give_back(i, page, on);
    }
  look(i);
}

static void deliver(const string *s) {
  uint32_t i = s->dest, verdict, page, on, again;
  int takes = ivy_wanted(&node[i], s->bytes, s->len, &page, &on) == IVY_WANTED;
  uint32_t status = ivy_deliver(&node[i], s->bytes, s->len, &verdict);
  must("what is told of a string", status == (takes ? (uint32_t)IVY_WANTED : (uint32_t)IVY_DONE));
  if (takes) {
    wanted++;
    again = ivy_deliver(&node[i], s->bytes, s->len, &verdict);
    must("a string that takes a page", again == IVY_WANTED && lent[i][page] > on);
    give_back(i, page, on);
    status = ivy_deliver(&node[i], s->bytes, s->len, &verdict);
    must("the same string later", status == IVY_DONE && verdict == IVY_NEXT);
  }
  look(i);
  if (draw(2)) go_on(i);
}

/* A drawn string comes, or is lost, or comes and stays; or where none is under way, all that is kept is sent again. */
static void move_strings(void) {
  collect();
  if (!under_way) {
    for (uint32_t i = 0; i < nodes; i++) {
      go_on(i);
      for (uint32_t peer = 0; peer < nodes; peer++) must("a pulse", peer == i || !ivy_pulse(&node[i], (uint8_t)peer));
    }
    return;
  }
  uint32_t which = draw(under_way), fate = draw(8);
  const string s = wire[which];
  if (fate != 1) wire[which] = wire[--under_way];
  if (fate) deliver(&s);
}

/* ---- Runs ---------------------------------------------------------------------------------------------------------------- */

static void move(void) {
  uint32_t i = draw(nodes), byte = draw(SIZE), page = (pages > 4 ? pages - 4 : 0) + 1 + draw(USED);
  const work w = { draw(2) ? LOADS : STORES, page, byte, 0, (uint8_t)draw(256) };
  const work asks = { ASKS, page, 0, 1 + draw(2), 0 };
  uint8_t *at = &image[i][page][byte];
  switch (draw(16)) {
    case 0: case 1: case 2:
      if (works[i].kind != NOTHING) break;
      if (lent[i][page]) give_back(i, page, IVY_UNLENT);
      begin(i, asks);
      break;
    case 3:
      if (works[i].kind == NOTHING) begin(i, w);
      break;
    case 4: case 5: case 6:
      if (!lent[i][page]) break;
      must("a byte of an image", *at == flat[page][byte]);
      hits++;
      break;
    case 7: case 8:
      if (lent[i][page] != IVY_TO_WRITE || works[i].kind != NOTHING) break;
      *at = flat[page][byte] = w.value;
      hits++;
      break;
    case 10: fetch(i, page, asks.to); break;
    case 9:
      if (lent[i][page]) give_back(i, page, draw(lent[i][page]));
      break;
    default: move_strings();
  }
}

int main(int argc, char **argv) {
  unsigned long seeds = argc > 1 ? strtoul(argv[1], NULL, 10) : 600;
  for (seed_number = 0; seed_number < seeds; seed_number++) {
    seed = seed_number * 977 + 5;
    nodes = 2 + (uint32_t)(seed_number % (MOST_NODES - 1));
    pages = seed_number % 3 == 0 ? 4 : seed_number % 3 == 1 ? 257 : MOST_PAGES;
    memset(image, 0, sizeof image);
    memset(flat, 0, sizeof flat);
    memset(lent, 0, sizeof lent);
    memset(works, 0, sizeof works);
    under_way = 0;
    for (uint32_t i = 0; i < nodes; i++) {
      node[i] = ivy_none();
      must("a node", !ivy_open(&node[i], nodes, pages, SIZE, seed_number / 3 % 2 ? IVY_DYNAMIC : IVY_FIXED, i));
    }
    for (int times = 0; times < MOVES; times++) move();
    for (uint32_t i = 0; i < nodes; i++) ivy_close(&node[i]);
  }
  printf("lent: %lu strings wanted a page, %lu that were held, %lu pages were gone, %lu fetched, %lu calls refused, %lu accesses\n", wanted,
         wanted_later, gone, fetched, refused, hits);
  return seeds >= 100 && (!wanted || !wanted_later || !gone || !fetched || !refused || !hits);
}
