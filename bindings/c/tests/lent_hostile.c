/* Forged frames at a node that lends pages: SEEDS. Whatever comes, a page that is lent stays as it is, to be loaded, and to be stored
 * where it is lent for that, until it is given back; and ivy_wanted says exactly which strings are not served. */
#include "ivy.h"
#include <stdio.h>
#include <stdlib.h>
#include <string.h>

/* Kinds of frames are 1 to 6 here: about pages. Where in a frame is what. */
enum { SIZE = 64, USED = 4, NODES = 3, HEAD = 24, MOST_FRAME = HEAD + SIZE + 17, MOVES = 400 };
enum { KIND = 3, SOURCE, DESTINATION, LENGTH, NUMBER = 8, KNOWN = 16, ORIGIN = HEAD, CALL, PAGE = CALL + 8, SET = PAGE + 4 };
enum { READ_REPLY = 3, WRITE_REPLY = 4 };

typedef struct { uint8_t bytes[MOST_FRAME]; size_t len; } string;

static ivy_node node;
static uint8_t lent[USED];
static uint64_t next[NODES]; /* the number of the next message of each */
static unsigned long seed_number, wanted, served, given;

static uint64_t seed;
static uint32_t draw(uint32_t n) {
  seed = seed * 6364136223846793005u + 1442695040888963407u;
  return (uint32_t)(seed >> 33) % n;
}

static void must(const char *what, int is_so) {
  if (is_so) return;
  fprintf(stderr, "lent: seed %lu: %s is wrong\n", seed_number, what);
  abort();
}

static void put(uint8_t *to, uint64_t number, int bytes) {
  for (int i = 0; i < bytes; i++) to[i] = (uint8_t)(number >> 8 * (bytes - 1 - i));
}

/* Any page, also the first one, for anything. */
static void lend_any(void) {
  uint32_t page = draw(USED), to = 1 + draw(2), status = ivy_lend(&node, page, to);
  if (status == IVY_BAD_ARGUMENT) must("a refusal to lend", page == 0 || to <= lent[page]);
  else must("what is lent", status == IVY_NO_PAGE || (status == IVY_DONE && page && to > lent[page]));
  if (status == IVY_DONE) lent[page] = (uint8_t)to;
}

static void give_back(uint32_t page, uint32_t on) {
  must("what is given back", page < USED && lent[page] > on && ivy_give_back(&node, page, on) == IVY_DONE);
  lent[page] = (uint8_t)on;
  given++;
}

static void give_back_any(void) {
  uint32_t page = draw(USED), on = draw(3);
  if (lent[page] > on) give_back(page, on);
  else must("a refusal to take back", ivy_give_back(&node, page, on) == IVY_BAD_ARGUMENT);
}

/* A frame about a page, from one of the others, which is often its next one; now and then with a bit that is turned. */
static string forge(void) {
  string s;
  uint32_t kind = 1 + draw(6), source = 1 + draw(NODES - 1);
  size_t body = kind == READ_REPLY ? SIZE + 13 : kind == WRITE_REPLY ? SIZE + 17 : 13;
  memset(&s, 0, sizeof s);
  s.len = HEAD + body;
  s.bytes[0] = 'I';
  s.bytes[1] = 'V';
  s.bytes[2] = 2;
  s.bytes[KIND] = (uint8_t)kind;
  s.bytes[SOURCE] = (uint8_t)source;
  s.bytes[DESTINATION] = (uint8_t)(draw(8) ? 0 : NODES - source);
  put(s.bytes + LENGTH, body, 2);
  put(s.bytes + NUMBER, next[source] + (draw(4) ? 0 : draw(5)), 8);
  s.bytes[ORIGIN] = (uint8_t)draw(NODES);
  put(s.bytes + CALL, 1 + draw(3), 8);
  put(s.bytes + PAGE, draw(USED), 4);
  if (kind == WRITE_REPLY) put(s.bytes + SET, draw(8), 4);
  if (draw(10) == 0) s.bytes[draw(HEAD)] ^= (uint8_t)(1 << draw(8));
  return s;
}

static uint64_t get(const uint8_t *from, int bytes) {
  uint64_t number = 0;
  for (int i = 0; i < bytes; i++) number = number << 8 | from[i];
  return number;
}

static void deliver(const string *s) {
  uint32_t verdict = IVY_NOT_MINE, page, on, source = s->bytes[SOURCE];
  uint64_t number = get(s->bytes + NUMBER, 8);
  int takes = ivy_wanted(&node, s->bytes, s->len, &page, &on) == IVY_WANTED;
  uint32_t status = ivy_deliver(&node, s->bytes, s->len, &verdict);
  must("what is told of a string", (status == IVY_WANTED) == takes);
  if (takes) {
    wanted++;
    must("the page that it takes", page < USED && lent[page] > on);
    if (draw(2)) return;
    give_back(page, on);
    status = ivy_deliver(&node, s->bytes, s->len, &verdict);
    must("the same string later", status == IVY_DONE && verdict == IVY_NEXT);
  }
  if (status != IVY_DONE || source >= NODES || verdict > IVY_REPEAT) return;
  served += verdict == IVY_NEXT;
  if (number >= next[source]) next[source] = number + 1; /* it was held, and the node went on with it */
}

/* The node goes on with what it holds. */
static void go_on(void) {
  uint32_t page, on, status;
  for (uint8_t peer = 1; peer < NODES; peer++)
    while ((status = ivy_go_on(&node, peer, &page, &on)) != IVY_DONE) {
      must("a held string that takes a page", status == IVY_WANTED && page < USED && lent[page] > on);
      if (draw(2)) break;
      give_back(page, on);
    }
}

/* What is lent is here. */
static void look_at_lent(void) {
  uint8_t bytes[SIZE];
  size_t words;
  for (uint32_t page = 1; page < USED; page++) {
    if (!lent[page]) continue;
    must("a page that is lent", !ivy_load_block(&node, (uint64_t)page * SIZE, bytes, SIZE, &words) && words == SIZE / 8);
    uint32_t status = ivy_store_block(&node, (uint64_t)page * SIZE, bytes, SIZE, &words);
    if (lent[page] == IVY_TO_READ) must("a store to one lent to be read", status == IVY_LENT);
    else must("a store to one lent to be written", status == IVY_DONE && words == SIZE / 8);
  }
}

int main(int argc, char **argv) {
  unsigned long seeds = argc > 1 ? strtoul(argv[1], NULL, 10) : 400;
  for (seed_number = 0; seed_number < seeds; seed_number++) {
    seed = seed_number * 977 + 7;
    node = ivy_none();
    memset(lent, 0, sizeof lent);
    for (int i = 0; i < NODES; i++) next[i] = 1;
    must("a node", !ivy_open(&node, NODES, seed_number % 2 ? USED : 300, SIZE, seed_number / 2 % 2 ? IVY_DYNAMIC : IVY_FIXED, 0));
    for (int times = 0; times < MOVES; times++) {
      if (draw(4) == 0) lend_any();
      if (draw(16) == 0) give_back_any();
      const string s = forge();
      deliver(&s);
      go_on();
      look_at_lent();
    }
    ivy_close(&node);
  }
  printf("lent: %lu forged strings wanted a page, %lu were served, %lu pages given back\n", wanted, served, given);
  return seeds >= 100 && (!wanted || !served || !given);
}
