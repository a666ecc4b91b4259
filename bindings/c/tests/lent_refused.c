/* Pages that are lent, and all that is refused beside them: the functions at a closed handle, a page or lending that is none, the first
 * page, one that is away, locked or waited for, one given back for more than it was lent, calls and blocks on it, strings that are no
 * frames or another's, and those that would take it. The same moves are made with these mistakes and without: all strings, turns and
 * bytes are the same. */
#include "ivy.h"
#include <stdio.h>
#include <stdlib.h>
#include <string.h>

enum { SIZE = 64, FRAME = SIZE + 41, NODES = 3, MOST_TRACE = 1 << 16, READ_PAGE = 1, OWN_PAGE = 2, AWAY_PAGE = 3, HELD_PAGE = 4 };
enum { SOURCE = 4, DESTINATION, PAGE_NUMBER = 33 }; /* where in a frame */

typedef struct { uint8_t bytes[FRAME]; size_t len; uint32_t dest; } string;

static ivy_node node[NODES];
static uint32_t pages, lent[HELD_PAGE + 1], here[HELD_PAGE + 1]; /* at node 1: what each page is lent for, and may be */
static int makes_mistakes;
static uint8_t trace[2][MOST_TRACE];
static size_t traced[2];

static void must(const char *what, int is_so) {
  if (is_so) return;
  fprintf(stderr, "lent: %s is wrong, of %u pages\n", what, pages);
  abort();
}

static void note(const void *bytes, size_t len) {
  must("room for the trace", traced[makes_mistakes] + len <= MOST_TRACE);
  memcpy(trace[makes_mistakes] + traced[makes_mistakes], bytes, len);
  traced[makes_mistakes] += len;
}

static void is(const char *what, uint32_t status, uint32_t should) {
  if (status != should) fprintf(stderr, "lent: %s: %s, and not: %s\n", what, ivy_status_text(status), ivy_status_text(should));
  must(what, status == should);
}

/* ---- A closed handle ------------------------------------------------------------------------------------------------- */

static void closed(void) {
  ivy_node none = IVY_NONE;
  uint8_t bytes[SIZE] = { 0 };
  uint32_t page, on;
  size_t words;
  for (int again = 0; again < 2; again++) {
    is("ivy_lend at a closed handle", ivy_lend(&none, 1, IVY_TO_READ), IVY_CLOSED);
    is("ivy_lend of nothing at a closed handle", ivy_lend(&none, 0, 7), IVY_CLOSED);
    is("ivy_give_back at a closed handle", ivy_give_back(&none, 1, IVY_UNLENT), IVY_CLOSED);
    is("ivy_wanted at a closed handle", ivy_wanted(&none, bytes, SIZE, &page, &on), IVY_CLOSED);
    is("ivy_wanted of no bytes at a closed handle", ivy_wanted(&none, NULL, 0, &page, &on), IVY_CLOSED);
    is("ivy_go_on at a closed handle", ivy_go_on(&none, 1, &page, &on), IVY_CLOSED);
    is("ivy_go_on of no node at a closed handle", ivy_go_on(&none, 255, &page, &on), IVY_CLOSED);
    is("ivy_fetch at a closed handle", ivy_fetch(&none, 1, IVY_TO_READ, &page), IVY_CLOSED);
    is("ivy_fetch of nothing at a closed handle", ivy_fetch(&none, 99, IVY_UNLENT, &page), IVY_CLOSED);
    is("ivy_begin_load_block at a closed handle", ivy_begin_load_block(&none, SIZE, bytes, SIZE, &words), IVY_CLOSED);
    is("ivy_begin_store_block at a closed handle", ivy_begin_store_block(&none, SIZE, bytes, SIZE, &words), IVY_CLOSED);
    is("ivy_take_load_block at a closed handle", ivy_take_load_block(&none, SIZE, bytes, SIZE, &words), IVY_CLOSED);
    is("ivy_take_store_block at a closed handle", ivy_take_store_block(&none, SIZE, bytes, SIZE, &words), IVY_CLOSED);
    must("a closed handle", !none.at);
    if (!again) is("a node", ivy_open(&none, 2, 4, SIZE, IVY_FIXED, 0), IVY_DONE);
    ivy_close(&none);
  }
}

/* ---- Mistakes at node 1 ---------------------------------------------------------------------------------------------- */

static void wrong_pages(void) {
  const uint32_t none[] = { 0, pages, pages + 1, UINT32_MAX };
  uint32_t begun;
  for (size_t i = 0; i < sizeof none / sizeof *none; i++)
    for (uint32_t to = 0; to < 4; to++) {
      is("ivy_lend of the first page, or of none", ivy_lend(&node[1], none[i], to), IVY_BAD_ARGUMENT);
      is("ivy_give_back of the first page, or of none", ivy_give_back(&node[1], none[i], to), IVY_BAD_ARGUMENT);
      if (none[i]) is("ivy_fetch of no page", ivy_fetch(&node[1], none[i], to, &begun), IVY_BAD_ARGUMENT);
    }
  for (uint32_t page = 1; page <= HELD_PAGE; page++) {
    is("a lending that is none", ivy_lend(&node[1], page, IVY_UNLENT), IVY_BAD_ARGUMENT);
    is("a lending above all", ivy_lend(&node[1], page, 3), IVY_BAD_ARGUMENT);
    is("a page given back for such a lending", ivy_give_back(&node[1], page, UINT32_MAX), IVY_BAD_ARGUMENT);
    is("a fetch for nothing", ivy_fetch(&node[1], page, IVY_UNLENT, &begun), IVY_BAD_ARGUMENT);
    is("a fetch for more than all", ivy_fetch(&node[1], page, 3, &begun), IVY_BAD_ARGUMENT);
    for (uint32_t to = IVY_TO_READ; to <= IVY_TO_WRITE && lent[page]; to++) {
      is("a fetch of a page that is lent", ivy_fetch(&node[1], page, to, &begun), IVY_DONE);
      must("that it is not fetched", !begun);
    }
    for (uint32_t to = IVY_TO_READ; to <= IVY_TO_WRITE; to++)
      if (to <= lent[page]) is("a page lent for as much already", ivy_lend(&node[1], page, to), IVY_BAD_ARGUMENT);
      else if (to > here[page]) is("a page away, locked or waited for", ivy_lend(&node[1], page, to), IVY_NO_PAGE);
    for (uint32_t on = lent[page]; on <= IVY_TO_WRITE; on++)
      is("a page given back for more than it was lent", ivy_give_back(&node[1], page, on), IVY_BAD_ARGUMENT);
  }
}

static void wrong_calls(int is_busy) {
  uint8_t bytes[SIZE] = { 0 };
  uint64_t value;
  size_t words;
  for (uint32_t page = 1; page <= HELD_PAGE; page++) {
    const uint64_t address = (uint64_t)page * SIZE;
    const uint32_t refused = is_busy ? IVY_BUSY : IVY_LENT, blocked = is_busy ? IVY_DONE : IVY_LENT;
    if (is_busy || lent[page] != IVY_UNLENT) {
      is("a store to a page that is lent", ivy_begin(&node[1], IVY_STORE, 1, address, 1, 0, &value), refused);
      is("an addition there", ivy_begin(&node[1], IVY_FETCH_AND_ADD, 8, address, 1, 0, &value), refused);
      is("a block of loads there, that waits", ivy_begin_load_block(&node[1], address, bytes, SIZE, &words), blocked);
      is("a block of stores there, that waits", ivy_begin_store_block(&node[1], address, bytes, SIZE, &words), blocked);
    }
    if (is_busy || lent[page] == IVY_TO_WRITE)
      is("a load from a page lent to be written", ivy_begin(&node[1], IVY_LOAD, 8, address, 0, 0, &value), refused);
    if (is_busy || lent[page] == IVY_TO_READ)
      is("a block of stores to one lent to be read", ivy_store_block(&node[1], address, bytes, SIZE, &words), blocked);
  }
}

/* Strings that are no frames, another's, of a page that is none, of another configuration, and cut ones of a good one. */
static void wrong_strings(const string *good) {
  string s = { { 'I', 'V', 2 }, 0, 0 };
  uint32_t page, on, verdict;
  for (s.len = 0; s.len < FRAME; s.len += 7) {
    is("what no frame takes", ivy_wanted(&node[1], s.bytes, s.len, &page, &on), IVY_DONE);
    must("no frame", ivy_deliver(&node[1], s.bytes, s.len, &verdict) >= IVY_SHORT_FRAME);
  }
  is("what nothing takes", ivy_wanted(&node[1], NULL, 0, &page, &on), IVY_DONE);
  is("nothing", ivy_deliver(&node[1], NULL, 0, &verdict), IVY_SHORT_FRAME);
  for (uint8_t peer = 0; peer < NODES; peer++)
    is("a node that goes on", ivy_go_on(&node[1], peer, &page, &on), peer == 1 ? IVY_BAD_ARGUMENT : IVY_DONE);
  is("a node that is none", ivy_go_on(&node[1], NODES, &page, &on), IVY_BAD_ARGUMENT);
  is("the last node that is none", ivy_go_on(&node[1], 255, &page, &on), IVY_BAD_ARGUMENT);
  if (!good) return;
  for (s = *good, s.len = 0; s.len < good->len; s.len++) {
    is("what a cut frame takes", ivy_wanted(&node[1], s.bytes, s.len, &page, &on), IVY_DONE);
    must("a cut frame", ivy_deliver(&node[1], s.bytes, s.len, &verdict) >= IVY_SHORT_FRAME);
  }
  s.bytes[DESTINATION] = s.bytes[SOURCE] ? 0 : 2;
  is("what another's frame takes", ivy_wanted(&node[1], s.bytes, s.len, &page, &on), IVY_DONE);
  is("another's frame", ivy_deliver(&node[1], s.bytes, s.len, &verdict), IVY_DONE);
  must("whose it is", verdict == IVY_NOT_MINE);
  s = *good;
  memset(s.bytes + PAGE_NUMBER, 0xff, 4);
  is("what a frame of no page takes", ivy_wanted(&node[1], s.bytes, s.len, &page, &on), IVY_DONE);
  is("a frame of no page", ivy_deliver(&node[1], s.bytes, s.len, &verdict), IVY_BAD_BODY);
}

/* All of it. A good string may be at hand. */
static void mistakes(int is_busy, const string *good) {
  wrong_pages();
  wrong_calls(is_busy);
  wrong_strings(good);
}

/* What is to be the same with mistakes and without. */
static void look(int is_busy, const string *good) {
  uint8_t bytes[SIZE];
  uint32_t sets[2];
  uint64_t turns;
  size_t words;
  if (makes_mistakes) mistakes(is_busy, good);
  is("turns", ivy_turns(&node[1], &turns), IVY_DONE);
  is("what is kept", ivy_kept_set(&node[1], &sets[0]), IVY_DONE);
  is("what is owed", ivy_owed_set(&node[1], &sets[1]), IVY_DONE);
  note(&turns, sizeof turns);
  note(sets, sizeof sets);
  is("no string", ivy_next_frame(&node[1], bytes, sizeof bytes, &words, sets), IVY_NO_FRAME);
  for (uint32_t page = 1; page <= HELD_PAGE && !is_busy; page++) {
    if (!lent[page]) continue;
    is("the bytes of a page that is lent", ivy_load_block(&node[1], (uint64_t)page * SIZE, bytes, SIZE, &words), IVY_DONE);
    must("how many they are", words == SIZE / 8);
    note(bytes, SIZE);
  }
}

/* ---- Moves ------------------------------------------------------------------------------------------------------------- */

static int next(uint32_t i, string *s) {
  if (ivy_next_frame(&node[i], s->bytes, FRAME, &s->len, &s->dest) != IVY_DONE) return 0;
  note(s->bytes, s->len);
  return 1;
}

static void deliver(const string *s, uint32_t should) {
  uint32_t verdict;
  is("a delivery", ivy_deliver(&node[s->dest], s->bytes, s->len, &verdict), IVY_DONE);
  must("its verdict", verdict == should);
}

/* Carries strings, but those to node `to`, until none is left: gives the last of these. */
static int carry(uint32_t to, string *last) {
  string s;
  int is_there = 0, is_moved = 1;
  while (is_moved) {
    is_moved = 0;
    for (uint32_t i = 0; i < NODES; i++)
      while (next(i, &s)) {
        is_moved = 1;
        if (s.dest != to) deliver(&s, IVY_NEXT);
        else {
          must("one string alone", !is_there);
          is_there = 1;
          *last = s;
        }
      }
  }
  return is_there;
}

static void begin(uint32_t i, uint32_t kind, uint32_t page, uint32_t should) {
  uint64_t value;
  is("a call", ivy_begin(&node[i], kind, 8, (uint64_t)page * SIZE, 5, 0, &value), should);
}

static void end(uint32_t i) {
  uint64_t value;
  string none;
  carry(NODES, &none);
  is("its reply", ivy_reply(&node[i], &value), IVY_DONE);
  note(&value, sizeof value);
}

/* Node 1 asks for a page, looks while it is on its way, and while the reply is there and not taken, and lends it. */
static void fetch(uint32_t page, uint32_t to) {
  uint64_t value;
  uint32_t taken, left;
  string s;
  begin(1, to == IVY_TO_WRITE ? IVY_FETCH_AND_ADD : IVY_LOAD, page, IVY_PENDING);
  must("a string to node 1", carry(1, &s));
  if (makes_mistakes) is("what a reply takes", ivy_wanted(&node[1], s.bytes, s.len, &taken, &left), IVY_DONE);
  look(1, &s);
  deliver(&s, IVY_NEXT);
  carry(NODES, &s);
  look(1, NULL);
  is("its reply", ivy_reply(&node[1], &value), IVY_DONE);
  here[page] = to;
  look(0, NULL);
  is("a page to be lent", ivy_lend(&node[1], page, to), IVY_DONE);
  lent[page] = to;
  look(0, NULL);
}

/* A string that takes a page: it is refused as often as it comes, and served once the page was given back. */
static void want(const string *s, uint32_t page, uint32_t on) {
  uint32_t verdict, taken, left;
  for (int times = 0; times < 1 + 3 * makes_mistakes; times++) {
    is("what it takes", ivy_wanted(&node[1], s->bytes, s->len, &taken, &left), IVY_WANTED);
    must("the page that it takes", taken == page && left == on);
    is("a string that takes a page", ivy_deliver(&node[1], s->bytes, s->len, &verdict), IVY_WANTED);
    if (times) mistakes(0, s);
  }
  is("a page given back", ivy_give_back(&node[1], page, on), IVY_DONE);
  lent[page] = on;
  here[page] = on;
  deliver(s, IVY_NEXT);
}

/* Two strings of node 0 in the other order: the later one is held, and takes a page that is lent. */
static void held(void) {
  string first, second;
  uint32_t page, on;
  begin(2, IVY_LOAD, HELD_PAGE, IVY_PENDING);
  must("a request that is sent on", carry(1, &first));
  begin(0, IVY_LOAD, OWN_PAGE, IVY_PENDING);
  must("a request", carry(1, &second));
  is("what a string ahead takes", ivy_wanted(&node[1], second.bytes, second.len, &page, &on), IVY_DONE);
  deliver(&second, IVY_AHEAD);
  look(0, NULL);
  deliver(&first, IVY_NEXT);
  carry(NODES, &first);
  for (int times = 0; times < 1 + 3 * makes_mistakes; times++) {
    is("a string that is held", ivy_go_on(&node[1], 0, &page, &on), IVY_WANTED);
    must("the page that it takes", page == OWN_PAGE && on == IVY_TO_READ);
    if (makes_mistakes) wrong_pages();
  }
  is("a page given back", ivy_give_back(&node[1], page, on), IVY_DONE);
  lent[page] = here[page] = on;
  is("a string that is held", ivy_go_on(&node[1], 0, &page, &on), IVY_DONE);
  end(0);
  end(2);
  look(0, NULL);
}

/* Refusals of the memory, and of a call in progress, come before those of a page that is lent. */
static void first_refusals(void) {
  uint64_t value, address = (uint64_t)OWN_PAGE * SIZE;
  is("an address between words", ivy_begin(&node[1], IVY_STORE, 8, address + 1, 0, 0, &value), IVY_MISALIGNED);
  is("an address of no page", ivy_begin(&node[1], IVY_STORE, 8, (uint64_t)pages * SIZE, 0, 0, &value), IVY_OUT_OF_RANGE);
  is("an address of the first page", ivy_begin(&node[1], IVY_STORE, 8, 0, 0, 0, &value), IVY_RESERVED);
  is("a kind that is none", ivy_begin(&node[1], 10, 8, address, 0, 0, &value), IVY_BAD_ARGUMENT);
  is("a width that is none", ivy_begin(&node[1], IVY_STORE, 3, address, 0, 0, &value), IVY_BAD_ARGUMENT);
}

static void run(uint32_t manager) {
  string s;
  memset(lent, 0, sizeof lent);
  memset(here, 0, sizeof here);
  traced[makes_mistakes] = 0;
  for (uint32_t i = 0; i < NODES; i++) is("a node", ivy_open(&node[i], NODES, pages, SIZE, manager, i), IVY_DONE);
  look(0, NULL);
  fetch(READ_PAGE, IVY_TO_READ);
  fetch(OWN_PAGE, IVY_TO_WRITE);
  /* the owner waits for acknowledgements: its page is locked there, and wanted here */
  begin(0, IVY_STORE, READ_PAGE, IVY_PENDING);
  must("an invalidation", carry(1, &s));
  for (uint32_t to = IVY_TO_READ; makes_mistakes && to <= IVY_TO_WRITE; to++)
    is("a page that is locked", ivy_lend(&node[0], READ_PAGE, to), IVY_NO_PAGE);
  want(&s, READ_PAGE, IVY_UNLENT);
  end(0);
  look(0, NULL);
  if (manager == IVY_DYNAMIC) {
    begin(1, IVY_STORE, HELD_PAGE, IVY_PENDING);
    end(1);
    here[HELD_PAGE] = IVY_TO_WRITE;
    held();
  } else {
    begin(2, IVY_LOAD, OWN_PAGE, IVY_PENDING);
    must("a request", carry(1, &s));
    want(&s, OWN_PAGE, IVY_TO_READ);
    end(2);
    look(0, NULL);
  }
  first_refusals();
  for (uint32_t i = 0; i < NODES; i++) ivy_close(&node[i]);
}

int main(void) {
  const uint32_t many[] = { 6, 300 };
  closed();
  for (uint32_t manager = IVY_FIXED; manager <= IVY_DYNAMIC; manager++)
    for (int i = 0; i < 2; i++) {
      pages = many[i];
      for (makes_mistakes = 0; makes_mistakes < 2; makes_mistakes++) run(manager);
      must("a node after refusals", traced[0] == traced[1] && !memcmp(trace[0], trace[1], traced[0]));
    }
  printf("lent: %zu bytes of strings and pages are the same\n", traced[0]);
  return 0;
}
