/* Words in a row, and pages that are fetched ahead of need. Not proved. */
#define _POSIX_C_SOURCE 200809L
#include "ivy_inside.h"

/* Words in a row, which are loaded `into` a buffer or stored `from` one, and how many of its bytes are done. Its last page, where
 * pages behind one that is not here are fetched ahead, else 0; and once one was not here, the page behind those that were. */
typedef struct { uint32_t kind; uint64_t address; uint8_t *into; const uint8_t *from; size_t len, done; uint64_t last, next; } row;

static uint64_t page_at(const ivy_process *p, uint64_t address) { return address / p->config.page_size; }
static uint64_t end_of(const ivy_process *p) { return (uint64_t)p->config.page_size * p->config.pages; }

/* None is fetched for a row that is refused. */
static uint64_t last_ahead(const ivy_process *p, const row *r) {
  uint64_t end = end_of(p), at = r->address;
  if (at % 8 || at < p->config.page_size || at >= end || r->len < 8) return 0;
  return page_at(p, r->len < end - at ? at + r->len - 1 : end - 1);
}

/* The pages behind this one that may be fetched now, some together, so that they are asked for by one string. Each is fetched
 * once: one that came and is gone again is asked for by its words. So what is fetched keeps no row from its end. */
static void fetch_behind(ivy_process *p, row *r, uint64_t page) {
  uint64_t last = page + p->ahead < r->last ? page + p->ahead : r->last;
  uint32_t begun, to = r->kind == IVY_LOAD ? IVY_TO_READ : IVY_TO_WRITE;
  if (r->next <= page) r->next = page + 1;
  if (r->next > last || (last < r->last && last - r->next < p->ahead / 2)) return;
  while (r->next <= last && ivy_in_fetch(p, (uint32_t)r->next, to, &begun) == IVY_DONE) r->next++;
  ivy_in_send_together(p);
}

/* The words that can be carried out at once. */
static void go_on_at_once(ivy_process *p, row *r) {
  size_t words = 0, left = r->len - r->done;
  uint64_t address = r->address + r->done;
  if (!left) return;
  if (r->kind == IVY_LOAD) ivy_load_block(&p->node, address, r->into + r->done, left, &words);
  else ivy_store_block(&p->node, address, r->from + r->done, left, &words);
  r->done += 8 * words;
}

/* The words for whose page is waited, all at once. Where no word has to wait, none. */
static void go_on_together(ivy_process *p, row *r) {
  size_t words = 0, left = r->len - r->done;
  uint64_t address = r->address + r->done;
  uint32_t status;
  if (!left) return;
  if (r->kind == IVY_LOAD) status = ivy_begin_load_block(&p->node, address, r->into + r->done, left, &words);
  else status = ivy_begin_store_block(&p->node, address, r->from + r->done, left, &words);
  if (status != IVY_PENDING) return;
  p->in_call = 1;
  p->counts.misses++;
  ivy_in_send_frames(p);
  for (words = 0; !words && !ivy_in_is_over(p);) {
    ivy_in_wait(p);
    if (r->kind == IVY_LOAD) ivy_take_load_block(&p->node, address, r->into + r->done, left, &words);
    else ivy_take_store_block(&p->node, address, r->from + r->done, left, &words);
  }
  ivy_in_end_call(p);
  r->done += 8 * words;
}

/* One word, by a call that may wait. */
static uint32_t go_on_by_call(ivy_process *p, row *r) {
  const call c = { r->kind, 8, r->address + r->done, r->kind == IVY_STORE ? ivy_in_get64(r->from + r->done) : 0, 0 };
  uint64_t value = 0;
  uint32_t status = ivy_in_call(p, &c, &value);
  if (status != IVY_DONE) return status;
  if (r->kind == IVY_LOAD) ivy_in_put64(r->into + r->done, value);
  r->done += 8;
  return status;
}

/* A page that was fetched may be among the next strings: then no call has to wait for it. They are few, so others keep no row
 * from its end. */
static void look_for_fetched(ivy_process *p, row *r) {
  size_t before = r->done;
  for (int i = 0; i < MOST_FETCHED && r->done == before && !p->receiving && ivy_in_serve(p, 0, 1); i++) go_on_at_once(p, r);
}

/* Where there is a log, which has a line for each call, one word; and once one had to wait for its page, those behind it are fetched. */
static uint32_t go_on_logging(ivy_process *p, row *r) {
  uint64_t page = page_at(p, r->address + r->done), misses = p->counts.misses;
  uint32_t status = go_on_by_call(p, r);
  if (r->next || p->counts.misses != misses) fetch_behind(p, r, page);
  return status;
}

/* What is here; or what a page is waited for, in one; or a word, and then, before others take its page again, what is with it.
 * Where a page is not here and was not fetched, those behind it are, and from then on one more for each page that is done: so
 * there is a place for each. */
static uint32_t go_on(ivy_process *p, row *r) {
  size_t before = r->done;
  uint64_t page = page_at(p, r->address + before);
  uint32_t status = IVY_DONE;
  go_on_at_once(p, r);
  if (r->done == before && r->next > page) look_for_fetched(p, r);
  if (r->done == before) {
    if (r->next <= page) fetch_behind(p, r, page);
    go_on_together(p, r);
    if (r->done == before && ivy_in_is_over(p)) return p->error;
    if (r->done == before && (status = go_on_by_call(p, r)) == IVY_DONE) go_on_at_once(p, r);
  }
  if (r->next) fetch_behind(p, r, page);
  return status;
}

static uint32_t carry_out(ivy_process *p, row r) {
  if (p->map) return ivy_in_map_row(p, r.kind, r.address, r.into, r.from, r.len);
  uint32_t status = r.len % 8 ? (uint32_t)IVY_BAD_ARGUMENT : (uint32_t)IVY_DONE;
  r.last = last_ahead(p, &r);
  while (status == IVY_DONE && r.done < r.len) {
    status = ivy_in_enter(p);
    if (status == IVY_DONE) status = (p->log ? go_on_logging : go_on)(p, &r);
    ivy_in_leave(p);
  }
  return status;
}

uint32_t ivy_read(ivy_process *p, uint64_t address, void *into, size_t len) {
  const row r = { IVY_LOAD, address, (uint8_t *)into, NULL, len, 0, 0, 0 };
  return carry_out(p, r);
}

uint32_t ivy_write(ivy_process *p, uint64_t address, const void *from, size_t len) {
  const row r = { IVY_STORE, address, NULL, (const uint8_t *)from, len, 0, 0, 0 };
  return carry_out(p, r);
}

/* ---- A hint ------------------------------------------------------------------------------------------------------------- */

/* Whether a page is fetched from now on. */
static uint32_t hint(ivy_process *p, uint32_t page) {
  uint32_t begun = 0;
  if (p->map) return ivy_in_map_hint(p, page);
  ivy_in_fetch(p, page, IVY_TO_READ, &begun);
  return begun;
}

/* As many pages of a range as may be fetched now. */
static void fetch_range(ivy_process *p, uint64_t first, uint64_t last) {
  for (uint32_t many = 0; first <= last && many < p->ahead; first++) many += hint(p, (uint32_t)first);
  ivy_in_send_together(p);
}

/* Calls of other threads of the program are not waited for. */
uint32_t ivy_prefetch(ivy_process *p, uint64_t address, uint64_t bytes) {
  uint64_t end = end_of(p);
  if (__atomic_load_n(&p->knocks, __ATOMIC_RELAXED)) ivy_in_let_in(p);
  ivy_in_lock(p);
  uint32_t status = p->error;
  if (status == IVY_DONE && address < p->config.page_size) status = IVY_RESERVED;
  if (status == IVY_DONE && (address > end || bytes > end - address)) status = IVY_OUT_OF_RANGE;
  if (status == IVY_DONE && bytes) fetch_range(p, page_at(p, address), page_at(p, address + bytes - 1));
  ivy_in_leave(p);
  return status;
}
