/* Mapped memory: what a program calls, and calls of words and rows on pages that may be lent. Not proved. */
#include "ivy_map_inside.h"
#include <stdlib.h>
#include <string.h>
#include <unistd.h>

/* ---- Calls of words, by the image --------------------------------------------------------------------------------------- */

/* The number of a word of 8 bytes, of which the machine's has them the other way round; and back. */
static uint64_t turned(uint64_t number) { return __builtin_bswap64(number); }

/* Carries a call out on its page, which is lent for it: in one step of the machine on the 8 bytes in which its word lies, beside the
 * program's own threads. Gives what stood there. */
static uint64_t carry_out(const call *c, uint8_t *base) {
  const uint64_t most = UINT64_MAX >> (64 - 8 * c->width), shift = 64 - 8 * (c->place % 8 + c->width);
  uint64_t *at = (uint64_t *)(void *)(base + c->place / 8 * 8), old = __atomic_load_n(at, __ATOMIC_SEQ_CST);
  for (;;) {
    uint64_t all = turned(old), number = all >> shift & most;
    uint64_t to = (c->kind == IVY_FETCH_AND_ADD ? number + c->operand : c->operand) & most;
    if (c->kind == IVY_LOAD || (c->kind == IVY_COMPARE_AND_SWAP && number != (c->expected & most))) return number;
    to = turned((all & ~(most << shift)) | to << shift);
    if (__atomic_compare_exchange_n(at, &old, to, 0, __ATOMIC_SEQ_CST, __ATOMIC_SEQ_CST)) return number;
  }
}

static int is_width(uint32_t width) { return width == 1 || width == 2 || width == 4 || width == 8; }

static uint32_t page_of(uint64_t place) { return place / MAP_PAGE < UINT32_MAX ? (uint32_t)(place / MAP_PAGE) : UINT32_MAX; }

/* An operand that no word of the width holds is a matter of the node. */
static int is_by_image(const ivy_mapping *map, const call *c) {
  return c->kind <= IVY_FETCH_AND_ADD && is_width(c->width) && c->place % c->width == 0 && ivy_in_map_has(map, page_of(c->place));
}

/* A load whose page is here needs no call, before which all is kept. */
static int load_at_once(ivy_process *p, const call *c, uint64_t *value) {
  if (c->kind != IVY_LOAD || !is_width(c->width) || c->place % c->width || !ivy_in_map_look(p, c->place - c->place % 8, value)) return 0;
  *value = *value << 8 * (c->place % 8) >> (64 - 8 * c->width);
  return 1;
}

uint32_t ivy_in_map_begin(ivy_process *p, const call *c, uint64_t *value) {
  if (!is_by_image(p->map, c)) {
    if (load_at_once(p, c, value)) return IVY_DONE;
    if (!p->shared) ivy_in_map_end_token(p); /* the instruction that needed it ran, and this call may wait for long */
    ivy_in_map_keep(p);
    return ivy_begin(&p->node, c->kind, c->width, c->place, c->operand, c->expected, value);
  }
  uint32_t status = ivy_in_map_acquire(p, page_of(c->place), c->kind == IVY_LOAD ? IVY_TO_READ : IVY_TO_WRITE, NULL);
  if (status != IVY_DONE) return status;
  uint64_t number = carry_out(c, p->map->base);
  if (c->kind != IVY_STORE) *value = number;
  if (!p->map->holder) ivy_in_map_end_token(p);
  return status;
}

/* ---- Rows --------------------------------------------------------------------------------------------------------------- */

/* The words of a row that are in one page, one after another. The program's bytes are not touched here: they may be mapped. */
static uint32_t carry_out_row(ivy_process *p, uint32_t kind, uint64_t address, uint64_t *words, size_t many) {
  uint32_t status = ivy_in_enter(p);
  if (status == IVY_DONE) status = ivy_in_map_acquire(p, page_of(address), kind == IVY_LOAD ? IVY_TO_READ : IVY_TO_WRITE, NULL);
  uint64_t *at = (uint64_t *)(void *)(p->map->base + address);
  for (size_t i = 0; i < many && status == IVY_DONE; i++) {
    if (kind == IVY_LOAD) words[i] = __atomic_load_n(at + i, __ATOMIC_RELAXED);
    else __atomic_store_n(at + i, words[i], __ATOMIC_RELAXED);
  }
  if (status == IVY_DONE && !p->map->holder) ivy_in_map_end_token(p);
  ivy_in_leave(p);
  return status;
}

/* Words between words, or of a page that is never lent, go by calls. */
uint32_t ivy_in_map_row(ivy_process *p, uint32_t kind, uint64_t address, uint8_t *into, const uint8_t *from, size_t len) {
  uint64_t words[MAP_PAGE / 8];
  uint32_t status = len % 8 ? (uint32_t)IVY_BAD_ARGUMENT : (uint32_t)IVY_DONE;
  for (size_t done = 0, part; done < len && status == IVY_DONE; done += part) {
    uint64_t at = address + done;
    int is_lent = at % 8 == 0 && ivy_in_map_has(p->map, page_of(at));
    part = is_lent ? MAP_PAGE - (size_t)(at % MAP_PAGE) : 8;
    if (part > len - done) part = len - done;
    if (from) memcpy(words, from + done, part);
    if (is_lent) status = carry_out_row(p, kind, at, words, part / 8);
    else status = ivy_call(p, kind, 8, at, from ? turned(words[0]) : 0, 0, words), words[0] = turned(words[0]);
    if (into && status == IVY_DONE) memcpy(into + done, words, part);
  }
  return status;
}

/* ---- Mapping -------------------------------------------------------------------------------------------------------------- */

static uint32_t refuse(const ivy_process *p, uint32_t status, const char *why) {
  fprintf(stderr, "ivy: node %u: memory is not mapped: %s\n", p->me, why);
  return status;
}

static uint32_t may_map(const ivy_process *p) {
  if (p->map) return refuse(p, IVY_BAD_ARGUMENT, "it is mapped already");
  if (p->log) return refuse(p, IVY_BAD_ARGUMENT, "the process writes a log, which has a line for each call");
  if (p->config.page_size != MAP_PAGE) return refuse(p, IVY_BAD_CONFIG, "pages have not 4096 bytes (IVY_PAGE_SIZE)");
  if (sysconf(_SC_PAGESIZE) != MAP_PAGE) return refuse(p, IVY_BAD_CONFIG, "pages of this machine have not 4096 bytes");
  if (p->config.pages < MAP_LEAST) return refuse(p, IVY_BAD_CONFIG, "there are less than 16 pages (IVY_PAGES)");
  if (!p->has_thread && p->all != 1u << p->me) return refuse(p, IVY_BAD_ARGUMENT, "progress is made in calls alone (IVY_PROGRESS)");
  return IVY_DONE;
}

static uint64_t by_call(ivy_process *p, uint32_t kind, uint64_t place, uint64_t operand, uint32_t *status) {
  uint64_t value = 0;
  if (*status == IVY_DONE) *status = ivy_call(p, kind, 8, place, operand, 0, &value);
  return value;
}

/* The first process that maps has the allocator give the pages of the runtime, which are its first block; the others wait for that. */
static uint32_t claim(ivy_process *p) {
  uint64_t claims = ivy_in_map_address(TOKEN_PAGE) + 8, is_claimed = claims + 8, seen = 0;
  uint32_t status = IVY_DONE, told = IVY_DONE;
  if (by_call(p, IVY_FETCH_AND_ADD, claims, 1, &status) == 0 && status == IVY_DONE) {
    seen = by_call(p, IVY_ALLOC, 0, MAP_OWN * MAP_PAGE, &status) == MAP_PAGE ? 1 : 2;
    by_call(p, IVY_STORE, is_claimed, seen, &told);
  } else if (status == IVY_DONE) {
    status = ivy_wait_until(p, 8, is_claimed, IVY_NE, 0, -1, &seen);
  }
  if (status == IVY_DONE && seen != 1) status = IVY_NO_ROOM;
  return status == IVY_DONE ? status : refuse(p, status, status == IVY_NO_ROOM ? "something was allocated before" : ivy_text(status));
}

static void end_mapping(ivy_mapping *map) {
  for (uint32_t i = 0; i < MOST_NODES; i++)
    for (kept_string *it; (it = map->first[i]); free(it)) map->first[i] = it->next;
  free(map->pages);
  free(map->open);
  free(map);
}

/* Makes the image and who looks after it. */
static uint32_t begin_mapping(ivy_process *p) {
  ivy_mapping *map = (ivy_mapping *)calloc(1, sizeof *map);
  if (!map) return IVY_MEMORY;
  map->count = p->config.pages;
  map->pages = (map_page *)calloc(map->count, sizeof *map->pages);
  map->open = (uint32_t *)calloc(map->count, sizeof *map->open);
  p->map = map;
  if (map->pages && map->open && ivy_in_map_catch(p)) {
    if (!map->image->wait || !pthread_create(&map->thread, NULL, map->image->wait, p)) return IVY_DONE;
    ivy_in_map_close(map);
  }
  p->map = NULL;
  end_mapping(map);
  return refuse(p, IVY_MEMORY, "its address is not free, or the image of IVY_IMAGE not allowed");
}

uint32_t ivy_map(ivy_process *p) {
  uint32_t status = may_map(p);
  if (status == IVY_DONE) status = claim(p);
  if (status != IVY_DONE) return status;
  ivy_in_lock(p);
  status = begin_mapping(p);
  if (status == IVY_DONE) ivy_in_speak(p);
  ivy_in_unlock(p);
  return status;
}

void ivy_in_map_end(ivy_process *p) {
  ivy_mapping *map = p->map;
  if (map->image->wait && !pthread_cancel(map->thread)) pthread_join(map->thread, NULL);
  ivy_in_map_close(map);
  p->map = NULL;
  end_mapping(map);
}

void *ivy_map_base(const ivy_process *p) { return p->map ? p->map->base : NULL; }
const char *ivy_map_image(const ivy_process *p) { return p->map ? p->map->image->name : "none"; }

ivy_map_counts ivy_map_counts_of(ivy_process *p) {
  ivy_map_counts none = { 0, 0, 0, 0, 0, 0, 0 };
  ivy_in_lock(p);
  if (p->map) none = p->map->counts;
  ivy_in_unlock(p);
  return none;
}

/* ---- Blocks: where one begins stands before what the program has --------------------------------------------------------- */

static void *allocate(ivy_process *p, size_t bytes, size_t alignment) {
  uint64_t block = 0, most = (uint64_t)p->config.pages * MAP_PAGE;
  if (bytes > most || ivy_call(p, IVY_ALLOC, 0, 0, bytes + alignment + 8, 0, &block) != IVY_DONE) return NULL;
  uint64_t address = (block + 8 + alignment - 1) / alignment * alignment;
  uint64_t *at = (uint64_t *)(void *)(p->map->base + address);
  at[-1] = block;
  return at;
}

void *ivy_map_malloc(ivy_process *p, size_t bytes) { return allocate(p, bytes ? bytes : 1, 16); }

void *ivy_map_malloc_pages(ivy_process *p, size_t bytes) {
  return bytes > SIZE_MAX - MAP_PAGE ? NULL : allocate(p, (bytes ? (bytes + MAP_PAGE - 1) / MAP_PAGE : 1) * MAP_PAGE, MAP_PAGE);
}

void ivy_map_free(ivy_process *p, void *block) { if (block) ivy_free(p, ((uint64_t *)block)[-1]); }

void **ivy_map_root(ivy_process *p) { return (void **)(void *)(p->map->base + ivy_in_map_address(ROOT_PAGE)); }

/* ---- Who waits for whom: by calls, which always come to an end -------------------------------------------------------------- */

/* Behind a call, by which all was kept: the only thread of a program writes nothing until this is over, and needs no page. */
static void wait_for(ivy_process *p, uint32_t width, uint64_t place, ivy_comparison comparison, uint64_t number) {
  uint64_t seen;
  ivy_in_lock(p);
  int is_only = !p->shared;
  p->map->waits += is_only;
  ivy_in_unlock(p);
  ivy_wait_until(p, width, place, comparison, number, -1, &seen);
  ivy_in_lock(p);
  p->map->waits -= is_only;
  ivy_in_unlock(p);
}

void ivy_map_barrier(ivy_process *p) {
  uint64_t nodes = ivy_nodes(p), here = ivy_fetch_add(p, 8, ivy_in_map_address(COUNT_PAGE), 1) + 1;
  if (here % nodes == 0) ivy_store(p, 8, ivy_in_map_address(ROUND_PAGE), here / nodes);
  else wait_for(p, 8, ivy_in_map_address(ROUND_PAGE), IVY_GE, (here + nodes - 1) / nodes);
}

/* Who draws does not disturb those that wait: the numbers that are served are on another page. */
static uint64_t lock_at(uint32_t lock, uint32_t is_served) {
  uint32_t page = LOCK_PAGES + 2 * (lock % LOCK_PAIRS) + is_served;
  return ivy_in_map_address(page) + 4 * (lock % IVY_MAP_LOCKS / LOCK_PAIRS);
}

void ivy_map_lock_acquire(ivy_process *p, uint32_t lock) {
  wait_for(p, 4, lock_at(lock, 1), IVY_EQ, ivy_fetch_add(p, 4, lock_at(lock, 0), 1));
}

void ivy_map_lock_release(ivy_process *p, uint32_t lock) { ivy_fetch_add(p, 4, lock_at(lock, 1), 1); }
