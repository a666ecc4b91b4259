/* Mapped memory: pages go between the node and the program. Not proved; what it owes the node is in ivy.h, a to d.
 *
 * THE RULE, by which an instruction that faults is carried out in the end, also one that needs several pages:
 *   1. A page that is lent is kept for a window: a string that would take it waits that long, with all that came later from its
 *      peer, and never longer. A window is shorter than the time between two pulses.
 *   2. Who waits does not need: while the program waits for a page, others are given at once, but for those that the same
 *      instruction had last, which are kept for their window.
 *   3. A page that was gone, before the instruction could run, for the third time is asked for with the token. Who has it is told
 *      by tickets. It is given back once the thread ran for RAN_NS since its last page came, or LATE_US after that.
 *   4. Whoever asks for a page looks at the token first, and waits for those who had drawn it when it looked.
 *   5. Whoever asks for a page for the first time tells all, and waits until they have heard it. They hear it while they have no
 *      call in progress. From then on they keep that page, where it may have been written, before each call.
 *   6. A page is fetched, by no call. A fault that did not fail before may fetch pages behind its own too. Not where somebody waits
 *      here, nor where the token is drawn; and once it has its own it waits for some of them, for half of the window of its own at most.
 *
 * WHY IT IS ENOUGH. A page can be kept only while its node has no call in progress. Who faults has none, and nothing is lent beside the
 * call of another thread, so each page that is asked for can be given, in its time. A call is of a word that is never lent, and by
 * (5) nobody asks for a page that is still to be kept while it waits. So a call ends, since what it waits for is served, and who tells is
 * heard. Who did not map the memory does not tell: until all have, all that may have been written is kept before each call. So no node
 * waits for another one's call, nor for its window for long (1), nor for a page that a waiting node does not need (2), and each page that
 * is asked for comes. Say a thread's pages come and go. After three times it draws a ticket, and those before it end. Who asks later waits
 * for it (4), and those who asked before it drew are finitely many. When they are through it asks alone, so what comes stays: it has the
 * page, or one after another the pages, of its instruction until it ran, if the machine lets it run within LATE_US. So it goes on, and
 * gives the token to the next one. Who only looks waits for those that had drawn before, not for later ones, so it does not wait for ever
 * either. What comes ahead (6) are a few pages more, each of which is kept for a window, and who failed brings none.
 *
 * WHO LOOKS. While the only thread of a program waits it looks at no page. So what it waits for is shown while that is still under
 * way, and it goes on once that is lent, or hidden again. What others take meanwhile is lowered once they were served, before the lock
 * is free.
 *
 * A thread counts a page as gone for nothing where it faults at one of the last MAP_LAST pages that it was given, and ran for
 * less than RAN_NS since. A call that finds its page lent is carried out with the lock held, so none is gone for nothing. */
#include "ivy_map_inside.h"
#include <stdlib.h>
#include <string.h>
#include <time.h>
#include <unistd.h>

enum { WINDOW_US = 200, FAILURES = 3, RAN_NS = 10000, LATE_US = 20000 };

/* No more strings of a peer are kept back; it makes them again. */
enum { MOST_KEPT = 64 };

/* With so few listed pages all are kept before a call, and stay open; and at most so many in a row are opened, or told of, of which
 * some may be pages of others that nobody asks for. */
enum { FEW = 64, MOST_ROW = 256, MOST_TOLD = 16 };

/* Others are told again of what is asked for, after so long. */
enum { AGAIN_US = 2000 };

/* ---- A page goes back -------------------------------------------------------------------------------------------------- */

/* The node has what stands in the image. While a call is in progress nothing happens: it was kept before that began, else it is not
 * taken (`may_take`). */
static void keep_page(ivy_process *p, uint32_t page, const uint8_t *bytes) {
  size_t words = 0;
  ivy_store_block(&p->node, ivy_in_map_address(page), bytes, MAP_PAGE, &words);
  p->map->counts.kept += words > 0;
}

static void close_page(ivy_mapping *map, uint32_t page) {
  map_page *it = &map->pages[page];
  if (it->is_open == LISTED) {
    uint32_t last = map->open[--map->opens];
    map->open[it->place] = last;
    map->pages[last].place = it->place;
  }
  it->is_open = CLOSED;
}

/* It may be written from now on, or is open already. It is listed where others may ask for it: where one told so, and each page
 * while there is one that does not know yet that this process is to be told. */
static void open_page(ivy_process *p, uint32_t page) {
  ivy_mapping *map = p->map;
  map_page *it = &map->pages[page];
  int is_common = it->is_common || (map->known | 1u << p->me) != p->all;
  if (it->is_open == LISTED) return;
  it->is_open = is_common ? LISTED : OPEN;
  if (!is_common) return;
  it->place = map->opens;
  map->open[map->opens++] = page;
}

static void give_back(ivy_process *p, uint32_t page, uint32_t on) {
  p->map->pages[page].lent = (uint8_t)on;
  ivy_give_back(&p->node, page, on);
  p->map->gave = 1;
}

/* The image shows no more of a page. Gives where its bytes stand then. */
static const uint8_t *lower(ivy_mapping *map, uint32_t page, uint32_t on) {
  const uint8_t *bytes = ivy_in_map_at(map->bytes, page);
  if (map->pages[page].shown > on) bytes = map->image->lower(map, page, 1, on);
  if (map->pages[page].shown > on) map->pages[page].shown = (uint8_t)on;
  return bytes;
}

/* A page that was taken while nobody could look is lowered once the string that took it was served. */
static void lower_late(ivy_mapping *map) {
  if (map->late) lower(map, map->late, map->late_on);
  map->late = 0;
}

/* While the only thread of the program waits, with the lock free, it cannot touch a page before who has the lock now frees it. */
static int is_still(const ivy_process *p) { return (p->map->waits || p->waits) && !p->shared && !p->map->lowers; }

/* Takes a page from the program, but for what it may be lent for then: first from its eyes, then its bytes, then the mark. Where it
 * cannot look now, its eyes are last. */
static void take(ivy_process *p, uint32_t page, uint32_t on) {
  ivy_mapping *map = p->map;
  map_page *it = &map->pages[page];
  lower_late(map);
  if (is_still(p)) map->late = page, map->late_on = on;
  const uint8_t *bytes = map->late ? ivy_in_map_at(map->bytes, page) : lower(map, page, on);
  if (it->is_open) keep_page(p, page, bytes);
  close_page(map, page);
  it->taken = ivy_in_now();
  give_back(p, page, on);
  map->counts.taken++;
}

/* So many listed pages, from one in their list on, are in a row. */
static uint32_t row_at(const ivy_mapping *map, uint32_t place) {
  const map_page *first = &map->pages[map->open[place]];
  uint32_t many = 1;
  while (place + many < map->opens && map->open[place + many] == map->open[place] + many && first[many].shown == first->shown) many++;
  return many;
}

/* The listed pages may be stored no more: those in a row together. */
static void lower_open(ivy_mapping *map) {
  for (uint32_t i = 0, many; i < map->opens; i += many) {
    map_page *first = &map->pages[map->open[i]];
    many = row_at(map, i);
    if (first->shown == IVY_TO_WRITE) map->image->lower(map, map->open[i], many, IVY_TO_READ);
    for (uint32_t k = 0; k < many; k++)
      if (first[k].shown == IVY_TO_WRITE) first[k].shown = IVY_TO_READ;
  }
}

/* Before a call all is kept that may have been written, and others may ask for. It is closed, and opens again by faults, where it
 * is much, or other threads go on meanwhile. While the only thread waits for a page, all is kept already. */
void ivy_in_map_keep(ivy_process *p) {
  ivy_mapping *map = p->map;
  int closes = p->shared || map->lowers || map->opens > FEW;
  if (map->waits && !map->is_fresh) return;
  map->is_fresh = 0;
  if (closes) lower_open(map);
  for (uint32_t i = 0; i < map->opens; i++) keep_page(p, map->open[i], ivy_in_map_at(map->bytes, map->open[i]));
  while (closes && map->opens) close_page(map, map->open[map->opens - 1]);
}

/* ---- What is asked for is told before -------------------------------------------------------------------------------------- */

uint32_t ivy_in_map_members(const ivy_process *p) { return p->map->members | 1u << p->me; }

/* While no call is in progress: who mapped the memory meanwhile is told from now on what is asked for, for which all are told anew;
 * and what others may ask for is kept from now on before each call, of which they hear. */
void ivy_in_map_heed(ivy_process *p) {
  ivy_mapping *map = p->map;
  if (p->pending) return;
  if (map->met & ~map->members) {
    map->members |= map->met;
    for (uint32_t page = 0; page < map->count; page++) map->pages[page].is_told = 0;
    ivy_in_speak(p);
  }
  for (uint32_t i = 0; map->met && i < p->config.nodes; i++) {
    map_row *row = &map->asks[i];
    for (uint32_t page = row->first; page < row->first + row->many; page++) {
      map->pages[page].is_common = 1;
      if (map->pages[page].is_open == OPEN) map->is_fresh = 1;
      if (map->pages[page].is_open) open_page(p, page);
    }
    if (row->many) ivy_in_say_pages(p, i, HEARD, row->first, row->many);
    row->many = 0;
  }
}

void ivy_in_map_hear(ivy_process *p, uint32_t from, uint8_t kind, uint32_t set, uint32_t first, uint32_t many) {
  ivy_mapping *map = p->map;
  const map_row row = { first, many };
  map->met |= 1u << from;
  if (kind == MAPPED) map->known |= (set >> p->me & 1u) << from;
  if (kind == MAY_ASK && first < map->count && many <= map->count - first) map->asks[from] = row;
  if (kind == HEARD && first == map->told.first && many == map->told.many) map->heard |= 1u << from;
  ivy_in_map_heed(p);
}

/* Tells the others that this process may ask for a page, and for those behind it, twice as many where it told of the last ones just
 * before; and waits until all have heard it. */
static void tell(ivy_process *p, uint32_t page) {
  ivy_mapping *map = p->map;
  uint32_t most = page != map->told.first + map->told.many ? 1 : 2 * map->told.many, many = 1;
  while (many < most && many < MOST_TOLD && page + many < map->count && !map->pages[page + many].is_told) many++;
  const map_row row = { page, many };
  map->told = row;
  map->heard = 0;
  p->in_call = 1;
  for (int64_t due = 0; map->members & ~map->heard && !ivy_in_is_over(p);) {
    for (uint32_t i = 0; ivy_in_now() >= due && i < p->config.nodes; i++)
      if ((map->members & ~map->heard) >> i & 1u) ivy_in_say_pages(p, i, MAY_ASK, page, many);
    if (ivy_in_now() >= due) due = ivy_in_now() + AGAIN_US;
    ivy_in_wait(p);
  }
  while (many) map->pages[page + --many].is_told = 1;
  ivy_in_end_call(p);
}

/* ---- A page comes -------------------------------------------------------------------------------------------------------- */

/* Pages in a row that are closed are opened together, twice as many where the last ones came just before. */
static uint32_t row_from(ivy_mapping *map, uint32_t page) {
  const map_page *first = &map->pages[page];
  map_row *row = &map->opened;
  uint32_t many = 1;
  row->many = page != row->first ? 1 : row->many < MOST_ROW ? 2 * row->many : row->many;
  while (many < row->many && page + many < map->count && first[many].lent == IVY_TO_WRITE && first[many].shown == IVY_TO_READ) many++;
  row->first = page + many;
  return many;
}

static uint32_t show(ivy_process *p, uint32_t page, uint32_t to) {
  ivy_mapping *map = p->map;
  map_page *it = &map->pages[page];
  uint32_t many = 1;
  if (it->shown == IVY_UNLENT) map->image->show(map, page, to);
  else if (it->shown < to) map->image->raise(map, page, many = row_from(map, page));
  for (uint32_t i = 0; i < many; i++) {
    if (it[i].shown < to) it[i].shown = (uint8_t)to;
    if (to == IVY_TO_WRITE && it[i].lent == to) open_page(p, page + i);
  }
  return IVY_DONE;
}


/* Lends a page that is here, with the bytes that the node has, and shows it. */
static uint32_t lend(ivy_process *p, uint32_t page, uint32_t to) {
  ivy_mapping *map = p->map;
  map_page *it = &map->pages[page];
  size_t words = 0;
  if (it->lent == IVY_UNLENT) {
    uint8_t *room = map->room ? map->room : ivy_in_map_at(map->bytes, page);
    ivy_load_block(&p->node, ivy_in_map_address(page), room, MAP_PAGE, &words);
    if (words * 8 != MAP_PAGE) return IVY_NO_PAGE;
    if (it->shown && map->room && memcmp(room, ivy_in_map_at(map->bytes, page), MAP_PAGE)) { /* other bytes stand there still */
      lower(map, page, IVY_UNLENT);
      ivy_load_block(&p->node, ivy_in_map_address(page), room, MAP_PAGE, &words);
    }
  }
  uint32_t status = ivy_lend(&p->node, page, to);
  if (status != IVY_DONE) return status;
  it->lent = (uint8_t)to;
  it->until = ivy_in_now() + WINDOW_US;
  return show(p, page, to);
}

/* Pages that were fetched are lent in the step in which they come, before anything else is delivered. While a call is in progress none
 * is, since what the program writes then cannot be kept. */
static void lend_fetched(ivy_process *p) {
  ivy_mapping *map = p->map;
  for (uint32_t i = 0; i < MAP_COMING && !p->pending; i++) {
    map_page *it = &map->pages[map->coming[i]];
    if (it->coming && lend(p, map->coming[i], it->coming) != IVY_NO_PAGE) it->coming = IVY_UNLENT;
  }
}

/* ---- Strings ------------------------------------------------------------------------------------------------------------- */

static int is_of(const map_thread *who, uint32_t page) {
  for (uint32_t i = 0; who && i < MAP_LAST && i < who->many; i++)
    if (who->last[i] == page) return 1;
  return 0;
}

/* Whether a page may be taken: by the rule, 1 and 2. While a call is in progress none is that was not kept before, of which who asks
 * for it did not tell. */
static int may_take(ivy_process *p, uint32_t page) {
  ivy_mapping *map = p->map;
  int64_t until = map->pages[page].until;
  if (p->pending && (map->pages[page].is_open == OPEN || (map->pages[page].is_open && ivy_in_is_over(p)))) return 0;
  if ((is_still(p) && !is_of(map->waiting, page)) || ivy_in_now() >= until) return 1;
  if (!map->due || until < map->due) map->due = until;
  return 0;
}

/* The node goes on with what it holds of a peer. */
static void go_on(ivy_process *p, uint32_t peer) {
  ivy_mapping *map = p->map;
  uint32_t page, on, status;
  while ((status = ivy_go_on(&p->node, (uint8_t)peer, &page, &on)) == IVY_WANTED && may_take(p, page)) {
    lend_fetched(p);
    take(p, page, on);
  }
  map->held = status == IVY_WANTED ? map->held | 1u << peer : map->held & ~(1u << peer);
  ivy_in_send_frames(p);
  lower_late(map);
  lend_fetched(p);
}

/* Gives a string to the node, once it may have the page that it would take. Whether it has it. */
static int offer(ivy_process *p, const uint8_t *bytes, size_t len) {
  uint32_t page, on;
  uint32_t status = ivy_in_deliver(p, bytes, len);
  if (status == IVY_WANTED && ivy_wanted(&p->node, bytes, len, &page, &on) == IVY_WANTED) {
    if (!may_take(p, page)) return 0;
    take(p, page, on);
    status = ivy_in_deliver(p, bytes, len);
    lower_late(p->map);
  }
  lend_fetched(p);
  if (status == IVY_DONE) go_on(p, bytes[SOURCE]);
  return 1;
}

static void keep_back(ivy_mapping *map, uint32_t peer, const uint8_t *bytes, size_t len) {
  kept_string *it, **end = &map->first[peer];
  uint32_t many = 0;
  for (; *end; end = &(*end)->next) many++;
  if (many >= MOST_KEPT || !(it = (kept_string *)malloc(sizeof *it + len))) return;
  it->next = NULL;
  it->len = len;
  memcpy(it->bytes, bytes, len);
  *end = it;
  map->kept++;
}

void ivy_in_map_came(ivy_process *p, const uint8_t *bytes, size_t len) {
  uint32_t peer = bytes[SOURCE];
  if (p->map->first[peer] || !offer(p, bytes, len)) keep_back(p->map, peer, bytes, len);
}

static void offer_kept(ivy_process *p, uint32_t peer) {
  ivy_mapping *map = p->map;
  for (kept_string *it; (it = map->first[peer]) && offer(p, it->bytes, it->len);) {
    map->first[peer] = it->next;
    map->kept--;
    free(it);
  }
}

/* What waited for a page is tried again. */
void ivy_in_map_pump(ivy_process *p) {
  ivy_mapping *map = p->map;
  map->due = 0;
  if (!map->gave && !map->held && !map->kept) return;
  do {
    int gave = map->gave;
    map->gave = 0;
    for (uint32_t i = 0; i < p->config.nodes; i++) {
      if (i == p->me) continue;
      if (gave || map->held >> i & 1u) go_on(p, i);
      if (map->first[i]) offer_kept(p, i);
    }
  } while (map->gave);
}

long ivy_in_map_patience(const ivy_process *p, long wait_us) {
  int64_t left = p->map->due ? p->map->due - ivy_in_now() : wait_us;
  return left < 1 ? 1 : left < wait_us ? (long)left : wait_us;
}

/* ---- The token: tickets in the runtime's own page, by calls -------------------------------------------------------------- */

int ivy_in_map_look(ivy_process *p, uint64_t place, uint64_t *number) {
  uint8_t word[8];
  size_t words = 0;
  ivy_load_block(&p->node, place, word, sizeof word, &words);
  if (words) *number = ivy_in_get64(word);
  return words != 0;
}

static uint64_t call_of(ivy_process *p, uint32_t kind, uint32_t width, uint64_t place, uint64_t operand) {
  const call c = { kind, width, place, operand, 0 };
  uint64_t value = 0;
  uint32_t status = ivy_in_call(p, &c, &value);
  if (status != IVY_DONE && !p->error) ivy_in_fail(p, status);
  return value;
}

static uint32_t drawn(ivy_process *p) { return (uint32_t)call_of(p, IVY_LOAD, 4, ivy_in_map_address(TOKEN_PAGE), 0); }
static uint32_t served(ivy_process *p) { return (uint32_t)call_of(p, IVY_LOAD, 4, ivy_in_map_address(TOKEN_PAGE) + 4, 0); }

/* Whether nobody has drawn it, or this process has it, as is known here without a call. */
static int is_free(ivy_process *p) {
  uint64_t both = 1;
  return p->map->has_token || (ivy_in_map_look(p, ivy_in_map_address(TOKEN_PAGE), &both) && both >> 32 == (uint32_t)both);
}

/* Waits until so many were served. */
static void wait_for_ticket(ivy_process *p, uint32_t number) {
  while (!p->error && (int32_t)(number - served(p)) > 0) {
    p->in_call = 1;
    ivy_in_wait(p);
    p->in_call = 0;
  }
}

static void take_token(ivy_process *p, map_thread *who) {
  wait_for_ticket(p, (uint32_t)call_of(p, IVY_FETCH_AND_ADD, 4, ivy_in_map_address(TOKEN_PAGE), 1));
  p->map->has_token = 1;
  p->map->holder = who;
  p->map->shown_at = ivy_in_now();
  p->map->counts.tokens++;
}

void ivy_in_map_end_token(ivy_process *p) {
  if (!p->map->has_token) return;
  p->map->has_token = 0;
  call_of(p, IVY_FETCH_AND_ADD, 4, ivy_in_map_address(TOKEN_PAGE) + 4, 1);
}

/* The time of a processor that a thread of this process took. */
static int64_t ran(uint32_t thread) {
  struct timespec t = { 0, 0 };
  clock_gettime((clockid_t)(~thread << 3 | 6), &t);
  return (int64_t)t.tv_sec * 1000000000 + t.tv_nsec;
}

/* By the thread of the runtime, while the program goes on: gives the token back where it is time. Where the run is over all is hidden:
 * the next access tells the program so, also where it looks at a copy that nobody ends. */
void ivy_in_map_tick(ivy_process *p) {
  ivy_mapping *map = p->map;
  for (uint32_t page = ROOT_PAGE; p->dead && !map->is_hidden && page < map->count; page++) lower(map, page, IVY_UNLENT);
  map->is_hidden = p->dead != 0;
  if (!map->has_token || map->waiting == map->holder || p->in_call || p->error) return;
  if ((!map->holder || ran(map->holder->thread) - map->holder->ran <= RAN_NS) && ivy_in_now() - map->shown_at < LATE_US) return;
  map->lowers = 1;
  ivy_in_map_end_token(p);
  map->lowers = 0;
}

/* ---- Pages are fetched ------------------------------------------------------------------------------------------------------ */

/* Whether a page is lent for as much: it may be gone again when who asked for it has the lock. */
static int has(const ivy_mapping *map, uint32_t page, uint32_t to) { return map->pages[page].lent >= to; }

/* Asks for a page of which all were told, and has it lent when it comes. Whether it was asked for now: else it is under way, or seven
 * others are. */
static uint32_t fetch(ivy_process *p, uint32_t page, uint32_t to) {
  ivy_mapping *map = p->map;
  uint32_t *place = &map->coming[page % MAP_COMING], begun = 0, status = ivy_fetch(&p->node, page, to, &begun);
  if (status != IVY_DONE && status != IVY_MEMORY) ivy_in_fail(p, status);
  map->counts.asked += begun;
  if (*place != page) map->pages[*place].coming = IVY_UNLENT;
  *place = page;
  if (map->pages[page].coming < to) map->pages[page].coming = (uint8_t)to;
  return begun;
}

/* So many pages at most are waited for in the fault that fetches them, and a page comes ahead once where the run has twice as many;
 * where the program went on past it, as often as KNOWN says. */
enum { MOST_AWAITED = 3, UNTRIED = 0, TRIED, KNOWN = TRIED + 8 };

/* Not where somebody waits for a page, as far as is known here, or for the token; nor what others took just now. */
static int may_bring(ivy_process *p, uint32_t page, uint32_t to) {
  const ivy_mapping *map = p->map;
  return !has(map, page, to) && map->pages[page].is_told && ivy_in_now() - map->pages[page].taken >= WINDOW_US && !p->error &&
         !map->kept && !map->held && !map->has_token && is_free(p);
}

/* The pages behind one at which faults that run upwards are, beside which six may be fetched: some together, by one string. It may be
 * one of those that come, and then those before it were used. */
static void bring_row(ivy_process *p, uint32_t page, uint32_t to) {
  ivy_mapping *map = p->map;
  map_run *run = &map->runs[to];
  int is_next = run->first <= page && page <= run->next;
  uint32_t most = p->ahead < MOST_FETCHED ? p->ahead : MOST_FETCHED - 1;
  for (uint32_t i = run->first; is_next && i <= page; i++) map->pages[i].chances[to] = KNOWN;
  run->many = is_next ? run->many + page - run->first + 1 : 1;
  run->first = page + 1;
  if (!is_next || run->next <= page) run->next = page + 1;
  if (page + most < run->next + most / 2) return;
  for (uint32_t tries = run->many / 2; run->next - page <= most && run->next < map->count; run->next++) {
    uint8_t *chances = &map->pages[run->next].chances[to];
    if (*chances == TRIED || (*chances == UNTRIED && !tries) || !may_bring(p, run->next, to)) break;
    if (*chances == UNTRIED) *chances = TRIED, tries--;
    else --*chances;
    if (map->pages[run->next].lent) give_back(p, run->next, IVY_UNLENT); /* it is hidden before the program goes on, or here then */
    if (lend(p, run->next, to) != IVY_DONE) fetch(p, run->next, to);
    map->counts.ahead++;
  }
}

/* Asks for a page until it is lent, or somebody has drawn the token, or it was gone when it came: so often it was asked for. Those
 * behind it may be asked for too. No call is in progress but by others, and then it is not lent. */
static void ask(ivy_process *p, uint32_t page, uint32_t to, int brings, uint32_t *asked) {
  ivy_mapping *map = p->map;
  p->counts.misses++;
  for (int again = 0; !p->error; again = 1) {
    if (map->pages[page].lent || lend(p, page, to) == IVY_DONE || (again && !is_free(p))) return;
    uint32_t begun = fetch(p, page, to), is_gone = begun && *asked;
    if (!again && brings && !p->shared) bring_row(p, page, to);
    ivy_in_send_together(p);
    *asked += begun;
    map->counts.gone += is_gone;
    if (is_gone) return;
    if (!p->shared && (map->pages[page].shown || !map->room)) show(p, page, to); /* nobody can look before it is here */
    ivy_in_wait(p);
    if (p->in_call) ivy_in_wait_for_calls(p); /* of another thread */
  }
}

/* None is seen that is under way, once the program goes on. */
static void hide_coming(ivy_mapping *map) {
  for (uint32_t i = 0; i < MAP_COMING; i++)
    if (!map->pages[map->coming[i]].lent) lower(map, map->coming[i], IVY_UNLENT);
}

uint32_t ivy_in_map_acquire(ivy_process *p, uint32_t page, uint32_t to, map_thread *who) {
  ivy_mapping *map = p->map;
  uint32_t asked = 0, failed = who ? who->failed : 0;
  for (int brings = !failed; !p->error; brings = 0) {
    if (!has(map, page, to)) lend(p, page, to);
    if (has(map, page, to) && !who) hide_coming(map);
    if (has(map, page, to)) return show(p, page, to);
    if (map->pages[page].lent) (who && !p->shared ? give_back : take)(p, page, IVY_UNLENT); /* who could see it may wait here */
    if (failed + asked >= FAILURES + (asked > 0) && !map->has_token) take_token(p, who);
    if (!is_free(p)) wait_for_ticket(p, drawn(p));
    while (!map->pages[page].is_told && !p->error) tell(p, page);
    ask(p, page, to, brings, &asked);
  }
  lower(map, page, IVY_UNLENT); /* it may be shown already */
  return p->error;
}

/* A fault has its page. Some of those behind it are waited for, but not for longer than half of the window of its own. */
static void wait_for_row(ivy_process *p, uint32_t page, uint32_t to) {
  ivy_mapping *map = p->map;
  int64_t until = map->pages[page].until - WINDOW_US / 2;
  uint32_t last = map->runs[to].next < page + 1 + MOST_AWAITED ? map->runs[to].next : page + 1 + MOST_AWAITED;
  for (uint32_t next = page + 1; next < last && !p->error && ivy_in_now() < until; next += has(map, next, to)) {
    if (has(map, next, to)) continue;
    if (!map->pages[next].coming) break;
    if (!map->due || until < map->due) map->due = until;
    ivy_in_wait(p);
  }
  hide_coming(map);
}

/* A hint: a page is asked for where that disturbs nobody. */
uint32_t ivy_in_map_hint(ivy_process *p, uint32_t page) {
  return ivy_in_map_has(p->map, page) && may_bring(p, page, IVY_TO_READ) && !p->map->pages[page].lent && lend(p, page, IVY_TO_READ) != IVY_DONE &&
         fetch(p, page, IVY_TO_READ);
}

/* ---- Faults -------------------------------------------------------------------------------------------------------------- */

/* The thread of a fault. Whether it ran since it had its last page. */
static map_thread *thread_of(ivy_process *p, uint32_t thread, uint32_t page) {
  map_thread *who = &p->map->threads[thread % MAP_THREADS];
  int64_t took = ran(thread);
  if (who->thread != thread || took - who->ran > RAN_NS) {
    if (p->map->has_token && p->map->holder == who) ivy_in_map_end_token(p);
    who->many = who->failed = 0;
  }
  who->thread = thread;
  who->ran = took;
  who->failed = is_of(who, page) ? who->failed + 1 : 0;
  return who;
}

/* It has one page more. */
static void remember(map_thread *who, uint32_t page) {
  if (is_of(who, page)) return;
  memmove(who->last + 1, who->last, sizeof who->last - sizeof who->last[0]);
  who->last[0] = page;
  if (who->many < MAP_LAST) who->many++;
}

void ivy_in_map_fault(ivy_process *p, uint32_t page, uint32_t to, uint32_t thread) {
  ivy_mapping *map = p->map;
  uint32_t status = ivy_in_enter(p);
  map->counts.faults++;
  if (status == IVY_DONE) {
    map_thread *who = thread_of(p, thread, page);
    int had = has(map, page, to);
    map->waiting = who;
    status = ivy_in_map_acquire(p, page, to, who);
    remember(who, page);
    if (!had) wait_for_row(p, page, to);
    map->waiting = NULL;
    if (p->error) status = p->error;
    map->shown_at = ivy_in_now();
    if (!map->image->wait) who->ran = ran(thread); /* else it did not run meanwhile */
  }
  if (status != IVY_DONE) p->exits = 0;
  ivy_in_leave(p);
  if (status == IVY_DONE) return;
  if (!p->dead) fprintf(stderr, "ivy: node %u: an access at %llu: %s\n", p->me, (unsigned long long)ivy_in_map_address(page), ivy_text(status));
  _exit(ivy_exit_status(status));
}
