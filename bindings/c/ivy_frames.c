/* Strings of the node, and its log. Not proved. */
#define _POSIX_C_SOURCE 200809L
#include "ivy_inside.h"
#include <stdlib.h>
#include <string.h>

/* What a peer needs at most for an answer is taken for the way back where it is longer by an eighth at most than before. */
enum { RISE = 8 };

void ivy_in_send(ivy_process *p, uint8_t *bytes, uint8_t kind, uint32_t to, size_t len) {
  bytes[KIND_AT] = kind;
  bytes[FROM_AT] = (uint8_t)p->me;
  bytes[TO_AT] = (uint8_t)to;
  memcpy(bytes + RUN_AT, p->names[p->me], 2 * DRAW);
  if (p->key_length) {
    ivy_in_tag(p, bytes, len, bytes + len);
    len += TAG;
  }
  p->room = NULL;
  p->transport.send(p->transport.state, to, len);
}

void ivy_in_flush_log(ivy_process *p) {
  if (!p->log || p->is_full || (!fflush(p->log) && !ferror(p->log))) return;
  p->is_full = 1;
  fprintf(stderr, "ivy: node %u: its log takes no more\n", p->me);
  ivy_in_say(p, DEAD, 1u << p->me);
  ivy_in_fail(p, IVY_LOG_FULL);
}

/* A buffer without room has no string. */
int ivy_in_has_frame(ivy_process *p) {
  uint8_t none;
  size_t len;
  uint32_t to;
  return ivy_next_frame(&p->node, &none, 0, &len, &to) == IVY_SHORT_BUFFER;
}

/* A new string goes to a peer. */
static void count_sent(ivy_process *p, uint32_t to) {
  p->counts.sent++;
  p->is_fresh = 1;
  if (!p->peers[to].asked) p->peers[to].asked = JUST_NOW;
}

/* The strings that wait go, once the log has what they follow from. */
static void send_frames(ivy_process *p, int is_new) {
  size_t len;
  uint32_t to;
  while (ivy_next_frame(&p->node, ivy_in_room(p) + HEAD, IVY_STRING_MOST - HEAD - TAG, &len, &to) == IVY_DONE) {
    if (p->log) ivy_in_flush_log(p);
    if (p->is_full) return;
    if (to >= p->config.nodes) continue;
    if (is_new) count_sent(p, to);
    else p->counts.again++;
    ivy_in_send(p, p->room, FRAME, to, HEAD + len);
  }
}

void ivy_in_send_frames(ivy_process *p) {
  if (!p->holds) send_frames(p, 1);
}

/* Strings to one peer, each behind its length, in the transport's room. */
typedef struct { size_t len; uint32_t to, many; } bundle;

/* One alone goes as any other. */
static void send_bundle(ivy_process *p, bundle *b) {
  uint8_t *at = p->room + HEAD;
  if (b->many == 1) memmove(at, at + LENGTH, b->len -= LENGTH);
  if (b->many) ivy_in_send(p, p->room, b->many == 1 ? FRAME : FRAMES, b->to, HEAD + b->len);
  b->len = b->many = 0;
}

/* A string stands behind those of a bundle, and joins them; or they go, and it is the first of the next ones. */
static void join(ivy_process *p, bundle *b, size_t len, uint32_t to) {
  uint8_t *at = p->room + HEAD + b->len, other[IVY_STRING_MOST];
  count_sent(p, to);
  ivy_in_put32(at, (uint32_t)len);
  if (b->many && to != b->to) {
    memcpy(other, at, LENGTH + len);
    send_bundle(p, b);
    memcpy(ivy_in_room(p) + HEAD, other, LENGTH + len);
  }
  b->to = to;
  b->many++;
  b->len += LENGTH + len;
}

/* What has no room among others waits on, and goes alone. */
void ivy_in_send_together(ivy_process *p) {
  size_t len, most = p->together - HEAD - TAG - LENGTH;
  uint32_t to, status;
  bundle b = { 0, 0, 0 };
  ivy_in_flush_log(p);
  if (p->is_full) return;
  for (;;) {
    size_t left = b.len < most ? most - b.len : 0;
    status = ivy_next_frame(&p->node, ivy_in_room(p) + HEAD + b.len + LENGTH, left, &len, &to);
    if (status == IVY_DONE) join(p, &b, len, to);
    else if (status == IVY_SHORT_BUFFER && b.many) send_bundle(p, &b);
    else break;
  }
  send_bundle(p, &b);
  send_frames(p, 1);
}

void ivy_in_pulse(ivy_process *p, uint32_t to) {
  send_frames(p, 1);
  if (ivy_pulse(&p->node, (uint8_t)to) == IVY_DONE && p->log && ivy_in_has_frame(p)) fprintf(p->log, "pulse %u\n", to);
  send_frames(p, 0);
}

/* Something came from a peer: what is sent again waits no longer than twice the way there and back. */
static void heard_from(ivy_process *p, uint32_t from) {
  peer *it = &p->peers[from];
  p->active = p->now;
  it->gap = 0;
  if (!it->asked) return;
  int64_t took = it->asked == JUST_NOW ? 1 : p->now - it->asked, most = it->way + it->way / RISE + 1;
  it->way = !it->way || took < most ? took : most;
  it->asked = 0;
}

const char *ivy_in_kind(uint32_t kind) {
  static const char *const names[] = { "load",  "store",   "swap",  "cas",   "fadd",
                                       "count", "advance", "await", "alloc", "free" };
  return kind <= IVY_FREE ? names[kind] : "call of no such kind";
}

static void log_words(FILE *log, const call *c) {
  fputs(ivy_in_kind(c->kind), log);
  if (c->kind <= IVY_FETCH_AND_ADD) fprintf(log, " %u", c->width);
  if (c->kind != IVY_ALLOC) fprintf(log, " %llu", (unsigned long long)c->place);
  if (c->kind == IVY_COMPARE_AND_SWAP) fprintf(log, " %llu", (unsigned long long)c->expected);
  if (c->kind != IVY_LOAD && c->kind != IVY_COUNT && c->kind != IVY_ADVANCE && c->kind != IVY_FREE)
    fprintf(log, " %llu", (unsigned long long)c->operand);
  fputc('\n', log);
}

void ivy_in_log_begin(ivy_process *p) {
  const ivy_config *c = &p->config;
  if (!p->log) return;
  fprintf(p->log, "ivy own %u %u %u %u %s\n", p->me, c->nodes, c->pages, c->page_size,
          c->manager == IVY_FIXED ? "fixed" : c->manager == IVY_STEADY ? "steady" : "dynamic");
}

void ivy_in_log_call(ivy_process *p, const call *c) {
  fputs("call ", p->log);
  log_words(p->log, c);
}

/* The turns that the log lacks. */
static void log_turns(ivy_process *p) {
  uint64_t turns;
  if (ivy_turns(&p->node, &turns) != IVY_DONE || turns == p->turns) return;
  fprintf(p->log, "turns %llu\n", (unsigned long long)(turns - p->turns));
  p->turns = turns;
}

uint32_t ivy_in_fetch(ivy_process *p, uint32_t page, uint32_t to, uint32_t *begun) {
  if (p->log) log_turns(p);
  uint32_t status = ivy_fetch(&p->node, page, to, begun);
  if (!p->log || status != IVY_DONE || !*begun) return status;
  fprintf(p->log, "fetch %s %u\n", to == IVY_TO_READ ? "read" : "write", page); /* its line is its turn too */
  p->turns++;
  return status;
}

void ivy_in_log_reply(ivy_process *p, const call *c, uint32_t status, const uint64_t *value) {
  if (!p->log) return;
  log_turns(p);
  if (status >= 256) return;
  if (status != IVY_DONE) fprintf(p->log, "refused %u ", status);
  else if (c->kind == IVY_STORE || c->kind == IVY_ADVANCE || c->kind == IVY_FREE) fputs("done ", p->log);
  else fprintf(p->log, "value %llu ", (unsigned long long)*value);
  log_words(p->log, c);
}

static void log_string(FILE *log, const uint8_t *bytes, size_t len) {
  fputs("took ", log);
  for (size_t i = 0; i < len; i++) fprintf(log, "%02x", bytes[i]);
  fputc('\n', log);
}

/* Gives a string to the node, with what it says of it. */
static uint32_t deliver_as(ivy_process *p, const uint8_t *bytes, size_t len, uint32_t *said) {
  uint32_t verdict, from = bytes[SOURCE], status = ivy_deliver(&p->node, bytes, len, &verdict);
  if (status != IVY_DONE) return status;
  p->counts.heard++;
  heard_from(p, from);
  p->delivered[from] += verdict == IVY_NEXT;
  if (p->log && verdict != IVY_NOT_MINE) log_string(p->log, bytes, len);
  ivy_in_send_frames(p);
  *said = verdict;
  return IVY_DONE;
}

uint32_t ivy_in_deliver(ivy_process *p, const uint8_t *bytes, size_t len) {
  uint32_t verdict;
  return deliver_as(p, bytes, len, &verdict);
}

/* Whether it was the next one of its source. */
static int deliver(ivy_process *p, const uint8_t *bytes, size_t len) {
  uint32_t verdict;
  return deliver_as(p, bytes, len, &verdict) == IVY_DONE && verdict == IVY_NEXT;
}

/* Whether others are missing before a string; then it is kept, or lost. */
static int is_early(ivy_process *p, const uint8_t *bytes, size_t len) {
  if (bytes[DESTINATION] != p->me) return 0;
  uint64_t number = ivy_in_get64(bytes + NUMBER);
  uint64_t last = p->delivered[bytes[SOURCE]];
  if (number <= last + 1) return 0;
  string *place = &p->early[bytes[SOURCE]][number % MOST_AHEAD];
  if (number - last <= MOST_AHEAD && !place->bytes && (place->bytes = (uint8_t *)malloc(len))) {
    memcpy(place->bytes, bytes, len);
    place->len = len;
  }
  return 1;
}

/* The string of the next message of a node, where it came before its turn, and no more kept. */
static string take_due(ivy_process *p, uint32_t from) {
  string *place = &p->early[from][(p->delivered[from] + 1) % MOST_AHEAD], due = *place;
  place->bytes = NULL;
  return due;
}

/* A node holds a string that comes early, and later goes on with it without telling. A log has each delivery in its order,
 * so where there is one, a node is given each string once it is due. */
void ivy_in_hear_frame(ivy_process *p, const uint8_t *bytes, size_t len) {
  if (p->map) {
    ivy_in_map_came(p, bytes, len);
    return;
  }
  if (p->log && is_early(p, bytes, len)) return;
  if (!deliver(p, bytes, len) || !p->log) return;
  uint32_t from = bytes[SOURCE];
  string due;
  while ((due = take_due(p, from)).bytes) {
    deliver(p, due.bytes, due.len);
    free(due.bytes);
  }
}
