/* Who is in a run, and the words of the runtime. Not proved.
 *
 * Each process draws 128 bits. Node 0 fixes the run once all have answered with its draw, so none of them is a process of
 * earlier: it is the list of their draws, and its name is their sum by exclusive or. From then on each string names the run and its sender's draw, and what names others is dropped:
 * late words of an earlier run, and a process that was started again. */
#define _POSIX_C_SOURCE 200809L
#include "ivy_inside.h"
#include <stdlib.h>
#include <string.h>
#include <sys/random.h>

/* Behind the head: the word's number, a set, the version, the configuration and the order of bytes, and the draw that is
 * answered. The list of all draws follows where the run is told. */
enum { COUNT_AT = HEAD, SET_AT = COUNT_AT + 8, CONFIG_AT = SET_AT + 4, NUMBERS = 6, ECHO_AT = CONFIG_AT + 4 * NUMBERS };
enum { LIST_AT = ECHO_AT + DRAW };

static const uint8_t nothing[DRAW] = { 0 };

/* The first byte of a number, by which machines that have other orders of bytes are told apart. */
static uint32_t byte_order(void) {
  const uint32_t number = 0x01020304;
  return *(const uint8_t *)&number;
}

/* Says a word to a peer, which echoes its draw where it is refused. */
static void say_to(ivy_process *p, uint32_t to, uint8_t kind, uint32_t set, const uint8_t *echo) {
  const ivy_config *c = &p->config;
  const uint32_t numbers[NUMBERS] = { IVY_VERSION, c->nodes, c->pages, c->page_size, c->manager, byte_order() };
  uint8_t *bytes = ivy_in_room(p);
  size_t len = LIST_AT;
  ivy_in_put64(bytes + COUNT_AT, ++p->words);
  ivy_in_put32(bytes + SET_AT, set);
  for (int i = 0; i < NUMBERS; i++) ivy_in_put32(bytes + CONFIG_AT + 4 * i, numbers[i]);
  memcpy(bytes + ECHO_AT, echo, DRAW);
  if (kind == RUN) {
    memcpy(bytes + LIST_AT, p->draws, c->nodes * DRAW);
    len += c->nodes * DRAW;
  }
  ivy_in_send(p, bytes, kind, to, len);
}

void ivy_in_say(ivy_process *p, uint8_t kind, uint32_t set) {
  for (uint32_t i = 0; i < p->config.nodes; i++)
    if (i != p->me && p->all >> i & 1u) say_to(p, i, kind, set, kind == HELLO ? p->draws[i] : nothing);
}

/* They stand in place of the draw that is answered. */
void ivy_in_say_pages(ivy_process *p, uint32_t to, uint8_t kind, uint32_t first, uint32_t many) {
  uint8_t pages[DRAW] = { 0 };
  ivy_in_put32(pages, first);
  ivy_in_put32(pages + 4, many);
  say_to(p, to, kind, 0, pages);
}

void ivy_in_speak(ivy_process *p) {
  if (!p->is_fixed) ivy_in_say(p, HELLO, p->drawn);
  else if (p->is_done) ivy_in_say(p, DONE, p->done);
  else if (p->known_here == p->all && p->map) ivy_in_say(p, MAPPED, ivy_in_map_members(p));
  else if (p->known_here == p->all) ivy_in_say(p, ALIVE, p->here);
  else ivy_in_say(p, p->me == 0 ? RUN : HERE, p->here);
}

void ivy_in_fail(ivy_process *p, uint32_t status) {
  if (!p->error) __atomic_store_n(&p->error, status, __ATOMIC_RELAXED);
  ivy_in_wake(p);
}

void ivy_in_told_dead(ivy_process *p, uint32_t who) {
  if (p->dead >> who & 1u) return;
  fprintf(stderr, "ivy: node %u: node %u is dead\n", p->me, who);
  p->dead |= 1u << who;
  ivy_in_say(p, DEAD, 1u << who);
  ivy_in_fail(p, IVY_PEER_DEAD);
}

int ivy_in_is_needed(const ivy_process *p, uint32_t peer) {
  return peer != p->me && p->all >> peer & 1u && !(p->is_done && p->done >> peer & 1u);
}

/* Whether the peer has this configuration and version. Tells of the first that has not. */
static int agrees(ivy_process *p, uint32_t from, const uint8_t *bytes) {
  const ivy_config *c = &p->config;
  const uint32_t own[NUMBERS] = { IVY_VERSION, c->nodes, c->pages, c->page_size, c->manager, byte_order() };
  uint32_t its[NUMBERS];
  for (int i = 0; i < NUMBERS; i++) its[i] = ivy_in_get32(bytes + CONFIG_AT + 4 * i);
  if (!memcmp(own, its, sizeof own)) return 1;
  if (p->differs) return 0;
  p->differs = 1;
  fprintf(stderr,
          "ivy: node %u has version %u, %u nodes, %u pages of %u bytes, manager %u, bytes %u; node %u has version %u, "
          "%u nodes, %u pages of %u bytes, manager %u, bytes %u\n",
          p->me, own[0], own[1], own[2], own[3], own[4], own[5], from, its[0], its[1], its[2], its[3], its[4], its[5]);
  return 0;
}

/* The draws of all are known: their sum names the run, and each string of a node has it and the node's draw. */
static void fix_run(ivy_process *p) {
  uint8_t name[DRAW] = { 0 };
  for (uint32_t i = 0; i < p->config.nodes; i++)
    for (int k = 0; k < DRAW; k++) name[k] ^= p->draws[i][k];
  for (uint32_t i = 0; i < p->config.nodes; i++) {
    memcpy(p->names[i], name, DRAW);
    memcpy(p->names[i] + DRAW, p->draws[i], DRAW);
  }
  p->is_fixed = 1;
  ivy_in_speak(p);
}

int ivy_in_draw(ivy_process *p) {
  p->drawn = 1u << p->me;
  if (getrandom(p->draws[p->me], DRAW, 0) != DRAW) return 0;
  memcpy(p->names[p->me] + DRAW, p->draws[p->me], DRAW);
  if (p->drawn == p->all) fix_run(p);
  return 1;
}

/* A process that is in no run yet comes while this one is in a run: it is one of them who has not heard so, or another one,
 * which is refused. */
static void hear_late(ivy_process *p, uint32_t from, const uint8_t *draw) {
  if (!memcmp(p->draws[from], draw, DRAW)) {
    if (p->me == 0) say_to(p, from, RUN, p->here, nothing);
    return;
  }
  say_to(p, from, REFUSED, 0, draw);
  if (p->has_told >> from & 1u) return;
  p->has_told |= 1u << from;
  fprintf(stderr, "ivy: node %u: another process came as node %u, and is refused\n", p->me, from);
}

/* A process that is in no run yet. Its draw counts where it answers this one's; else it is told that, and asked for the answer. */
static void hear_hello(ivy_process *p, uint32_t from, const uint8_t *bytes) {
  const uint8_t *draw = bytes + DRAW_AT;
  int is_answer = !memcmp(bytes + ECHO_AT, p->draws[p->me], DRAW), is_new = memcmp(p->draws[from], draw, DRAW) != 0;
  if (p->is_fixed) {
    if (from < p->config.nodes) hear_late(p, from, draw);
    return;
  }
  if (is_answer || !(p->drawn >> from & 1u)) memcpy(p->draws[from], draw, DRAW);
  if ((is_answer || (from >= p->config.nodes && !p->key_length)) && !agrees(p, from, bytes)) return;
  if (from >= p->config.nodes) return;
  if (is_answer) p->drawn |= 1u << from;
  if (is_new) say_to(p, from, HELLO, p->drawn, draw);
  if (p->me == 0 && p->drawn == p->all) fix_run(p);
}

/* Node 0 tells who is in the run. One without this process is none of it. */
static void hear_list(ivy_process *p, uint32_t from, const uint8_t *bytes) {
  const uint8_t *list = bytes + LIST_AT;
  if (p->is_fixed || from != 0 || memcmp(list + p->me * DRAW, p->draws[p->me], DRAW)) return;
  if (memcmp(list, bytes + DRAW_AT, DRAW)) return;
  memcpy(p->draws, list, p->config.nodes * DRAW);
  p->drawn = p->all;
  fix_run(p);
}

static void hear_of_dead(ivy_process *p, uint32_t set) {
  for (uint32_t i = 0; i < p->config.nodes; i++)
    if (set >> i & 1u && ivy_in_is_needed(p, i)) ivy_in_told_dead(p, i);
}

/* A word of this run. Who went on knows that all are here. */
static void hear_member(ivy_process *p, uint32_t from, const uint8_t *bytes) {
  uint32_t bit = 1u << from, set = ivy_in_get32(bytes + SET_AT), before = p->here;
  uint64_t count = ivy_in_get64(bytes + COUNT_AT);
  uint8_t kind = bytes[KIND_AT];
  if (count <= p->peers[from].word) return;
  p->peers[from].word = count;
  p->peers[from].heard = p->now;
  if (kind == DEAD) {
    hear_of_dead(p, set);
    return;
  }
  p->here |= bit;
  if ((kind != HERE && kind != RUN) || set == p->all) p->known_here |= bit;
  if (p->here == p->all && before != p->all) ivy_in_speak(p);
  if (kind >= MAPPED && p->map) ivy_in_map_hear(p, from, kind, set, ivy_in_get32(bytes + ECHO_AT), ivy_in_get32(bytes + ECHO_AT + 4));
  if (kind == DONE) {
    p->done |= bit;
    if (set == p->all) p->known_done |= bit;
  }
}

static void hear_word(ivy_process *p, uint32_t from, const uint8_t *bytes, size_t len) {
  uint8_t kind = bytes[KIND_AT];
  size_t should = LIST_AT + (kind == RUN ? p->config.nodes * DRAW : 0);
  if (kind == HELLO && len == LIST_AT) {
    hear_hello(p, from, bytes);
    return;
  }
  if (len != should || from >= p->config.nodes) return;
  if (kind == REFUSED && !p->is_fixed && !memcmp(bytes + ECHO_AT, p->draws[p->me], DRAW)) {
    if (!p->is_refused) fprintf(stderr, "ivy: node %u: node %u is in a run with another node %u\n", p->me, from, p->me);
    p->is_refused = 1;
    return;
  }
  if (kind == RUN) hear_list(p, from, bytes);
  if (kind != REFUSED && p->is_fixed && !memcmp(bytes + RUN_AT, p->names[from], 2 * DRAW)) hear_member(p, from, bytes);
}

static void hear_frame(ivy_process *p, uint32_t from, const uint8_t *bytes, size_t len) {
  if (len < FRAME_HEAD || bytes[SOURCE] != from) return;
  p->peers[from].heard = p->now;
  p->here |= 1u << from;
  p->known_here |= 1u << from;
  ivy_in_hear_frame(p, bytes, len);
}

/* Several: where two pages go in one string, what each two ask for is sent together. */
static void hear_frames(ivy_process *p, uint32_t from, const uint8_t *bytes, size_t len) {
  uint32_t many = 0;
  p->holds = p->together == LONG_MOST;
  for (size_t at = LENGTH, its; at < len && (its = ivy_in_get32(bytes + at - LENGTH)) <= len - at; at += its + LENGTH) {
    hear_frame(p, from, bytes + at, its);
    if (p->holds && ++many % 2 == 0) ivy_in_send_together(p);
  }
  if (p->holds) ivy_in_send_together(p);
  p->holds = 0;
}

/* A frame is looked at where it names the run and its sender, as a word is. */
void ivy_in_hear(ivy_process *p, const uint8_t *bytes, size_t len) {
  if (p->key_length && !ivy_in_has_tag(p, bytes, len)) return;
  if (p->key_length) len -= TAG;
  if (len < HEAD || bytes[TO_AT] != p->me || bytes[FROM_AT] == p->me || bytes[FROM_AT] >= MOST_NODES) return;
  uint32_t from = bytes[FROM_AT];
  uint8_t kind = bytes[KIND_AT];
  if (kind != FRAME && kind != FRAMES) {
    hear_word(p, from, bytes, len);
    return;
  }
  if (!p->is_fixed || from >= p->config.nodes || memcmp(bytes + RUN_AT, p->names[from], 2 * DRAW)) return;
  if (kind == FRAME) hear_frame(p, from, bytes + HEAD, len - HEAD);
  else hear_frames(p, from, bytes + HEAD, len - HEAD);
}
