/* Who is in a run: what an earlier run said, forged words of it, a process that comes in the place of a member, and a machine
 * with another order of bytes. */
#include "channel.h"

enum { EACH = 300, PAGE = CHANNEL_PAGE, KIND = 0, FROM = 1, TO = 2, DRAW = 19, HEAD = 35 };
enum { ORDER = HEAD + 32, ECHO = HEAD + 36, DRAW_BYTES = 16 };
enum { HELLO = 2, DEAD = 6, REFUSED = 8 };

static int puts_in;

static uint32_t kept_now(void) {
  pthread_mutex_lock(&keeping);
  uint32_t many = kept_many;
  pthread_mutex_unlock(&keeping);
  return many;
}

/* All that the earlier run said, and each of its words as one that tells of deaths. */
static void put_in(uint32_t at) {
  uint8_t bytes[IVY_STRING_MOST];
  const channel_string *old = &kept[at % kept_many];
  channel_put(old->to, old->bytes, old->len);
  if (old->bytes[KIND] == 1) return;
  memcpy(bytes, old->bytes, old->len);
  bytes[KIND] = DEAD;
  memset(bytes + HEAD, 0xff, 12);
  channel_put(old->to, bytes, old->len);
}

/* An earlier run began with these words: who hears them first does not take them for those of this run. */
static void begin_as_before(void) {
  for (uint32_t i = 0; i < kept_many; i++)
    if (kept[i].bytes[KIND] == HELLO) channel_put(kept[i].to, kept[i].bytes, kept[i].len);
}

static void add_up(ivy_process *ivy, uint32_t me) {
  for (uint32_t i = 0; i < EACH; i++) {
    if (puts_in) put_in(2 * i + me);
    ivy_fetch_add(ivy, 8, PAGE, 1);
  }
  ivy_advance(ivy, 0);
  ivy_await(ivy, 0, 2);
  should_be("the sum", ivy_load(ivy, 8, PAGE), 2 * EACH);
  should_be("the status", ivy_error(ivy), IVY_DONE);
}

/* A process that is started in the place of node 1, which is in the run: it is refused, and the others go on. */
static void be_intruded(ivy_process *ivy, uint32_t me) {
  uint8_t bytes[IVY_STRING_MOST];
  uint32_t refused = 0;
  for (uint32_t i = 0; i < kept_now() && me == 0 && !refused; i++) {
    if (kept[i].bytes[KIND] != HELLO || kept[i].bytes[FROM] != 1) continue;
    memcpy(bytes, kept[i].bytes, kept[i].len);
    bytes[DRAW] ^= 1;
    channel_put(0, bytes, kept[i].len);
    refused = 1;
  }
  add_up(ivy, me);
}

static uint32_t refusals(void) {
  uint32_t found = 0;
  for (uint32_t i = 0; i < kept_many; i++)
    found += kept[i].bytes[KIND] == REFUSED && kept[i].bytes[FROM] == 0 && kept[i].to == 1;
  return found;
}

/* Answers the first process that says that it is here, as one whose machine has its bytes in another order. */
static void *answer_otherwise(void *argument) {
  uint8_t answer[IVY_STRING_MOST];
  const uint8_t *bytes;
  size_t len;
  while (!(bytes = channel_receive(argument, &len, 10000)) || bytes[KIND] != HELLO) {
  }
  memcpy(answer, bytes, len);
  answer[FROM] = 1;
  answer[TO] = 0;
  memcpy(answer + ECHO, bytes + DRAW, DRAW_BYTES);
  memset(answer + DRAW, 7, DRAW_BYTES);
  answer[ORDER + 3] = (uint8_t)(5 - bytes[ORDER + 3]);
  channel_put(0, answer, len);
  return NULL;
}

static void meet_another_machine(void) {
  ivy_start start = { { 2, 4, PAGE, IVY_DYNAMIC }, 0, channel_open(0), IVY_IN_CALLS, 5000, 5000, NULL, 0 };
  pthread_t other;
  ivy_process *ivy;
  channel_open(1);
  pthread_create(&other, NULL, answer_otherwise, &channels[1]);
  should_be("a start with another order of bytes", ivy_join_as(&start, &ivy), IVY_DIFFERS);
  pthread_join(other, NULL);
}

int main(void) {
  meet_another_machine();
  for (int progress = IVY_IN_CALLS; progress <= IVY_BY_THREAD; progress++) {
    kept_many = 0;
    keeps = 1;
    puts_in = 0;
    channel_opened = NULL;
    channel_run_two((ivy_progress)progress, 5000, be_intruded, be_intruded);
    should_be("whether one was refused", refusals() > 0, 1);
    keeps = 0;
    puts_in = 1;
    channel_opened = begin_as_before;
    channel_run_two((ivy_progress)progress, 5000, add_up, add_up);
  }
  puts("done");
  return 0;
}
