/* Messages of any length round a ring: each node has a ring of bytes for the next one, with counts of bytes that were sent and
 * that were taken. */
#include "example.h"
#include "ivy_native.h"

enum { PAGE = 256, ROOM = 2 * PAGE, MESSAGES = 40, LONGEST = 150, MOST_NODES = 8, SENT = 1, TAKEN = SENT + MOST_NODES };

/* One end of the ring of bytes that a node sends into. */
typedef struct {
  uint32_t node;
  uint64_t bytes; /* so many went through */
} end_of_ring;

/* Some bytes of the ring, which goes round. */
static void move(example *e, const end_of_ring *end, void *bytes, size_t len, int puts) {
  uint64_t ring = PAGE + (uint64_t)end->node * ROOM, at = end->bytes % ROOM;
  size_t first = len < ROOM - at ? len : (size_t)(ROOM - at);
  uint8_t *from = (uint8_t *)bytes;
  if (puts) ivy_put(e->ivy, ring + at, from, first), ivy_put(e->ivy, ring, from + first, len - first);
  else ivy_get(e->ivy, ring + at, from, first), ivy_get(e->ivy, ring, from + first, len - first);
}

/* A count goes up by one for each message, of which a ring may have a few. */
static void send(example *e, end_of_ring *end, uint64_t number, void *bytes, uint32_t len) {
  uint32_t most = ROOM / (LONGEST + sizeof len);
  if (number > most) ivy_await(e->ivy, TAKEN + end->node, number - most);
  move(e, end, &len, sizeof len, 1);
  end->bytes += sizeof len;
  move(e, end, bytes, len, 1);
  end->bytes += len;
  ivy_advance(e->ivy, SENT + end->node);
}

static uint32_t take(example *e, end_of_ring *end, uint64_t number, void *bytes) {
  uint32_t len;
  ivy_await(e->ivy, SENT + end->node, number);
  move(e, end, &len, sizeof len, 0);
  end->bytes += sizeof len;
  move(e, end, bytes, len, 0);
  end->bytes += len;
  ivy_advance(e->ivy, TAKEN + end->node);
  return len;
}

int main(int argc, char **argv) {
  uint8_t sent[LONGEST], found[LONGEST];
  example e;
  begin_example(&e, argc, argv, 1 + MOST_NODES * ROOM / PAGE, PAGE);
  if (e.nodes > MOST_NODES) exit(2);
  end_of_ring own = { e.me, 0 }, before = { (e.me + e.nodes - 1) % e.nodes, 0 };
  for (uint32_t i = 1; i <= MESSAGES; i++) {
    memset(sent, (int)(i + e.me), sizeof sent);
    send(&e, &own, i, sent, i * 37 % LONGEST);
    expect(&e, "the length of a message", take(&e, &before, i, found), i * 37 % LONGEST);
    memset(sent, (int)(i + before.node), sizeof sent);
    expect(&e, "whether a message is another one", memcmp(found, sent, i * 37 % LONGEST) != 0, 0);
  }
  barrier(&e);
  if (e.me == 0) printf("messages: %d round a ring of %u\n", MESSAGES, e.nodes);
  end_example(&e);
  return 0;
}
