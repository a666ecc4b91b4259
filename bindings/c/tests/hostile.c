/* Strings that are no frames, cut and changed ones, and drawn calls, at one node: 2,000,000 or as many as are asked for. A
 * forged frame may do what a peer may do; it never reads or writes outside the node. */
#include "ivy.h"
#include <stdio.h>
#include <stdlib.h>
#include <string.h>

enum { TIMES = 2000000 };

static uint64_t seed = 88172645463325252ull;
static uint32_t draw(uint32_t n) {
  seed ^= seed << 13;
  seed ^= seed >> 7;
  seed ^= seed << 17;
  return (uint32_t)(seed >> 33) % n;
}

static int bad_arguments(void) {
  ivy_node node = IVY_NONE;
  uint64_t value = 0;
  uint32_t what, dest, begun;
  size_t len;
  uint8_t small[1];
  if (ivy_begin(&node, IVY_LOAD, 8, 256, 0, 0, &value) != IVY_CLOSED || ivy_reply(&node, &value) != IVY_CLOSED) return 1;
  if (ivy_deliver(&node, small, 1, &what) != IVY_CLOSED || ivy_pulse(&node, 1) != IVY_CLOSED) return 2;
  if (ivy_next_frame(&node, small, 1, &len, &dest) != IVY_CLOSED || ivy_turns(&node, &value) != IVY_CLOSED) return 3;
  if (ivy_kept_set(&node, &what) != IVY_CLOSED || ivy_owed_set(&node, &what) != IVY_CLOSED) return 15;
  if (ivy_fetch(&node, 1, IVY_TO_READ, &begun) != IVY_CLOSED || ivy_fetch(&node, 99, 99, &begun) != IVY_CLOSED) return 19;
  if (ivy_open(&node, 1, 16, 256, 0, 0) != IVY_BAD_CONFIG || ivy_open(&node, 257, 16, 256, 0, 0) != IVY_BAD_CONFIG) return 4;
  if (ivy_open(&node, 2, 16, 100, 0, 0) != IVY_BAD_CONFIG || ivy_open(&node, 2, 16, 256, 7, 0) != IVY_BAD_ARGUMENT) return 5;
  if (ivy_open(&node, 2, 65537, 256, 0, 0) != IVY_BAD_CONFIG || ivy_open(&node, 2, 1, 256, 0, 0) != IVY_BAD_CONFIG) return 5;
  if (ivy_open(&node, 2, 16, 256, 0, 2) != IVY_BAD_ARGUMENT || ivy_open(&node, 2, 16, 256, 0, 256) != IVY_BAD_ARGUMENT) return 6;
  if (ivy_open(&node, 2, 16, 256, IVY_STEADY, 0) != IVY_BAD_ARGUMENT || ivy_open_by(&node, 2, 16, 256, 3, 0) != IVY_BAD_ARGUMENT) return 16;
  if (ivy_open_by(&node, 2, 65537, 256, IVY_STEADY, 0) != IVY_BAD_CONFIG || ivy_open_by(&node, 2, 16, 256, IVY_STEADY, 2) != IVY_BAD_ARGUMENT) return 17;
  if (node.at || ivy_open_by(&node, 2, 16, 256, IVY_STEADY, 1) || ivy_open_by(&node, 2, 16, 256, IVY_STEADY, 1) != IVY_OPEN) return 18;
  ivy_close(&node);
  if (node.at || ivy_open(&node, 2, 16, 256, 0, 1) || ivy_open(&node, 2, 16, 256, 0, 1) != IVY_OPEN) return 7;
  if (ivy_begin(&node, 10, 8, 256, 0, 0, &value) != IVY_BAD_ARGUMENT) return 8;
  if (ivy_begin(&node, IVY_LOAD, 3, 256, 0, 0, &value) != IVY_BAD_ARGUMENT) return 9;
  if (ivy_begin(&node, IVY_LOAD, 8, 257, 0, 0, &value) != IVY_MISALIGNED) return 10;
  if (ivy_begin(&node, IVY_LOAD, 8, 4096, 0, 0, &value) != IVY_OUT_OF_RANGE) return 11;
  if (ivy_begin(&node, IVY_LOAD, 8, 0, 0, 0, &value) != IVY_RESERVED) return 12;
  if (ivy_fetch(&node, 16, IVY_TO_READ, &begun) != IVY_BAD_ARGUMENT || ivy_fetch(&node, UINT32_MAX, IVY_TO_WRITE, &begun) != IVY_BAD_ARGUMENT) return 20;
  if (ivy_fetch(&node, 1, IVY_UNLENT, &begun) != IVY_BAD_ARGUMENT || ivy_fetch(&node, 1, 3, &begun) != IVY_BAD_ARGUMENT) return 21;
  if (ivy_reply(&node, &value) != IVY_NO_CALL || ivy_pulse(&node, 1) != IVY_BAD_ARGUMENT) return 13;
  if (ivy_pulse(&node, 200) != IVY_BAD_ARGUMENT || ivy_deliver(&node, 0, 0, &what) != IVY_SHORT_FRAME) return 14;
  ivy_close(&node);
  ivy_close(&node);
  return node.at != 0;
}

/* Whether the node had one turn more, where it may have had one, or none. */
static int had_turns(ivy_node *node, uint64_t *before, uint64_t most) {
  uint64_t turns;
  if (ivy_turns(node, &turns) != IVY_DONE || turns - *before > most) return 0;
  *before = turns;
  return 1;
}

/* Whether a pulse to the peer makes a string exactly where one of the sets has it. No string waits. */
static int pulses_as_told(ivy_node *node) {
  uint8_t bytes[IVY_FRAME_MOST(256)];
  uint32_t kept, owed, dest;
  size_t len;
  if (ivy_kept_set(node, &kept) != IVY_DONE || ivy_owed_set(node, &owed) != IVY_DONE || (kept | owed) > 2) return 0;
  if (ivy_pulse(node, 1) != IVY_DONE) return 0;
  return (ivy_next_frame(node, bytes, sizeof bytes, &len, &dest) == IVY_DONE) == ((kept | owed) == 2);
}

int main(int argc, char **argv) {
  int times = argc > 1 ? atoi(argv[1]) : TIMES;
  ivy_node node = IVY_NONE, peer = IVY_NONE;
  uint8_t frame[IVY_FRAME_MOST(256)], bytes[IVY_FRAME_MOST(256)];
  size_t len = 0;
  uint32_t what, dest, begun;
  uint64_t value, turns = 0;
  int status = bad_arguments();
  if (status) return printf("bad arguments: %d\n", status), 1;
  if (ivy_open(&node, 2, 16, 256, IVY_DYNAMIC, 0) || ivy_open(&peer, 2, 16, 256, IVY_DYNAMIC, 1)) return 2;
  if (ivy_begin(&peer, IVY_LOAD, 8, 256, 0, 0, &value) != IVY_PENDING) return 3;
  if (ivy_begin(&peer, IVY_LOAD, 8, 256, 0, 0, &value) != IVY_BUSY) return 4;
  if (ivy_next_frame(&peer, bytes, 3, &len, &dest) != IVY_SHORT_BUFFER || len < 24) return 5;
  if (ivy_next_frame(&peer, frame, sizeof frame, &len, &dest) != IVY_DONE || dest != 0) return 6;
  for (int i = 0; i < times; i++) {
    size_t n = len, to_write;
    memcpy(bytes, frame, len);
    switch (draw(3)) {
      case 0:
        n = draw(sizeof bytes);
        for (size_t k = 0; k < n; k++) bytes[k] = (uint8_t)draw(256);
        break;
      case 1: bytes[draw((uint32_t)len)] ^= (uint8_t)(1 << draw(8)); break;
      default: n = draw((uint32_t)len); break;
    }
    ivy_deliver(&node, bytes, n, &what);
    if (!had_turns(&node, &turns, 0)) return 8;
    if (i % 4 == 0) ivy_begin(&node, draw(11), 1u << draw(5), draw(5000), draw(1000), draw(3), &value);
    if (i % 4 == 1) ivy_reply(&node, &value);
    if (!had_turns(&node, &turns, i % 4 < 2)) return 9;
    if (i % 16 == 6 && ivy_fetch(&node, draw(20), draw(4), &begun) != IVY_DONE) begun = 0;
    if (!had_turns(&node, &turns, i % 16 == 6 && begun)) return 12;
    if (i % 64 == 2) ivy_pulse(&node, (uint8_t)draw(3));
    while (ivy_next_frame(&node, bytes, sizeof bytes, &to_write, &dest) == IVY_DONE)
      if (to_write > sizeof bytes || dest > 1) return 7;
    if (i % 64 == 3 && !pulses_as_told(&node)) return 11;
  }
  if (!had_turns(&node, &turns, 0) || !turns) return 10;
  ivy_close(&node);
  ivy_close(&peer);
  puts("done");
  return 0;
}
