/* Bytes and numbers as the machine has them: see ivy_native.h. Not proved. */
#define _POSIX_C_SOURCE 200809L
#include "ivy_native.h"
#include <string.h>

enum { WORD = 8 };

/* The number of a call whose bytes in the memory are these, the highest first. */
static uint64_t number_of(const void *bytes, size_t width) {
  const uint8_t *at = (const uint8_t *)bytes;
  uint64_t number = 0;
  for (size_t i = 0; i < width; i++) number = number << 8 | at[i];
  return number;
}

static void bytes_of(uint64_t number, void *bytes, size_t width) {
  uint8_t *at = (uint8_t *)bytes;
  for (size_t i = 0; i < width; i++) at[i] = (uint8_t)(number >> (8 * (width - 1 - i)));
}

static size_t least(size_t a, size_t b) { return a < b ? a : b; }

/* Some bytes of one word. */
static uint32_t get_part(ivy_process *process, uint64_t address, void *into, size_t len) {
  uint8_t word[WORD];
  uint64_t number = 0;
  uint32_t status = ivy_call(process, IVY_LOAD, WORD, address - address % WORD, 0, 0, &number);
  bytes_of(number, word, WORD);
  if (status == IVY_DONE) memcpy(into, word + address % WORD, len);
  return status;
}

uint32_t ivy_get(ivy_process *process, uint64_t address, void *into, size_t len) {
  uint8_t *at = (uint8_t *)into;
  size_t head = least(len, (size_t)(-address % WORD)), rows = (len - head) / WORD * WORD, done = head + rows;
  uint32_t status = head ? get_part(process, address, at, head) : (uint32_t)IVY_DONE;
  if (status == IVY_DONE && rows) status = ivy_read(process, address + head, at + head, rows);
  if (status == IVY_DONE && done < len) status = get_part(process, address + done, at + done, len - done);
  return status;
}

/* Some bytes of one word, in pieces that are stored without the bytes beside them. */
static uint32_t put_part(ivy_process *process, uint64_t address, const uint8_t *from, size_t len) {
  uint32_t status = IVY_DONE;
  uint64_t none;
  for (size_t done = 0, width; done < len && status == IVY_DONE; done += width) {
    uint64_t at = address + done;
    for (width = 4; width > len - done || at % width;) width /= 2;
    status = ivy_call(process, IVY_STORE, (uint32_t)width, at, number_of(from + done, width), 0, &none);
  }
  return status;
}

uint32_t ivy_put(ivy_process *process, uint64_t address, const void *from, size_t len) {
  const uint8_t *at = (const uint8_t *)from;
  size_t head = least(len, (size_t)(-address % WORD)), rows = (len - head) / WORD * WORD, done = head + rows;
  uint32_t status = put_part(process, address, at, head);
  if (status == IVY_DONE && rows) status = ivy_write(process, address + head, at + head, rows);
  if (status == IVY_DONE) status = put_part(process, address + done, at + done, len - done);
  return status;
}

uint64_t ivy_calloc(ivy_process *process, uint64_t bytes) {
  static const uint8_t nothing[512] = { 0 };
  uint64_t address = ivy_alloc(process, bytes);
  for (uint64_t done = 0, part; address && done < bytes; done += part) {
    part = bytes - done < sizeof nothing ? bytes - done : sizeof nothing;
    if (ivy_put(process, address + done, nothing, (size_t)part) != IVY_DONE) return 0;
  }
  return address;
}

/* Where the block begins stands before the address. For what no number says there is no room either. */
uint64_t ivy_alloc_aligned(ivy_process *process, uint64_t bytes, uint64_t alignment) {
  uint64_t more = alignment + WORD;
  uint64_t block = ivy_alloc(process, bytes > UINT64_MAX - more ? UINT64_MAX : bytes + more);
  if (!block) return 0;
  uint64_t address = (block + WORD + alignment - 1) & ~(alignment - 1);
  ivy_store(process, WORD, address - WORD, block);
  return address;
}

void ivy_free_aligned(ivy_process *process, uint64_t address) {
  ivy_free(process, ivy_load(process, WORD, address - WORD));
}

/* A change of a number, by compare-and-swap until no other node was quicker. After a failure a call gives 0, so it ends. */
#define CHANGE(action, name, type, changed)                                                           \
  type ivy_##action##_##name(ivy_process *process, uint64_t address, type value) {                   \
    type old = ivy_get_##name(process, address), was;                                                 \
    for (;; old = was) {                                                                              \
      was = ivy_compare_and_swap_##name(process, address, old, (type)(changed));                      \
      if (!memcmp(&was, &old, sizeof was)) return old;                                                \
    }                                                                                                 \
  }

#define NUMBERS(name, type, sum)                                                                      \
  type ivy_get_##name(ivy_process *process, uint64_t address) {                                       \
    type value;                                                                                       \
    bytes_of(ivy_load(process, sizeof value, address), &value, sizeof value);                         \
    return value;                                                                                     \
  }                                                                                                   \
  void ivy_put_##name(ivy_process *process, uint64_t address, type value) {                           \
    ivy_store(process, sizeof value, address, number_of(&value, sizeof value));                       \
  }                                                                                                   \
  type ivy_swap_##name(ivy_process *process, uint64_t address, type value) {                          \
    type was;                                                                                         \
    bytes_of(ivy_swap(process, sizeof value, address, number_of(&value, sizeof value)), &was, sizeof was); \
    return was;                                                                                       \
  }                                                                                                   \
  type ivy_compare_and_swap_##name(ivy_process *process, uint64_t address, type expected, type value) { \
    uint64_t from = number_of(&expected, sizeof expected), to = number_of(&value, sizeof value);      \
    type was;                                                                                         \
    bytes_of(ivy_compare_and_swap(process, sizeof value, address, from, to), &was, sizeof was);       \
    return was;                                                                                       \
  }                                                                                                   \
  CHANGE(add, name, type, sum)                                                                        \
  CHANGE(min, name, type, value < old ? value : old)                                                  \
  CHANGE(max, name, type, value > old ? value : old)

NUMBERS(int32, int32_t, (uint32_t)old + (uint32_t)value)
NUMBERS(uint32, uint32_t, old + value)
NUMBERS(int64, int64_t, (uint64_t)old + (uint64_t)value)
NUMBERS(uint64, uint64_t, old + value)
NUMBERS(float, float, old + value)
NUMBERS(double, double, old + value)
CHANGE(and, uint32, uint32_t, old & value)
CHANGE(or, uint32, uint32_t, old | value)
CHANGE(xor, uint32, uint32_t, old ^ value)
CHANGE(and, uint64, uint64_t, old & value)
CHANGE(or, uint64, uint64_t, old | value)
CHANGE(xor, uint64, uint64_t, old ^ value)
