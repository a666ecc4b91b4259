/* ivy_native.h: bytes and numbers as the machine has them, at any address.
 *
 * A word of the memory belongs to one of two families, and is not used by the other. Words of calls (ivy_load, ivy_fetch_add,
 * ivy_sync.h) are numbers, the same on every machine. What is here are bytes, in the order in which the machine itself has
 * them: what ivy_put_double stores ivy_get finds, and a `double` in it. All nodes have the same order of bytes, which they
 * compare at the start.
 *
 * Numbers lie at multiples of their size, and each function of one is one step: no node sees a part of it. Of longer bytes
 * each aligned word of 8 is one step. */
#ifndef IVY_NATIVE_H
#define IVY_NATIVE_H
#include "ivy_runtime.h"
#ifdef __cplusplus
extern "C" {
#endif

/* Bytes from any address on, so many. IVY_DONE; the refusal of the first word that was refused, and those before it were
 * carried out; or the status of a failure. */
uint32_t ivy_get(ivy_process *process, uint64_t address, void *into, size_t len);
uint32_t ivy_put(ivy_process *process, uint64_t address, const void *from, size_t len);

/* A block whose bytes are 0; and one at a multiple of a power of two from 8 on, as of the size of a page, which ivy_free_aligned
 * frees: it takes so many bytes and 8 more. 0 after a failure, as of ivy_alloc. */
uint64_t ivy_calloc(ivy_process *process, uint64_t bytes);
uint64_t ivy_alloc_aligned(ivy_process *process, uint64_t bytes, uint64_t alignment);
void ivy_free_aligned(ivy_process *process, uint64_t address);

/* Of each type: what stands at an address; a new value; and changes, which give what stood there before: to a value; to one
 * where another is expected, which are compared by their bytes; by a sum; to the lesser or the greater of both. A refusal is a
 * failure, as of ivy_load. */
#define IVY_NUMBERS(name, type)                                                                     \
  type ivy_get_##name(ivy_process *process, uint64_t address);                                      \
  void ivy_put_##name(ivy_process *process, uint64_t address, type value);                          \
  type ivy_swap_##name(ivy_process *process, uint64_t address, type value);                         \
  type ivy_compare_and_swap_##name(ivy_process *process, uint64_t address, type expected, type value); \
  type ivy_add_##name(ivy_process *process, uint64_t address, type addend);                         \
  type ivy_min_##name(ivy_process *process, uint64_t address, type value);                          \
  type ivy_max_##name(ivy_process *process, uint64_t address, type value);
IVY_NUMBERS(int32, int32_t)
IVY_NUMBERS(uint32, uint32_t)
IVY_NUMBERS(int64, int64_t)
IVY_NUMBERS(uint64, uint64_t)
IVY_NUMBERS(float, float)
IVY_NUMBERS(double, double)
#undef IVY_NUMBERS

/* The same by bits. */
uint32_t ivy_and_uint32(ivy_process *process, uint64_t address, uint32_t value);
uint32_t ivy_or_uint32(ivy_process *process, uint64_t address, uint32_t value);
uint32_t ivy_xor_uint32(ivy_process *process, uint64_t address, uint32_t value);
uint64_t ivy_and_uint64(ivy_process *process, uint64_t address, uint64_t value);
uint64_t ivy_or_uint64(ivy_process *process, uint64_t address, uint64_t value);
uint64_t ivy_xor_uint64(ivy_process *process, uint64_t address, uint64_t value);

#ifdef __cplusplus
}
#endif
#endif
