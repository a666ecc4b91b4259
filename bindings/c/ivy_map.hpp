/* ivy_map.hpp: containers of C++ in mapped memory, by an allocator with plain pointers. One memory is mapped, which it is told once
 * in each process: ivy_mapped_process() = process. */
#ifndef IVY_MAP_HPP
#define IVY_MAP_HPP
#include "ivy_map.h"
#include <new>

inline ivy_process *&ivy_mapped_process() {
  static ivy_process *process;
  return process;
}

/* As std::allocator, for std::vector<T, ivy_allocator<T>> and others: a container that stands in the memory itself is found by all
 * processes. It is used by one at a time, as under a lock. */
template <class T> struct ivy_allocator {
  typedef T value_type;
  ivy_allocator() {}
  template <class U> ivy_allocator(const ivy_allocator<U> &) {}
  T *allocate(std::size_t many) {
    void *block = many > SIZE_MAX / sizeof(T) ? nullptr : ivy_map_malloc(ivy_mapped_process(), many * sizeof(T));
    if (!block) throw std::bad_alloc();
    return static_cast<T *>(block);
  }
  void deallocate(T *block, std::size_t) { ivy_map_free(ivy_mapped_process(), block); }
};
template <class T, class U> bool operator==(const ivy_allocator<T> &, const ivy_allocator<U> &) { return true; }
template <class T, class U> bool operator!=(const ivy_allocator<T> &, const ivy_allocator<U> &) { return false; }

/* A value that is made in the memory. */
template <class T> T *ivy_new() { return new (ivy_allocator<T>().allocate(1)) T(); }
#endif
