/* Containers of C++ in the memory: a map of vectors that all processes fill, under a lock. */
#include "pointers.h"
#include "ivy_map.hpp"
#include <functional>
#include <map>
#include <vector>

typedef std::vector<int, ivy_allocator<int>> numbers;
typedef std::map<int, numbers, std::less<int>, ivy_allocator<std::pair<const int, numbers>>> table;

int main(int argc, char **argv) {
  begin(argc, argv);
  ivy_mapped_process() = ivy;
  if (me == 0) *ivy_map_root(ivy) = ivy_new<table>();
  ivy_map_barrier(ivy);
  table &all = *static_cast<table *>(*ivy_map_root(ivy));
  for (int i = 0; i < 24; i++) {
    ivy_map_lock_acquire(ivy, 0);
    all[i % 6].push_back(static_cast<int>(me) * 100 + i);
    ivy_map_lock_release(ivy, 0);
  }
  ivy_map_barrier(ivy);
  long sum = 0, should = 0;
  for (table::const_iterator it = all.begin(); it != all.end(); ++it) {
    expect("how many numbers a key has", it->second.size() == 4 * nodes);
    for (numbers::const_iterator n = it->second.begin(); n != it->second.end(); ++n) sum += *n;
  }
  for (int node = 0; node < static_cast<int>(nodes); node++)
    for (int i = 0; i < 24; i++) should += node * 100 + i;
  expect("the sum of all numbers", sum == should && all.size() == 6);
  return end();
}
