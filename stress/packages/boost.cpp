/* Boost.Interprocess in mapped memory: a map of strings and a vector in an external buffer, which all processes fill, look up and
 * empty under a lock. */
#include "../../examples/pointers/pointers.h"
#include <boost/interprocess/allocators/allocator.hpp>
#include <boost/interprocess/containers/map.hpp>
#include <boost/interprocess/containers/string.hpp>
#include <boost/interprocess/containers/vector.hpp>
#include <boost/interprocess/managed_external_buffer.hpp>

namespace bi = boost::interprocess;
typedef bi::basic_managed_external_buffer<char, bi::rbtree_best_fit<bi::null_mutex_family>, bi::iset_index> area;
typedef bi::allocator<char, area::segment_manager> letters;
typedef bi::basic_string<char, std::char_traits<char>, letters> text;
typedef std::pair<const int, text> pair;
typedef bi::allocator<pair, area::segment_manager> pairs;
typedef bi::map<int, text, std::less<int>, pairs> table;
typedef bi::vector<int, bi::allocator<int, area::segment_manager>> numbers;

static const std::size_t SIZE = 64 * 4096;

static std::string word(int key) { return "the word of key " + std::to_string(key) + std::string(static_cast<std::size_t>(key % 40), '.'); }

int main(int argc, char **argv) {
  begin(argc, argv);
  void *memory = shared(SIZE);
  if (me == 0) {
    area made(bi::create_only, memory, SIZE);
    made.construct<table>("table")(std::less<int>(), made.get_segment_manager());
    made.construct<numbers>("numbers")(made.get_segment_manager());
  }
  ivy_map_barrier(ivy);
  area all(bi::open_only, memory, SIZE);
  for (int i = 0; i < 40; i++) {
    int key = i * static_cast<int>(nodes) + static_cast<int>(me);
    ivy_map_lock_acquire(ivy, 0);
    table *words = all.find<table>("table").first;
    words->insert(pair(key, text(word(key).c_str(), all.get_segment_manager())));
    all.find<numbers>("numbers").first->push_back(key);
    if (i % 4 == 3) words->erase(key - 2 * static_cast<int>(nodes));
    ivy_map_lock_release(ivy, 0);
  }
  ivy_map_barrier(ivy);
  table *words = all.find<table>("table").first;
  expect("how many words there are", words->size() == 30 * nodes && all.find<numbers>("numbers").first->size() == 40 * nodes);
  for (table::const_iterator it = words->begin(); it != words->end(); ++it) expect("a word", word(it->first) == it->second.c_str());
  ivy_map_barrier(ivy);
  if (me == nodes - 1) {
    expect("the allocator's lists", all.check_sanity());
    all.destroy<table>("table");
    all.destroy<numbers>("numbers");
    expect("nothing that is left", all.all_memory_deallocated() || all.check_sanity());
  }
  ivy_map_barrier(ivy);
  return end();
}
