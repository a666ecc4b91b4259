// Arrays of numbers in the shared memory, in C++: node 0 makes one and gives its address to all, who add to it.
#include "example.h"
#include "ivy_sync.h"
#include <vector>

namespace {

// An array of doubles at an address.
class Doubles {
 public:
  Doubles(ivy_process *process, uint64_t address, size_t size) : process_(process), address_(address), size_(size) {}

  double at(size_t i) const { return ivy_get_double(process_, address_ + 8 * i); }
  void add(size_t i, double value) { ivy_add_double(process_, address_ + 8 * i, value); }
  std::vector<double> all() const {
    std::vector<double> found(size_);
    ivy_get(process_, address_, found.data(), 8 * size_);
    return found;
  }

 private:
  ivy_process *process_;
  uint64_t address_;
  size_t size_;
};

enum : uint64_t { PAGE = 256, SIZE = 20, GIVEN = 7 * PAGE, EACH = 10 };

}  // namespace

int main(int argc, char **argv) {
  example e;
  begin_example(&e, argc, argv, 8, PAGE);
  ivy_barrier meet = {1, e.nodes, 0};
  const ivy_broadcast place = {GIVEN, &meet};
  uint64_t address = e.me == 0 ? ivy_calloc(e.ivy, 8 * SIZE) : 0;
  if (e.me == 0) ivy_broadcast_give(e.ivy, &place, address);
  else address = ivy_broadcast_get(e.ivy, &place);
  Doubles numbers(e.ivy, address, SIZE);
  for (uint64_t i = 0; i < EACH * SIZE; i++) numbers.add(i % SIZE, 0.25);
  barrier(&e);
  double sum = 0;
  for (double it : numbers.all()) sum += it;
  expect(&e, "the sum", (uint64_t)(4 * sum), EACH * SIZE * e.nodes);
  expect(&e, "one of them", (uint64_t)(4 * numbers.at(3)), EACH * e.nodes);
  barrier(&e);
  if (e.me == 0) printf("arrays: %g\n", sum);
  end_example(&e);
  return 0;
}
