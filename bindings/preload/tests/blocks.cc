// A loop over blocks by TBB, whose threads steal work from one another by atomics.
#include <tbb/concurrent_vector.h>
#include <tbb/parallel_for.h>

#include <cstdio>

int main() {
  tbb::concurrent_vector<int> order;
  tbb::parallel_for(0, 2000, [&](int i) {
    for (volatile int k = 0; k < 1000;) k = k + 1;
    order.push_back(i);
  });
  unsigned long digest = 0;
  for (int i : order) digest = digest * 31 + static_cast<unsigned long>(i);
  std::printf("%zu %lx\n", order.size(), digest);
}
