// The same walk by the yardstick's unproved twin. usage: walk_twin THREADS LINES ROUNDS
#include "store.hpp"
#include "walk.h"

#include <cstring>
#include <thread>
#include <vector>

int main(int argc, char **argv) {
  const int count = argc > 1 ? atoi(argv[1]) : 1;
  const size_t line_count = argc > 2 ? strtoull(argv[2], nullptr, 10) : 1000000;
  const uint32_t *lines = walk_lines(line_count);
  g_huge = false;
  Store<28, 7> store(Sizes{24, 21, 0, 4194304}, SLOTS, false, false);
  // its pages are touched first, as making the library's store touches its own
  memset((void *)store.nodes, 0, 8ULL << 24);
  memset((void *)store.roots, 0, 8ULL << 21);
  std::vector<Pass<28, 7>> passes;
  for (int i = 0; i < count; i++) passes.emplace_back(store);
  if (argc > 3 && atoi(argv[3]) == 0) return 0;
  std::atomic<size_t> dealt{0};
  std::atomic<u64> fresh{0};
  std::vector<double> cpus(count);
  auto work = [&](int i) {
    const double before = seconds(CLOCK_THREAD_CPUTIME_ID);
    u64 mine = 0;
    for (;;) {
      const size_t begin = dealt.fetch_add(DEALT);
      if (begin >= line_count) break;
      for (size_t k = begin; k < begin + DEALT && k < line_count; k++) mine += passes[i].insert_from(lines + k * SLOTS).kind == 0;
    }
    fresh += mine;
    cpus[i] = seconds(CLOCK_THREAD_CPUTIME_ID) - before;
  };
  const double begin = seconds(CLOCK_MONOTONIC);
  std::vector<std::thread> threads;
  for (int i = 1; i < count; i++) threads.emplace_back(work, i);
  work(0);
  for (auto &thread : threads) thread.join();
  const double wall = seconds(CLOCK_MONOTONIC) - begin;
  double cpu = 0;
  for (double c : cpus) cpu += c;
  printf("%.4f %.4f %llu 0\n", wall, cpu, (unsigned long long)fresh.load());
}
