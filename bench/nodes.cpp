// The loops of `measure nodes` over the yardstick's table: 2^19 pairs into 2^20 buckets, by so many threads; prints microseconds.
#include "store.hpp"
#include <cstdio>
#include <cstdlib>
#include <thread>
#include <vector>

constexpr u64 PAIRS = 1 << 19;

static void put_all(Word *table, u64 from, u64 to) {
  for (u64 number = from; number < to; number++) {
    bool fresh;
    put_pair<28>(table, 20, 4194304, (number >> 9 & 0xFFFFF) << 28 | (number & 0x1FF), fresh);
  }
}

static double timed(Word *table, u64 threads, bool all) {
  const double start = now();
  std::vector<std::thread> others;
  const u64 share = PAIRS / threads;
  for (u64 j = 1; j < threads; j++) others.emplace_back(put_all, table, all ? 0 : j * share, all ? PAIRS : (j + 1) * share);
  put_all(table, 0, all ? PAIRS : share);
  for (auto &other : others) other.join();
  return (now() - start) * 1e6;
}

int main(int count, char **words) {
  const u64 threads = count > 1 ? strtoull(words[1], nullptr, 10) : 1;
  g_huge = false;
  Word *table = (Word *)zeroed(8ULL << 20);
  memset((void *)table, 0, 8ULL << 20);
  const double put = timed(table, threads, false), found = timed(table, threads, true);
  printf("%llu pairs by %llu threads: put %.0f us, found by each %.0f us\n", (unsigned long long)PAIRS, (unsigned long long)threads, put, found);
}
