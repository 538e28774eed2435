// The yardstick's tables of roots on the roots that `measure roots` asks for, by so many threads, each with its share of them: microseconds for roots that are
// put, put again and looked for. Arguments: 1 plain, 2 compact; S; FILL in percent; PUTS; LOOKS; THREADS.
#include <chrono>
#include <cstdio>
#include <cstdlib>
#include <vector>
#include <cstdint>
#include <cstring>
#include <algorithm>
#include <string>
#include <atomic>
#include <thread>
#include "store.hpp"

constexpr unsigned W = 28, F = 7, ROOTS = 18;
using Compact = Store<W, F>;

struct Place { Word &lock; Region<W, F, Word> region; u64 home, quotient; };

static Place place(Compact &st, u64 pair) {
  const u64 h = Hash<W>::mix(pair), g = h & ((1ULL << st.z.r) - 1), home = g & ((1ULL << st.z.s) - 1);
  return {st.locks[g >> st.z.s], {st.cells + st.region_words * (g >> st.z.s), st.C, 1ULL << st.z.s}, home, h >> st.z.r};
}

static bool put(Compact &st, u64 pair) {
  Place p = place(st, pair);
  u64 v;
  do { while ((v = p.lock.load(RLX)) & 1) _mm_pause(); } while (!p.lock.compare_exchange_weak(v, v + 1, ACQ, RLX));
  std::atomic_thread_fence(REL);
  const int got = p.region.insert(p.home, p.quotient);
  p.lock.store(v + 2, REL);
  return got >= 0;
}

static bool look(Compact &st, u64 pair) {
  Place p = place(st, pair);
  const u64 v = p.lock.load(ACQ);
  if (v & 1) return false;
  const bool hit = p.region.find(p.home, p.quotient);
  std::atomic_thread_fence(ACQ);
  return p.lock.load(RLX) == v && hit;
}

int main(int argc, char **argv) {
  auto word = [&](int i, u64 otherwise) { return argc > i ? strtoull(argv[i], nullptr, 10) : otherwise; };
  const bool compact = word(1, 2) == 2;
  const u64 s = word(2, 8), count = (word(3, 50) << ROOTS) / 100, puts = word(4, 1), looks = word(5, 1), threads = word(6, 1);
  Compact st(Sizes{3, ROOTS, (unsigned)s, 4194304}, 2, compact, false);
  std::atomic<u64> missed{0};
  auto timed = [&](u64 rounds, auto &&misses) {
    const auto start = std::chrono::steady_clock::now();
    auto share = [&](u64 t) {
      u64 none = 0;
      for (u64 i = 0; i < rounds; i++)
        for (u64 n = t * count / threads; n < (t + 1) * count / threads; n++) none += misses((n >> 9 & 0xFFFFF) << W | (n & 0x1FF));
      missed += none;
    };
    std::vector<std::thread> others;
    for (u64 t = 1; t < threads; t++) others.emplace_back(share, t);
    share(0);
    for (auto &other : others) other.join();
    return (unsigned long long)std::chrono::duration_cast<std::chrono::microseconds>(std::chrono::steady_clock::now() - start).count();
  };
  auto put_misses = [&](u64 pair) {
    bool fresh = false;
    return compact ? !put(st, pair) : put_pair<W>(st.roots, ROOTS, st.z.probe, pair, fresh) < 0;
  };
  auto look_misses = [&](u64 pair) { return !compact || !look(st, pair); };
  const auto fresh = timed(1, put_misses), again = timed(puts, put_misses), looked = timed(looks, look_misses);
  fprintf(stderr, "%s %llu %llu %llu %llu\n", compact ? "compact" : "plain", fresh, again, looked, (unsigned long long)missed.load());
}
