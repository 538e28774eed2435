// The yardstick's region on the keys that `measure region` draws: nanoseconds in all for insertions into an empty region, for searches for
// keys that are there, and for others. Arguments: S, FILL in percent, ROUNDS.
#include <chrono>
#include <cstdio>
#include <cstdlib>
#include <vector>
#include <cstdint>
#include <cstring>
#include <algorithm>
#include <string>
#include "store.hpp"

static uint64_t after(uint64_t draw) { return draw * 6364136223846793005u + 1442695040888963407u; }

int main(int argc, char **argv) {
  const uint64_t s = argc > 1 ? atoi(argv[1]) : 6, percent = argc > 2 ? atoi(argv[2]) : 50, rounds = argc > 3 ? atoi(argv[3]) : 1;
  const uint64_t cells = 1ull << s, total = 1ull << 16, repeats = 16, count = cells * percent / 100;
  std::vector<uint64_t> words((42ull << (s - 6)) + 1);
  Region<28, 7, uint64_t> region{words.data(), 42, cells};
  uint64_t insert = 0, present = 0, absent = 0, sum = 0;
  auto timed = [](uint64_t &into, auto &&body) {
    const auto start = std::chrono::steady_clock::now();
    body();
    into += std::chrono::duration_cast<std::chrono::nanoseconds>(std::chrono::steady_clock::now() - start).count();
  };
  // The seed is moved by what is 0 and isn't known to be, so that no two searches are known to be the same.
  auto look = [&](uint64_t seed, uint64_t high) {
    uint64_t draw = seed, found = 0;
    for (uint64_t i = 0; i < count; i++) {
      draw = after(draw);
      found += region.find(draw >> 40 & (cells - 1), (draw >> 8 & 0x7FFFFFFF) + high);
    }
    return found;
  };
  for (uint64_t round = 0; round < rounds; round++)
    for (uint64_t i = 0; i < total / cells; i++) {
      const uint64_t seed = i + round * total;
      timed(insert, [&] {
        for (uint64_t n = 0; n < repeats; n++) {
          std::fill(words.begin(), words.end(), 0);
          uint64_t draw = seed;
          for (uint64_t k = 0; k < count; k++) {
            draw = after(draw);
            sum += region.insert(draw >> 40 & (cells - 1), draw >> 8 & 0x7FFFFFFF) == 1;
          }
        }
      });
      timed(present, [&] { for (uint64_t n = 0, off = 0; n < repeats; n++) { const uint64_t found = look(seed + off, 0); off += found - count; sum += found; } });
      timed(absent, [&] { uint64_t off = 0; for (uint64_t n = 0; n < repeats; n++) off += look(seed + off, 1ull << 31); sum += off; });
    }
  fprintf(stderr, "insert %llu present %llu absent %llu ns, sum %llu\n", (unsigned long long)insert, (unsigned long long)present, (unsigned long long)absent, (unsigned long long)sum);
}
