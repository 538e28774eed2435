/* A random walk through vectors of 16 slots: each line differs from the one before in one slot at most. It is the
 * same for the library, for its twin and for the program, whose trace `write_lines` writes. */
#ifndef WALK_H
#define WALK_H

#include <stdint.h>
#include <stdio.h>
#include <stdlib.h>
#include <time.h>

enum { SLOTS = 16, VALUES = 128, MOST_WORKERS = 64, DEALT = 1024 };

static inline uint32_t *walk_lines(size_t count) {
  uint32_t *lines = (uint32_t *)calloc(count * SLOTS, sizeof *lines);
  uint64_t x = 88172645463325252u;
  if (!lines) exit(1);
  for (size_t k = 1; k < count; k++) {
    for (int i = 0; i < SLOTS; i++) lines[k * SLOTS + i] = lines[(k - 1) * SLOTS + i];
    x ^= x << 13, x ^= x >> 7, x ^= x << 17;
    const uint64_t drawn = x >> 11;
    lines[k * SLOTS + drawn % SLOTS] = (uint32_t)(drawn / SLOTS % VALUES);
  }
  return lines;
}

static inline double seconds(clockid_t clock) {
  struct timespec t;
  clock_gettime(clock, &t);
  return (double)t.tv_sec + (double)t.tv_nsec * 1e-9;
}

static inline void write_lines(const uint32_t *lines, size_t count) {
  for (size_t k = 0; k < count; k++)
    for (int i = 0; i < SLOTS; i++) printf("%u%c", lines[k * SLOTS + i], i + 1 < SLOTS ? ',' : '\n');
}

#endif
