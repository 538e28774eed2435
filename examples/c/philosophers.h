/* Dining philosophers who take their left fork first, as vectors of slots and their steps. */
#ifndef PHILOSOPHERS_H
#define PHILOSOPHERS_H

#include <stdint.h>
#include <string.h>

enum { PHILOSOPHERS = 8, SLOTS = 2 * PHILOSOPHERS };

/* What philosopher i does stands in slot i, and whether the fork to his left is taken in slot PHILOSOPHERS + i. */
enum { THINKS, HUNGRY, HAS_LEFT, EATS };

/* The states after one step from a state: how many there are. */
static inline int successors(const uint32_t *state, uint32_t next[PHILOSOPHERS][SLOTS]) {
  int count = 0;
  for (int i = 0; i < PHILOSOPHERS; i++) {
    const int left = PHILOSOPHERS + i, right = PHILOSOPHERS + (i + 1) % PHILOSOPHERS;
    uint32_t *to = next[count];
    memcpy(to, state, SLOTS * sizeof *state);
    switch (state[i]) {
    case THINKS:
      to[i] = HUNGRY;
      break;
    case HUNGRY:
      if (state[left]) continue;
      to[i] = HAS_LEFT;
      to[left] = 1;
      break;
    case HAS_LEFT:
      if (state[right]) continue;
      to[i] = EATS;
      to[right] = 1;
      break;
    default:
      to[i] = THINKS;
      to[left] = 0;
      to[right] = 0;
      break;
    }
    count++;
  }
  return count;
}

#endif
