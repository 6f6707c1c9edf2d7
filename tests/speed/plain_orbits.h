// Which darts are known to yield the same word, in plain C: a forest over them.
#ifndef PLAIN_ORBITS_H
#define PLAIN_ORBITS_H

#include <stdbool.h>

#include "plain_map.h"

// up[d] is at most d and yields the word of d. A tree's top, whose up is itself, is the least dart
// known to yield its word.
struct orbits {
  uint16_t up[MOST_NUMBERS + 1];
};

// Every dart is a tree by itself.
static inline void begin_orbits(struct orbits *orbits, size_t m) {
  for (size_t dart = 0; dart <= m; dart++) {
    orbits->up[dart] = (uint16_t)dart;
  }
}

static inline bool is_top(const struct orbits *orbits, size_t dart) {
  return orbits->up[dart] == dart;
}

static inline size_t top(const struct orbits *orbits, size_t dart) {
  while (!is_top(orbits, dart)) {
    dart = orbits->up[dart];
  }
  return dart;
}

// The greater top goes under the lesser.
static inline void join(struct orbits *orbits, size_t one, size_t other) {
  size_t one_top = top(orbits, one);
  size_t other_top = top(orbits, other);
  if (one_top < other_top) {
    orbits->up[other_top] = (uint16_t)one_top;
  } else {
    orbits->up[one_top] = (uint16_t)other_top;
  }
}

#endif
