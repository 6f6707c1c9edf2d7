// The first row of a start's word in plain C, as far as the start's own sewings show it.
#ifndef PLAIN_FIRST_ROW_H
#define PLAIN_FIRST_ROW_H

#include <stdbool.h>

#include "plain_map.h"

// The label of beta 1 of a start, which is met after the start and its beta 0.
static inline size_t first_label(size_t start, size_t before, size_t next) {
  if (next == 0) {
    return 0;
  }
  if (next == start) {
    return 1;
  }
  return before == 0 || before == next ? 2 : 3;
}

// Twice the first number of a start's word, and one more where the second is not 0. A start of
// greater rank yields a greater word.
static inline size_t rank(const struct map *map, const uint16_t *beta0, size_t start) {
  const uint16_t *row = map->table + (start - 1) * map->n;
  bool has_second = map->n > 1 && row[1] != 0;
  return 2 * first_label(start, beta0[start - 1], row[0]) + has_second;
}

#endif
