// Other numbers for the darts of a map: by chance, or by the words of the starts.
#ifndef NUMBERINGS_H
#define NUMBERINGS_H

#include "maps.h"

// to[d - 1] is the new name of dart d.
struct map map_renamed(const struct map *map, const uint16_t *to);

// Names by chance, in two ways of drawing: seeded lists keep to the first, measured maps to the second.
void shuffled_names(struct chance *chance, uint64_t m, uint16_t *to);
struct map map_shuffled(struct chance *chance, const struct map *map);
struct map map_inserted(struct chance *chance, const struct map *map);

// ---- Words ----

// labels[d] is the label of dart d from some start, with labels[0] 0; darts has them in the order labelled.
struct map_order {
  size_t length;
  uint16_t darts[MOST_ENTRIES];
  uint16_t labels[MOST_ENTRIES + 1];
};

void order_from(const struct map *map, uint64_t start, struct map_order *order);

// Starts are tried in the order of the dart numbers, so the numbering decides what they cost.
enum numbering {
  AS_MADE,
  // The best word changes as often as it can.
  GREATEST_FIRST,
  // The least word's start is dart 1: every other start is left as early as it can be.
  LEAST_FIRST,
  // One start of each word by turns, the greatest first.
  BY_TURNS,
  BY_CHANCE,
  // Each start runs as far as it can, and starts of one word come where none of them ties.
  LONGEST_RUNS
};

// For the numberings by words. Of one word, the starts stay in their order.
struct map map_numbered(const struct map *map, enum numbering numbering);

#endif
