// Judging and labelling in plain C: one pass for each rule, one queue and one array of labels. The
// signature and the match each have their own copy of this code, so that what the compiler makes of
// one does not hang on the other.
#ifndef PLAIN_MAP_H
#define PLAIN_MAP_H

#include <string.h>

#include "../../include/duftheim.h"

enum { MOST_SEWINGS = 4, MOST_NUMBERS = 1020 };

// An accepted size and the table that goes with it.
struct map {
  size_t n;
  size_t m;
  const uint16_t *table;
};

// Where beta i of a dart stands in the table, counted from 1.
static size_t place_of(const struct map *map, size_t i, size_t dart) {
  return (dart - 1) * map->n + i;
}

// Beta i of a dart or of 0, for i from 1 to n.
static size_t sewn_to(const struct map *map, size_t i, size_t dart) {
  return dart == 0 ? 0 : map->table[place_of(map, i, dart) - 1];
}

// Each rule below answers the place of the least entry that breaks it, or 0.

static size_t place_of_high_entry(const struct map *map) {
  for (size_t dart = 1; dart <= map->m; dart++) {
    const uint16_t *row = map->table + (dart - 1) * map->n;
    for (size_t i = 1; i <= map->n; i++) {
      if (row[i - 1] > map->m) {
        return place_of(map, i, dart);
      }
    }
  }
  return 0;
}

// Fills beta0 on the way: what is filled already is a clash.
static size_t place_of_clash(const struct map *map, uint16_t *beta0) {
  memset(beta0, 0, map->m * sizeof beta0[0]);
  for (size_t dart = 1; dart <= map->m; dart++) {
    size_t next = map->table[(dart - 1) * map->n];
    if (next == 0) {
      continue;
    }
    if (beta0[next - 1] != 0) {
      return place_of(map, 1, dart);
    }
    beta0[next - 1] = (uint16_t)dart;
  }
  return 0;
}

static size_t place_not_answered(const struct map *map) {
  for (size_t dart = 1; dart <= map->m; dart++) {
    for (size_t i = 2; i <= map->n; i++) {
      size_t other = sewn_to(map, i, dart);
      if (other != 0 && sewn_to(map, i, other) != dart) {
        return place_of(map, i, dart);
      }
    }
  }
  return 0;
}

// The place is that of beta j.
static size_t place_composed_badly(const struct map *map) {
  for (size_t dart = 1; dart <= map->m; dart++) {
    for (size_t j = 3; j <= map->n; j++) {
      for (size_t i = 1; i + 2 <= j; i++) {
        size_t other = sewn_to(map, i, sewn_to(map, j, dart));
        if (other != 0 && sewn_to(map, i, sewn_to(map, j, other)) != dart) {
          return place_of(map, j, dart);
        }
      }
    }
  }
  return 0;
}

// labels[d] is the label of dart d, and labels[0] stays 0; the queue has the darts in the order
// labelled.
struct labelling {
  size_t length;
  uint16_t labels[MOST_NUMBERS + 1];
  uint16_t queue[MOST_NUMBERS];
};

// The label of a dart met, which is the next one where it has none yet; 0 has label 0.
static inline size_t visit(struct labelling *labelling, size_t dart) {
  size_t label = labelling->labels[dart];
  if (label == 0 && dart != 0) {
    labelling->queue[labelling->length] = (uint16_t)dart;
    labelling->length++;
    label = labelling->length;
    labelling->labels[dart] = (uint16_t)label;
  }
  return label;
}

static void begin(const struct map *map, struct labelling *labelling) {
  labelling->length = 0;
  memset(labelling->labels, 0, (map->m + 1) * sizeof labelling->labels[0]);
}

// Only darts of the queue have labels, so nothing else needs clearing.
static inline void forget(struct labelling *labelling) {
  for (size_t k = 0; k < labelling->length; k++) {
    size_t dart = labelling->queue[k];
    labelling->labels[dart] = 0;
  }
  labelling->length = 0;
}

// The least dart that is not reached, or 0. Leaves the labelling from dart 1 behind, as far as it came.
static size_t dart_not_reached(const struct map *map, const uint16_t *beta0, struct labelling *labelling) {
  visit(labelling, 1);
  for (size_t k = 0; k < labelling->length; k++) {
    size_t dart = labelling->queue[k];
    const uint16_t *row = map->table + (dart - 1) * map->n;
    visit(labelling, beta0[dart - 1]);
    for (size_t i = 0; i < map->n; i++) {
      visit(labelling, row[i]);
    }
  }
  for (size_t dart = 1; dart <= map->m; dart++) {
    if (labelling->labels[dart] == 0) {
      return dart;
    }
  }
  return 0;
}

static struct duftheim_verdict refused(uint32_t number, size_t place) {
  return (struct duftheim_verdict){number, place};
}

static struct duftheim_verdict accepted(void) {
  return (struct duftheim_verdict){0, 0};
}

// Judges 1 to 9 in their order; `needed` is looked at only where n and m are in bounds. An accepted
// map leaves its beta 0 behind and the labelling from dart 1.
static struct duftheim_verdict judge(struct map map, size_t table_length, size_t needed, size_t out_length, uint16_t *beta0,
                                     struct labelling *labelling) {
  if (map.n < 1 || map.n > MOST_SEWINGS) {
    return refused(1, 0);
  }
  // Divided and not multiplied: no product can wrap, and n divides 1,020.
  if (map.m == 0 || map.m > MOST_NUMBERS / map.n) {
    return refused(2, 0);
  }
  if (table_length != map.n * map.m) {
    return refused(3, 0);
  }
  if (out_length < needed) {
    return refused(4, 0);
  }
  size_t place = place_of_high_entry(&map);
  if (place != 0) {
    return refused(5, place);
  }
  place = place_of_clash(&map, beta0);
  if (place != 0) {
    return refused(6, place);
  }
  place = place_not_answered(&map);
  if (place != 0) {
    return refused(7, place);
  }
  place = place_composed_badly(&map);
  if (place != 0) {
    return refused(8, place);
  }
  begin(&map, labelling);
  size_t dart = dart_not_reached(&map, beta0, labelling);
  if (dart != 0) {
    return refused(9, dart);
  }
  return accepted();
}

#endif
