// Two maps to match: a map with its twin, the same under other names, or with a stranger of the
// same size. They are the same in every run.
#ifndef PAIRS_H
#define PAIRS_H

#include "kinds.h"

enum pair_relation { PAIR_TWIN, PAIR_STRANGER };

struct pair_kind {
  // The kind of both maps.
  const char *map_kind;
  // How many pairs are measured, at most MOST_MAPS_OF_A_KIND: several where the cost hangs on the
  // names that the darts happen to have.
  size_t pairs;
  // Makes a map a stranger to what it was, by one sewing.
  void (*estrange)(struct map *map);
};

extern const struct pair_kind pair_kinds[];
extern const size_t pair_kind_count;

// NULL where no kind of pair has maps of that name.
const struct pair_kind *pair_kind_named(const char *map_kind);

// Makes both maps of one pair of the kind, counted from 0.
void make_pair(const struct pair_kind *pair, size_t which, enum pair_relation relation, struct map *first, struct map *second);

#endif
