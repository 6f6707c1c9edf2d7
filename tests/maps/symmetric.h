// Maps whose symmetries are known from theory, and marks that only some symmetries of a map keep.
#ifndef SYMMETRIC_H
#define SYMMETRIC_H

#include "maps.h"

// A map and how many symmetries it has. It was sewn to its mirror image `doubled` times, each time by a new sewing.
struct shape {
  const char *name;
  uint64_t doubled;
  uint64_t symmetries;
  struct map map;
};

enum { MOST_SHAPES = 250 };

struct shapes {
  size_t count;
  struct shape shapes[MOST_SHAPES];
};

const struct shapes *all_shapes(void);

// Changes sewings at one dart and wherever some symmetries of the map, drawn by chance, take it; now and then all but one of
// these. So `kept` symmetries are left, or a multiple of that. False where trying found no accepted map.
bool map_marked(struct chance *chance, const struct map *map, struct map *marked, uint64_t *kept);

#endif
