// The kinds of map that are measured; their tables are the same in every run.
#ifndef KINDS_H
#define KINDS_H

#include "../maps/numberings.h"

enum { MOST_MAPS_OF_A_KIND = 16 };

// Where the signature of a kind is shown: among the shapes, among the small maps, or in a series of
// one shape at growing dart counts.
enum map_part { PART_SHAPES, PART_SMALL, PART_GROWTH };

struct map_kind {
  const char *name;
  enum map_part part;
  size_t n;
  size_t m;
  struct map (*make)(const struct map_kind *kind);
  // One random map says little about its size, so a kind may have several, of seeds in a row.
  size_t maps;
  // What a random map or numbering is drawn from; others don't look.
  uint64_t seed;
  // A grid is so many squares wide; other shapes don't look.
  size_t width;
  // A torus is sewn up so many squares further on in each round; other shapes don't look.
  size_t shift;
  enum numbering numbering;
};

extern const struct map_kind map_kinds[];
extern const size_t map_kind_count;

// NULL where no kind has the name.
const struct map_kind *map_kind_named(const char *name);

// One map of the kind, counted from 0.
struct map kind_map(const struct map_kind *kind, size_t which);

#endif
